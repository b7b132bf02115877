//! What the types let by.
use combradish_client::{Command, Data, HeardId, Interface, Model, NotAName, Stamp, Value, Word};

#[test]
fn a_model_is_one_word() {
    assert_eq!(Model::new(""), Err(NotAName::Empty));
    for text in [
        "rs 00", " rs-00", "rs-00 ", "rs-00\n", "rs-00\r", "rs\t00", "rs\0", "rs-é", "\u{7f}",
    ] {
        let refused = matches!(Model::new(text), Err(NotAName::Character(_)));
        assert!(refused, "{text:?} is let by");
        assert!(Interface::new(text).is_err(), "{text:?} is let by");
    }
    assert_eq!(Model::new(&"a".repeat(256)), Err(NotAName::TooLong));
    assert!(Model::new(&"a".repeat(255)).is_ok());
    assert_eq!(
        Model::new("rs-05el").map(|m| m.to_string()),
        Ok("rs-05el".into())
    );
}

#[test]
fn a_frame_heard_has_a_logs_bounds() {
    assert!(Stamp::new(18_446_744_073_709_551, 615_999).is_some());
    assert!(Stamp::new(18_446_744_073_709_551, 616_000).is_none());
    assert!(Stamp::new(0, 1_000_000).is_none());
    assert_eq!(Stamp::at_millis(u64::MAX).millis(), u64::MAX);
    assert!(HeardId::extended(0x2000_0000).is_none());
    assert!(HeardId::standard(0x800).is_none());
    assert!(Data::new(&[0; 9]).is_none());
    assert_eq!(
        Data::new(&[0xAB, 1]).map(|d| d.to_string()),
        Some("AB01".into())
    );
}

#[test]
fn floats_go_by_their_bits() {
    let write = Command::WriteParameter {
        id: 0x7016,
        value: Value::F32(Word::from(-0.5)),
    };
    assert_eq!(write.to_string(), "write_parameter 0x7016 f32 0xBF000000");
    assert_eq!(f32::from(Word(0x3F40_0000)), 0.75);
    let write = Command::WriteParameter {
        id: 0x7005,
        value: Value::I8(-1),
    };
    assert_eq!(write.to_string(), "write_parameter 0x7005 i8 0xFF");
}
