//! What a look shows, in types, and looks that are none.
use combradish_client::{Answer, FaultFlag, Form, Held, Looked, Mode, StateFlag, Value, Word};

const LOOK: &str = "motor 07 AB rs-05el 12
clock 160
responses 7
sequence 1
feedback 02BF07AB 07 2 41490FDB C2480000 00000000 3DCCCCCD undervoltage,stall,uncalibrated
fault 00010005 00000000 overtemperature,undervoltage,phase_a_overcurrent -
ping 07 AB 0102030405060708
version 07 00030107
gains 7FC00001 40A00000
running controlled_stop due 360
reading 2000 U16 1234
reading 7005 I8 FF
reading 7019 F32 3FC90FDB
end";

fn parse(text: &str) -> Result<Held, String> {
    let lines: Vec<String> = text.split('\n').map(str::to_string).collect();
    match Answer::parse(Form::Look, &lines)? {
        Answer::Looked(Looked::Held(held)) => Ok(*held),
        other => Err(other.to_string()),
    }
}

#[test]
fn all_that_is_held() {
    let held = parse(LOOK).expect("a look");
    assert_eq!(held.to_string(), LOOK);
    assert_eq!((held.registered.id, held.registered.wait), (7, 12));
    assert_eq!((held.clock, held.responses, held.sequence), (160, 7, 1));
    let feedback = held.feedback.as_ref().expect("feedback");
    let flags = [
        StateFlag::Undervoltage,
        StateFlag::Stall,
        StateFlag::Uncalibrated,
    ];
    assert_eq!(
        (feedback.mode_state, feedback.flags.as_slice()),
        (2, &flags[..])
    );
    assert_eq!(f32::from(feedback.velocity), -50.0);
    let fault = held.fault.as_ref().expect("a fault report");
    assert_eq!(fault.faults[2], FaultFlag::PhaseAOvercurrent);
    assert!(fault.warnings.is_empty());
    assert_eq!(held.ping.expect("a ping reply").payload[7], 8);
    let version = held.version.expect("a version");
    assert_eq!((version.device, version.version), (7, [0, 3, 1, 7]));
    assert_eq!(held.gains.kp, Word(0x7FC0_0001));
    assert_eq!(
        held.running.map(|r| (r.command, r.due)),
        Some(("controlled_stop", 360))
    );
    assert_eq!(held.reading(0x7005), Some(Value::I8(-1)));
    assert_eq!(held.reading(0x7019), Some(Value::F32(Word(0x3FC9_0FDB))));
    assert_eq!(held.reading(0x7016), None);
    assert_eq!(Mode::named("csp"), Some(Mode::PositionCsp));
}

/// Each change makes this line of the answer wrong.
#[test]
fn looks_that_are_none() {
    let cases = [
        ("motor 07", "motor 7", "motor 7 AB rs-05el 12"),
        ("clock 160", "clock 0160", "clock 0160"),
        ("clock 160\n", "", "responses 7"),
        ("sequence 1", "sequence -1", "sequence -1"),
        (" 07 2 ", " 07 4 ", "feedback 02BF07AB 07 4"),
        (
            "undervoltage,stall",
            "stall,undervoltage",
            "feedback 02BF07AB",
        ),
        (
            "undervoltage,stall",
            "undervoltage,,stall",
            "feedback 02BF07AB",
        ),
        (
            "undervoltage,stall",
            "undervoltage,bent",
            "feedback 02BF07AB",
        ),
        ("_overcurrent -", "_overcurrent", "fault 00010005"),
        ("ping 07 AB 01", "ping 07 AB ", "ping 07 AB "),
        ("version 07", "version 7", "version 7 00030107"),
        ("00030107", "0003010", "version 07 0003010"),
        ("version 07 00030107\n", "", "gains 7FC00001"),
        ("40A00000", "40a00000", "gains 7FC00001 40a00000"),
        ("controlled_stop", "stop", "running stop due 360"),
        ("reading 2000", "reading 7006", "reading 7005 I8 FF"),
        ("reading 2000", "reading 7005", "reading 7005 I8 FF"),
        ("I8 FF", "I8 1FF", "reading 7005 I8 1FF"),
        ("U16 1234", "u16 1234", "reading 2000 u16 1234"),
        ("\nend", "\nEnd", "End"),
        ("\nend", "\nend\nend", "end"),
    ];
    for (from, to, wrong) in cases {
        let said = parse(&LOOK.replace(from, to)).expect_err(to);
        assert!(said.starts_with(wrong), "{to:?} gives {said:?}");
    }
}

#[test]
fn at_most_96_readings() {
    let look = |n: u16| {
        let readings: String = (0..n)
            .map(|id| format!("reading {id:04X} U8 00\n"))
            .collect();
        let (head, _) = LOOK.split_once("reading").expect("readings");
        format!("{head}{readings}end")
    };
    assert_eq!(parse(&look(96)).map(|held| held.readings.len()), Ok(96));
    assert_eq!(parse(&look(97)), Err("reading 0060 U8 00".to_string()));
}
