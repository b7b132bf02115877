//! Each call of the station, with REPLAY.md's example.
#[allow(dead_code)]
mod common;

use combradish_client::{
    Command, Frame, Heard, HeardId, Model, Outcome, Recording, Refusal, Said, SentFrame, Stamp,
    Station, Taken, Version,
};
use common::{program, scratch};
use std::fs::{self, File};

const SESSION: &str = "fresh
register 1 0xFD rs-00 0 100
start 1 100 enable
(0.120000) can0 028001FD#7FFF7FFF7FFF00FA
step 1 120
step 1 121
frame 122 0x110101FD 0570000000000000 1 8 1
look 1
remove 1 130
look 1
";

const STATUS: [u8; 8] = [0x7F, 0xFF, 0x7F, 0xFF, 0x7F, 0xFF, 0x00, 0xFA];

fn register_and_enable(station: &mut Station) {
    assert_eq!(station.fresh().expect("an answer"), Taken::Ok);
    let model = Model::new("rs-00").expect("a name");
    let registered = station.register(1, 0xFD, model, 0, 100);
    assert_eq!(registered.expect("an answer"), Taken::Ok);
    let reply = station.start(1, 100, Command::Enable).expect("an answer");
    let frame = SentFrame {
        time: 100,
        id: 0x0300_FD01,
        data: [0; 8],
    };
    assert_eq!(reply.frame, Some(frame));
    assert_eq!(reply.said, Said::Sent { due: 340 });
}

#[test]
fn each_call() {
    let session = scratch("calls.session");
    let recording = Recording::none().session(File::create(&session).expect("a file"));
    let mut station = Station::open(&program(), recording).expect("replay starts");
    register_and_enable(&mut station);
    let id = HeardId::extended(0x0280_01FD).expect("an id");
    let heard = Heard::new(Stamp::at_millis(120), id, STATUS.into());
    assert_eq!(station.heard(heard).expect("an answer"), Taken::Ok);
    let reply = station.step(1, 120).expect("an answer");
    assert_eq!(reply.said, Said::Finished(Outcome::Nothing));
    let reply = station.step(1, 121).expect("an answer");
    assert_eq!(reply.said, Said::Refused(Refusal::NothingRunning));
    let frame = Frame {
        id: 0x1101_01FD,
        data: [0x05, 0x70, 0, 0, 0, 0, 0, 0],
        extended: true,
        dlc: 8,
        rx: true,
    };
    let read = station.frame(122, frame).expect("an answer").result();
    let failed = Refusal::ReadFailed {
        id: 0x7005,
        status: 1,
    };
    assert_eq!((read, failed.number()), (Err(failed), 14));
    let held = station.look(1).expect("an answer").result();
    let held = held.expect("motor 1 is held");
    assert_eq!((held.clock, held.responses, held.sequence), (122, 2, 1));
    assert_eq!(station.remove(1, 130).expect("an answer"), Taken::Ok);
    let gone = station.look(1).expect("an answer").result();
    assert_eq!(gone, Err(Refusal::IdNotRegistered));
    station.finish().expect("a good end");
    assert_eq!(fs::read_to_string(session).expect("the session"), SESSION);
}

/// A version is asked once, and its reply is no status.
#[test]
fn a_version() {
    let mut station = Station::open(&program(), Recording::none()).expect("replay starts");
    let model = Model::new("rs-00").expect("a name");
    let registered = station.register(6, 0xFD, model, 0, 100);
    assert_eq!(registered.expect("an answer"), Taken::Ok);
    let reply = station.start(6, 100, Command::GetVersion);
    let reply = reply.expect("an answer");
    let data = [0, 0xC4, 0, 0, 0, 0, 0, 0];
    let frame = SentFrame {
        time: 100,
        id: 0x0400_FD06,
        data,
    };
    assert_eq!(reply.frame, Some(frame));
    let own = Version {
        device: 6,
        version: [0, 3, 1, 6],
    };
    let id = HeardId::extended(0x0200_06FD).expect("an id");
    let data = [0x00, 0xC4, 0x56, 0, 3, 1, 6, 0];
    let heard = Heard::new(Stamp::at_millis(120), id, data.into());
    assert_eq!(station.heard(heard).expect("an answer"), Taken::Ok);
    let held = station.look(6).expect("an answer").result();
    let held = held.expect("motor 6 is held");
    assert_eq!((held.version, held.feedback), (Some(own), None));
    let reply = station.step(6, 900).expect("an answer");
    assert_eq!(reply.said, Said::Finished(Outcome::Version(own)));
    let held = station.look(6).expect("an answer").result();
    let held = held.expect("motor 6 is held");
    assert_eq!((held.version, held.responses, held.sequence), (None, 1, 0));
    station.finish().expect("a good end");
}
