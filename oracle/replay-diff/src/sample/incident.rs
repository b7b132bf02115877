//! The incident: motors 2 and 6 on one station, both asked for 7019, with replies interleaved both
//! ways; each must be held at its own angle. The Rust runs one motor at a time, so each motor's answers
//! come from a run of its own, and the two sessions are merged by time.
use super::Titled;
use crate::merge::merge;
use ops::command::Command;
use ops::frame::Frame;
use ops::run::run;
use ops::schedule::Schedule;
use ops::session::{Detail, Session};

const DETAIL: Detail = Detail {
    polls: false,
    frames: true,
    looks: true,
};

/// 1.5 and -0.75 rad.
const ANGLES: [u32; 2] = [0x3FC0_0000, 0xBF40_0000];

/// What both motors are asked, and the run mode that they give.
#[derive(Clone, Copy)]
struct Asked {
    command: Command,
    mode: Option<u32>,
    write_wait: u64,
}

pub fn sessions() -> Vec<Titled> {
    let stop = |mode, write_wait| Asked {
        command: Command::ControlledStop(200),
        mode: Some(mode),
        write_wait,
    };
    let read = Asked {
        command: Command::GetParameterF32(0x7019, 200),
        mode: None,
        write_wait: 0,
    };
    let asked = [
        ("get_parameter_f32", read),
        ("controlled_stop, run mode 5", stop(5, 0)),
        ("controlled_stop, run mode 5, write wait 120", stop(5, 120)),
        ("controlled_stop, run mode 0", stop(0, 0)),
    ];
    let ways = [
        ("2 is answered first", [30, 60]),
        ("6 is answered first", [60, 30]),
    ];
    let titled = |(name, asked): (&str, Asked), (way, after): (&str, [u64; 2])| Titled {
        title: format!("The incident, motors 2 and 6 read 7019: {name}; {way}"),
        session: both(asked, after),
    };
    let pairs = asked
        .into_iter()
        .flat_map(|asked| ways.map(|way| titled(asked, way)));
    pairs.collect()
}

/// Both motors, 2 asked before 6, each answered so long after its frames.
fn both(asked: Asked, after: [u64; 2]) -> Session {
    let two = one(2, 1000, asked, after[0], ANGLES[0]);
    let six = one(6, 1005, asked, after[1], ANGLES[1]);
    merge([&two, &six])
}

fn one(motor: u16, time: u64, asked: Asked, after: u64, angle: u32) -> Session {
    let mut replies: Vec<Frame> = Vec::new();
    replies.extend(asked.mode.map(|mode| reply(motor, 0x7005, mode)));
    replies.push(reply(motor, 0x7019, angle));
    replies.push(status(motor));
    let model = if motor == 2 { "rs-00" } else { "rs-06" };
    let mut schedule =
        Schedule::new(motor, 0xFD, model, asked.write_wait, 900).command(time, asked.command);
    for (sent, frame) in replies.into_iter().enumerate() {
        schedule = schedule.answer(sent, after, frame);
    }
    let log = run(&schedule).expect("the schedule is good");
    Session::of(&log, DETAIL).expect("few readings are held")
}

fn reply(motor: u16, parameter: u16, bits: u32) -> Frame {
    let ([a, b], [e, f, g, h]) = (parameter.to_le_bytes(), bits.to_le_bytes());
    heard(0x11, 0x00, motor, [a, b, 0, 0, e, f, g, h])
}

fn status(motor: u16) -> Frame {
    let data = [0x7F, 0xFF, 0x7F, 0xFF, 0x7F, 0xFF, 0x00, 0xFA];
    heard(0x02, 0x80, motor, data)
}

fn heard(kind: u32, high: u32, motor: u16, data: [u8; 8]) -> Frame {
    let id = kind << 24 | high << 16 | u32::from(motor) << 8 | 0xFD;
    Frame::heard(id, data)
}

#[cfg(test)]
mod tests {
    use super::*;

    /// Each is held at its own angle, whoever is answered first.
    #[test]
    fn each_at_its_own_angle() {
        for Titled { title, session } in sessions() {
            let output = session.output();
            let has = |texts: [&str; 2]| texts.iter().all(|text| output.contains(text));
            assert!(has([
                "reading 7019 F32 3FC00000",
                "reading 7019 F32 BF400000"
            ]));
            if title.contains("run mode 5") {
                assert!(has([
                    "1200FD02#167000000000C03F",
                    "1200FD06#16700000000040BF"
                ]));
            } else if title.contains("run mode 0") {
                // 1.5 and -0.75 of 4 pi: (x + 1) * 32767 is 8F46 and 785B.
                assert!(has([" can0 017FFF02#8F467FFF", " can0 017FFF06#785B7FFF"]));
            }
        }
    }

    /// The events of both stand in the order of their times, and replies come in both orders.
    #[test]
    fn interleaved() {
        let order = |after| {
            let session = both(
                Asked {
                    command: Command::GetParameterF32(0x7019, 200),
                    mode: None,
                    write_wait: 0,
                },
                after,
            );
            let input = session.input();
            let at = |text: &str| input.find(text).expect("it is there");
            assert!(at("start 2") < at("start 6"));
            at("can0 110002FD") < at("can0 110006FD")
        };
        assert!(order([30, 60]) && !order([60, 30]));
    }
}
