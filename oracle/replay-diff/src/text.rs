//! Events and lines read again: their times and frames.
use ops::frame::Frame;

fn bytes(digits: &str) -> Option<[u8; 8]> {
    let mut data = [0; 8];
    for (i, byte) in data.iter_mut().enumerate() {
        let digits = digits.get(2 * i..2 * i + 2).unwrap_or("00");
        *byte = u8::from_str_radix(digits, 16).ok()?;
    }
    Some(data)
}

/// The time and the frame of a candump line.
pub fn candump(line: &str) -> Option<(u64, Frame)> {
    let (stamp, rest) = line.strip_prefix('(')?.split_once(") can0 ")?;
    let (seconds, micros) = stamp.split_once('.')?;
    let (seconds, micros): (u64, u64) = (seconds.parse().ok()?, micros.parse().ok()?);
    let (id, data) = rest.split_once('#')?;
    let id = u32::from_str_radix(id, 16).ok()?;
    let frame = Frame {
        dlc: (data.len() / 2) as u8,
        ..Frame::heard(id, bytes(data)?)
    };
    Some((seconds * 1000 + micros / 1000, frame))
}

/// The time and the frame of the event by which one is heard.
pub fn heard(event: &str) -> Option<(u64, Frame)> {
    let Some(rest) = event.strip_prefix("frame ") else {
        return candump(event);
    };
    let words: Vec<&str> = rest.split(' ').collect();
    let [time, id, data, extended, dlc, rx] = words[..] else {
        return None;
    };
    let frame = Frame {
        id: u32::from_str_radix(id.strip_prefix("0x")?, 16).ok()?,
        data: bytes(data)?,
        dlc: dlc.parse().ok()?,
        extended: extended == "1",
        rx: rx == "1",
    };
    Some((time.parse().ok()?, frame))
}

/// The time of an event. A look and `fresh` have none.
pub fn time(event: &str) -> Option<u64> {
    let words: Vec<&str> = event.split(' ').collect();
    match words[0] {
        "register" => words.last()?.parse().ok(),
        "start" | "step" | "remove" => words.get(2)?.parse().ok(),
        _ => Some(heard(event)?.0),
    }
}

#[cfg(test)]
mod tests {
    use super::*;

    #[test]
    fn events_and_frames() {
        let strange = Frame {
            dlc: 3,
            rx: false,
            ..Frame::heard(0xFFFF_FFFF, [1, 2, 3, 4, 5, 6, 7, 8])
        };
        for frame in [strange, Frame::heard(0x0280_01FD, [9; 8])] {
            assert_eq!(heard(&frame.event(12_345)), Some((12_345, frame)));
        }
        assert_eq!(heard("look 1"), None);
        assert_eq!(heard("step 1 2"), None);
    }

    #[test]
    fn times() {
        assert_eq!(time("register 1 0xFD rs-00 0 100"), Some(100));
        assert_eq!(time("start 1 7 ping 20"), Some(7));
        assert_eq!(time("(1.020000) can0 028001FD#00"), Some(1020));
        assert_eq!(time("look 1"), None);
        assert_eq!(time("fresh"), None);
    }
}
