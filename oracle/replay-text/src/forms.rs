//! Lines and their answers, as REPLAY.md has them.
use crate::program::answer;

const EXAMPLE: &str = "register 1 0xFD rs-00 0 100
start 1 100 enable
(0.120000) can0 028001FD#7FFF7FFF7FFF00FA
step 1 120
step 1 121
";

const EXAMPLE_ANSWERS: &str = "ok
(0.100000) can0 0300FD01#0000000000000000
sent due 340
ok
finished none
refused 21
";

pub fn example() -> Result<String, String> {
    same(EXAMPLE, EXAMPLE_ANSWERS)?;
    same(&EXAMPLE.replace('\n', "\r\n"), EXAMPLE_ANSWERS)?;
    Ok("with LF, and with CR LF".to_string())
}

/// What the end of an input may be where it tears a line, whatever the line would have been.
const TORN: &[&str] = &[
    "#",
    "# a comment",
    "\r",
    " ",
    "fresh",
    "look 1",
    "look 1\r",
    "remove 1 100",
    "start 1 100 get_parameter 0x7019 50",
    "start 1 100 get_parameter 0x7019 5000",
    "(0.120000) can0 028001FD#7FFF7FFF7FFF00FA",
    "no event",
];

/// A last line without LF is half a line as often as a whole one: it is an error, and not run.
pub fn torn() -> Result<String, String> {
    for end in TORN {
        same(end, "error the input ends within a line\n")?;
        same(
            &format!("{EXAMPLE}{end}"),
            &format!("{EXAMPLE_ANSWERS}error the input ends within a line\n"),
        )?;
    }
    same("", "")?;
    Ok(format!("{} ends", TORN.len()))
}

fn same(input: &str, expected: &str) -> Result<(), String> {
    let said = answer(input.as_bytes())?;
    match said == expected {
        true => Ok(()),
        false => Err(format!("{input:?} was answered {said:?}, not {expected:?}")),
    }
}

/// Lines on a station with motor 1 (rs-00, host FD, write wait 0, clock 100), each on its own.
const ANSWERED: &[(&str, &str)] = &[
    ("", ""),
    ("# a comment", ""),
    ("#", ""),
    ("fresh", "ok\n"),
    ("register 2 0xFD rs-00 0 100", "ok\n"),
    ("register 0x02 253 rs-05el 60000 1000000000000000", "ok\n"),
    ("register 2 0xFd rs-06 00 0x0000000000000000000064", "ok\n"),
    ("register 0 0xFD rs-00 0 100", "refused 1\n"),
    ("register 99999999999 0xFD rs-00 0 100", "refused 1\n"),
    ("register 2 65536 rs-00 0 100", "refused 2\n"),
    ("register 2 0xFD rs-99 0 100", "refused 3\n"),
    ("register 2 0xFD \u{fffd}\u{fffd} 0 100", "refused 3\n"),
    ("register 1 0xFD rs-00 0 100", "refused 5\n"),
    ("register 2 0xFD rs-00 60001 100", "refused 9\n"),
    (
        "register 2 0xFD rs-00 0 18446744073709551615",
        "refused 7\n",
    ),
    ("start 9 100 enable", "refused 6\n"),
    ("start 18446744073709551615 100 enable", "refused 6\n"),
    ("start 1 99 enable", "refused 7\n"),
    ("start 1 100 ping 60001", "refused 9\n"),
    ("start 1 100 ping_with_host_id 65536 1", "refused 2\n"),
    ("start 1 100 set_device_id 0", "refused 19\n"),
    ("start 1 100 set_protocol 300 10", "refused 12\n"),
    ("start 1 100 write_parameter 0x200D u8 1", "refused 10\n"),
    ("start 1 100 write_parameter 0x7005 u8 1", "refused 11\n"),
    (
        "start 1 100 write_parameter 0x7005 i8 0xFF",
        "(0.100000) can0 1200FD01#05700000FF000000\nfinished none\n",
    ),
    (
        "start 1 1234567 set_active_report 1",
        "(1234.567000) can0 1800FD01#0102030405060100\nfinished none\n",
    ),
    (
        "start 1 100 send_cmd_mit 0 0 0 0 0",
        "(0.100000) can0 017FFF01#7FFF7FFF00000000\nfinished none\n",
    ),
    (
        "start 1 100 get_parameter_with_host_id 0x7005 0xAB 0",
        "(0.100000) can0 1100AB01#0570000000000000\nsent due 100\n",
    ),
    ("step 1 100", "refused 21\n"),
    ("(0.120000) can0 028001FD#7FFF7FFF7FFF00FA", "ok\n"),
    ("(0.120999) any_word 028001fd#7fff7FFF7fff00fa R", "ok\n"),
    ("(00.120000) x 028001FD# T", "ok\n"),
    ("(1000000000000.000999) can0 028001FD#", "ok\n"),
    ("(1000000000000.001000) can0 028001FD#", "refused 7\n"),
    ("(18446744073709551.615999) can0 028001FD#", "refused 7\n"),
    ("(0.120000) can0 28F#", "refused 13\n"),
    ("(0.120000) can0 020002FD#00", "refused 13\n"),
    (
        "(0.120000) can0 110101FD#0570000000000000",
        "refused 14 7005 01\n",
    ),
    ("frame 120 0x028001FD 7FFF7FFF7FFF00FA 1 8 1", "ok\n"),
    ("frame 120 0xE28001FD 7FFF7FFF7FFF00FA 1 255 0", "ok\n"),
    (
        "frame 120 0x028001FD 7FFF7FFF7FFF00FA 0 8 1",
        "refused 13\n",
    ),
    ("frame 99 0x028001FD 7FFF7FFF7FFF00FA 1 8 1", "refused 7\n"),
    ("look 9", "refused 6\n"),
    ("remove 9 100", "refused 6\n"),
    ("remove 1 99", "refused 7\n"),
    ("remove 1 100", "ok\n"),
];

pub fn answered() -> Result<String, String> {
    for (line, expected) in ANSWERED {
        same(
            &format!("register 1 0xFD rs-00 0 100\n{line}\n"),
            &format!("ok\n{expected}"),
        )?;
    }
    Ok(format!("{} lines", ANSWERED.len()))
}

/// Lines that are no events.
const ERRORS: &[&str] = &[
    " ",
    "fresh ",
    " fresh",
    "fresh 1",
    "Fresh",
    "register",
    "register 1 0xFD  0 100",
    "register 1 0xFD rs-00 0 100 ",
    "register 1  0xFD rs-00 0 100",
    "register 0X1 0xFD rs-00 0 100",
    "register 0x 0xFD rs-00 0 100",
    "register 1 FD rs-00 0 100",
    "register -1 0xFD rs-00 0 100",
    "register 1 0xFD rs-00 0 18446744073709551616",
    "start",
    "start 1 100",
    "start 1 100 fly",
    "start 1 100 enable 1",
    "start 1 100 ping",
    "start 1 100 set_mode mit,",
    "start 1 100 set_mode 1",
    "start 1 100 set_active_report 2",
    "start 1 100 set_device_id 256",
    "start 1 100 request_parameter 0x10000",
    "start 1 100 set_velocity_target 0x100000000",
    "start 1 100 write_parameter 0x7005 i8 0x100",
    "start 1 100 write_parameter 0x7026 u16 0x10000",
    "start 1 100 write_parameter 0x7005 I8 1",
    "start 1 100 send_cmd_mit 0 0 0 0",
    "step 1",
    "frame 120 0x028001FD 7FFF7FFF7FFF00FA 1 8",
    "frame 120 0x1028001FD 7FFF7FFF7FFF00FA 1 8 1",
    "frame 120 0x028001FD 7FFF7FFF7FFF00F 1 8 1",
    "frame 120 0x028001FD 7FFF7FFF7FFF00FA 2 8 1",
    "frame 120 0x028001FD 7FFF7FFF7FFF00FA 1 256 1",
    "frame 120 0x028001FD 7FFF7FFF7FFF00FA 1 8 2",
    "look",
    "look 1 1",
    "remove 1",
    "(0.120000) can0",
    "(0.120000)  028001FD#",
    "(0.12000) can0 028001FD#",
    "(0.1200000) can0 028001FD#",
    "(.120000) can0 028001FD#",
    "(0,120000) can0 028001FD#",
    "(0.120000 can0 028001FD#",
    "(18446744073709551.616000) can0 028001FD#",
    "(0.120000) can0 028001FD",
    "(0.120000) can0 28001FD#",
    "(0.120000) can0 028001FG#",
    "(0.120000) can0 028001FD#0",
    "(0.120000) can0 028001FD#000000000000000000",
    "(0.120000) can0 028001FD#0G",
    "(0.120000) can0 028001FD#R",
    "(0.120000) can0 028001FD#R8",
    "(0.120000) can0 028001FD##000",
    "(0.120000) can0 20000088#0000000000000000",
    "(0.120000) can0 028001FD# X",
    "(0.120000) can0 028001FD# R R",
    "candump",
    "\u{0}",
    "\t",
];

pub fn errors() -> Result<String, String> {
    for line in ERRORS {
        let said = answer(format!("register 1 0xFD rs-00 0 100\n{line}\nstep 1 100\n").as_bytes())?;
        let lines: Vec<&str> = said.lines().collect();
        let error = lines
            .get(1)
            .is_some_and(|line| line.starts_with("error ") && line.len() > 10);
        if lines.len() != 3 || !error || lines[2] != "refused 21" {
            return Err(format!("{line:?} was answered {said:?}"));
        }
    }
    Ok(format!(
        "{} lines, each answered by an error with a reason",
        ERRORS.len()
    ))
}

const LOOK: &str = "register 7 0xAB rs-05el 12 100
(0.110000) can0 02BF07AB#FFFE00007FFF0001
frame 120 0x150007AB 0500010000000000 1 8 1
(0.130000) can0 000007AB#0102030405060708
(0.140000) can0 110007AB#0570000002000000
(0.141000) can0 110007AB#19700000DB0FC93F
(0.142000) can0 110007AB#0D20000001000000
(0.143000) can0 110007AB#0020000034120000
start 7 150 send_cmd_mit 0x3F800000 0 0x7FC00001 0x40A00000 0
start 7 160 controlled_stop 200
look 7
";

const LOOK_ANSWERS: &str = "ok
ok
ok
ok
ok
ok
ok
ok
(0.150000) can0 017FFF07#8A2E7FFF0000FFFF
finished none
(0.160000) can0 1100AB07#0570000000000000
sent due 360
motor 07 AB rs-05el 12
clock 160
responses 7
sequence 1
feedback 02BF07AB 07 2 41490FDB C2480000 00000000 3DCCCCCD undervoltage,overcurrent,overtemperature,magnetic_encoder_fault,stall,uncalibrated
fault 00010005 00000000 overtemperature,undervoltage,phase_a_overcurrent -
ping 07 AB 0102030405060708
version none
gains 7FC00001 40A00000
running controlled_stop due 360
reading 2000 U16 1234
reading 200D U32 00000001
reading 7019 F32 3FC90FDB
end
";

/// One look that shows everything. The answers were worked out by hand.
pub fn looked() -> Result<String, String> {
    same(LOOK, LOOK_ANSWERS)?;
    Ok("all that a motor holds".to_string())
}
