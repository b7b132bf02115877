//! Refusals by name and number.
use std::fmt;

/// A value that a refusal carries: as an answer has it.
trait Carried: Sized {
    fn text(self) -> String;
    fn read(word: &str) -> Option<Self>;
}

/// A parameter's id.
impl Carried for u16 {
    fn text(self) -> String {
        format!("{self:04X}")
    }

    fn read(word: &str) -> Option<u16> {
        u16::from_str_radix(word, 16).ok()
    }
}

/// A read status.
impl Carried for u8 {
    fn text(self) -> String {
        format!("{self:02X}")
    }

    fn read(word: &str) -> Option<u8> {
        u8::from_str_radix(word, 16).ok()
    }
}

/// The last value read, or none.
impl Carried for Option<i8> {
    fn text(self) -> String {
        self.map_or_else(|| "none".to_string(), |last| last.to_string())
    }

    fn read(word: &str) -> Option<Option<i8>> {
        match word {
            "none" => Some(None),
            last => last.parse().ok().map(Some),
        }
    }
}

/// The table of refusals: number, name, the values carried, and the meaning, which says them.
macro_rules! refusals {
    ($(#[$doc:meta])* $($number:literal $name:ident $({$($value:ident: $kind:ty),+})? $meaning:literal;)+) => {
        $(#[$doc])*
        pub enum Refusal {
            $(#[doc = $meaning] $name $({$($value: $kind),+})?,)+
        }

        impl Refusal {
            /// The numbers of the table.
            pub const NUMBERS: [u8; [$($number),+].len()] = [$($number),+];

            /// The number in document 01's table.
            pub fn number(self) -> u8 {
                match self {
                    $(Refusal::$name { .. } => $number,)+
                }
            }

            /// What it means, for people.
            pub fn meaning(self) -> String {
                match self {
                    $(Refusal::$name $({$($value),+})? => format!($meaning $($(, $value = $value.text())+)?),)+
                }
            }

            /// The values that it carries, as an answer has them.
            fn carried(self) -> Vec<String> {
                match self {
                    $(Refusal::$name $({$($value),+})? => vec![$($($value.text()),+)?],)+
                }
            }

            /// The refusal of a number with its values, as an answer has them.
            fn of<'a>(number: u8, mut values: impl Iterator<Item = &'a str>) -> Option<Refusal> {
                let refusal = match number {
                    $($number => Refusal::$name $({$($value: Carried::read(values.next()?)?),+})?,)+
                    _ => return None,
                };
                values.next().is_none().then_some(refusal)
            }
        }
    };
}

refusals! {
    /// Why a call was refused, or a step failed. The names are the station's own.
    #[derive(Clone, Copy, Debug, PartialEq, Eq)]
    1 MotorIdOutOfRange "motor id not 1..255";
    2 HostIdOutOfRange "host id above 255";
    3 UnknownModel "model unknown";
    4 StationFull "8 motors registered";
    5 IdRegistered "id registered";
    6 IdNotRegistered "id not registered";
    7 TimeOutOfRange "time below the motor's clock, or above 10^15";
    8 OperationRunning "operation running";
    9 TimeoutTooLong "timeout or wait above 60,000";
    10 UnlistedParameter "written id unlisted";
    11 KindDiffers "kind differs";
    12 UnknownProtocol "protocol not 0..2";
    13 FrameNotAccepted "frame not accepted";
    14 ReadFailed { id: u16, status: u8 } "the read of parameter {id} has status {status}";
    15 ReadingsFull "96 others held, id new";
    16 WindowsGone "last window gone";
    17 UnsupportedRunMode "run_mode not 0, 1, 2, 5";
    18 ModeNotReached { last: Option<i8> } "third mode attempt failed, the last run_mode read after a write: {last}";
    19 NewDeviceIdZero "new device id 0";
    20 ReadingOfAnotherKind "reading of another kind";
    21 NothingRunning "step, nothing running";
    22 NotPingReply "not a ping reply";
    23 NotVersionReply "not a version reply";
}

impl Refusal {
    /// Whether a step refused by it has ended its operation.
    pub fn ends_operation(self) -> bool {
        matches!(
            self,
            Refusal::WindowsGone
                | Refusal::UnsupportedRunMode
                | Refusal::ModeNotReached { .. }
                | Refusal::ReadingOfAnotherKind
        )
    }

    /// As an answer has it: `refused 14 7005 01`.
    pub(crate) fn line(self) -> String {
        let mut words = vec!["refused".to_string(), self.number().to_string()];
        words.extend(self.carried());
        words.join(" ")
    }

    /// The refusal that such a line is.
    pub(crate) fn parse(line: &str) -> Option<Refusal> {
        let mut words = line.strip_prefix("refused ")?.split(' ');
        Refusal::of(words.next()?.parse().ok()?, words)
    }
}

impl fmt::Display for Refusal {
    fn fmt(&self, f: &mut fmt::Formatter) -> fmt::Result {
        write!(f, "refused {}: {}", self.number(), self.meaning())
    }
}

impl std::error::Error for Refusal {}
