//! Shapes: a letter for each word of an event after its name, by which replay reads a line too.
//!
//! T a number: a time, a timeout or a wait. I a motor's id or a host, P a protocol: above what its type
//! holds it is handed in as the most of it. B a number up to 255, H up to 65,535, W up to 2^32 - 1, F 0
//! or 1. D a payload of 16 digits. C a mode, K a kind. X any word.
use crate::command::Command;
use crate::event::Frame;
use crate::heard::Data;
use crate::name::Model;
use crate::value::{Mode, Value, Word};

/// The words of a line that are still to be read.
pub(crate) type Words<'a> = std::slice::Iter<'a, &'a str>;

/// A type as an argument of a letter. One that is several words stands for their letters, by the first.
pub(crate) trait Argument<const LETTER: char>: Sized {
    /// Its words, at this place behind the event's name.
    fn print(&self, place: usize) -> String;

    fn read(words: &mut Words) -> Option<Self>;
}

/// Numbers by letter: the type, how it is printed, and what stands for a number that is too great.
macro_rules! numbers {
    ($($letter:literal $kind:ident $form:literal $beyond:expr;)+) => {
        $(impl Argument<$letter> for $kind {
            fn print(&self, _: usize) -> String {
                format!($form, self)
            }

            fn read(words: &mut Words) -> Option<$kind> {
                $kind::try_from(number(words.next()?)?).ok().or($beyond)
            }
        })+
    };
}

numbers! {
    'T' u64 "{}" None;
    'P' u8 "{}" Some(u8::MAX);
    'B' u8 "{}" None;
    'H' u16 "0x{:04X}" None;
    'W' u32 "0x{:08X}" None;
}

/// The first word of an event is the motor's id, in decimal; any other is a host, in hexadecimal.
impl Argument<'I'> for u16 {
    fn print(&self, place: usize) -> String {
        match place {
            0 => self.to_string(),
            _ => format!("0x{self:02X}"),
        }
    }

    fn read(words: &mut Words) -> Option<u16> {
        Some(u16::try_from(number(words.next()?)?).unwrap_or(u16::MAX))
    }
}

impl Argument<'W'> for Word {
    fn print(&self, place: usize) -> String {
        Argument::<'W'>::print(&self.0, place)
    }

    fn read(words: &mut Words) -> Option<Word> {
        <u32 as Argument<'W'>>::read(words).map(Word)
    }
}

impl Argument<'F'> for bool {
    fn print(&self, _: usize) -> String {
        u8::from(*self).to_string()
    }

    fn read(words: &mut Words) -> Option<bool> {
        match number(words.next()?)? {
            0 => Some(false),
            1 => Some(true),
            _ => None,
        }
    }
}

impl Argument<'D'> for [u8; 8] {
    fn print(&self, _: usize) -> String {
        Data::from(*self).to_string()
    }

    fn read(words: &mut Words) -> Option<[u8; 8]> {
        Data::parse(words.next()?)?.bytes().try_into().ok()
    }
}

impl Argument<'C'> for Mode {
    fn print(&self, _: usize) -> String {
        self.to_string()
    }

    fn read(words: &mut Words) -> Option<Mode> {
        Mode::named(words.next()?)
    }
}

/// K and W: a kind, and bits that are no wider.
impl Argument<'K'> for Value {
    fn print(&self, _: usize) -> String {
        self.argument()
    }

    fn read(words: &mut Words) -> Option<Value> {
        let kind = words.next()?;
        let bits = <u32 as Argument<'W'>>::read(words)?;
        Value::given(kind, bits)
    }
}

/// W, D, F, B and F.
impl Argument<'W'> for Frame {
    fn print(&self, place: usize) -> String {
        let words = [
            Argument::<'W'>::print(&self.id, place),
            Argument::<'D'>::print(&self.data, place),
            Argument::<'F'>::print(&self.extended, place),
            Argument::<'B'>::print(&self.dlc, place),
            Argument::<'F'>::print(&self.rx, place),
        ];
        words.join(" ")
    }

    fn read(words: &mut Words) -> Option<Frame> {
        Some(Frame {
            id: Argument::<'W'>::read(words)?,
            data: Argument::<'D'>::read(words)?,
            extended: Argument::<'F'>::read(words)?,
            dlc: Argument::<'B'>::read(words)?,
            rx: Argument::<'F'>::read(words)?,
        })
    }
}

impl Argument<'X'> for Model {
    fn print(&self, _: usize) -> String {
        self.to_string()
    }

    fn read(words: &mut Words) -> Option<Model> {
        Model::new(words.next()?).ok()
    }
}

/// A command's name, with its arguments behind it.
impl Argument<'X'> for Command {
    fn print(&self, _: usize) -> String {
        self.to_string()
    }

    fn read(words: &mut Words) -> Option<Command> {
        Command::read(words)
    }
}

/// A number of a line: decimal, or hexadecimal after 0x.
fn number(word: &str) -> Option<u64> {
    match word.strip_prefix("0x") {
        Some(digits) => hex(digits),
        None => decimal(word),
    }
}

/// Decimal digits alone.
pub(crate) fn decimal(digits: &str) -> Option<u64> {
    let plain = digits.bytes().all(|byte| byte.is_ascii_digit());
    digits.parse().ok().filter(|_| plain)
}

/// Hexadecimal digits alone, of either case.
pub(crate) fn hex(digits: &str) -> Option<u64> {
    let plain = digits.bytes().all(|byte| byte.is_ascii_hexdigit());
    u64::from_str_radix(digits, 16).ok().filter(|_| plain)
}

/// What is read from all the words of a line.
pub(crate) fn whole<T>(line: &str, read: fn(&mut Words) -> Option<T>) -> Option<T> {
    let words: Vec<&str> = line.split(' ').collect();
    let mut rest = words.iter();
    let found = read(&mut rest)?;
    rest.next().is_none().then_some(found)
}

/// A row's line: its name and its words, of which the first stands at place `from`.
pub(crate) fn line(name: &str, from: usize, words: &[&dyn Fn(usize) -> String]) -> String {
    let mut line = name.to_string();
    for (k, word) in words.iter().enumerate() {
        line += &format!(" {}", word(from + k));
    }
    line
}

/// A table: an enum with a row for each name. A row has the name, the case, and for each argument its
/// type and letters. Printing and reading go by it. `from` is the place of a row's first argument in an
/// event; `besides` is a case that is no row, with what it holds.
macro_rules! table {
    (
        $(#[$doc:meta])*
        $table:ident from $from:literal $(besides $other:ident($held:ident))?:
        $(
            $name:literal $case:ident
            $(($($t:ident: $t_type:ident $t_letter:literal $($t_more:literal)*),+))?
            $({$($f:ident: $f_type:ident $f_letter:literal $($f_more:literal)*),+})?;
        )+
    ) => {
        $(#[$doc])*
        pub enum $table {
            $(#[doc = concat!("`", $name, "`")] $case $(($($t_type),+))? $({$($f: $f_type),+})?,)+
            $($other($held),)?
        }

        impl $table {
            /// The table's names and shapes.
            pub const ROWS: [(&'static str, &'static str); [$($name),+].len()] = [$((
                $name,
                concat!($($($t_letter, $($t_more,)*)+)? $($($f_letter, $($f_more,)*)+)?),
            )),+];

            /// The name in the table; the empty text where it isn't in it.
            pub fn name(&self) -> &'static str {
                match self {
                    $($table::$case { .. } => $name,)+
                    $($table::$other(_) => "",)?
                }
            }

            fn line(&self) -> String {
                match self {
                    $($table::$case $(($($t),+))? $({$($f),+})? => $crate::shape::line($name, $from, &[
                        $($(&|at| <$t_type as $crate::shape::Argument<$t_letter>>::print($t, at),)+)?
                        $($(&|at| <$f_type as $crate::shape::Argument<$f_letter>>::print($f, at),)+)?
                    ]),)+
                    $($table::$other(held) => held.to_string(),)?
                }
            }

            pub(crate) fn read(words: &mut $crate::shape::Words) -> Option<$table> {
                Some(match *words.next()? {
                    $($name => $table::$case
                        $(($(<$t_type as $crate::shape::Argument<$t_letter>>::read(words)?),+))?
                        $({$($f: <$f_type as $crate::shape::Argument<$f_letter>>::read(words)?),+})?,)+
                    _ => return None,
                })
            }
        }

        impl std::fmt::Display for $table {
            fn fmt(&self, f: &mut std::fmt::Formatter) -> std::fmt::Result {
                f.write_str(&self.line())
            }
        }
    };
}
pub(crate) use table;
