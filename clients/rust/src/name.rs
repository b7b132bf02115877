//! Words of a line that a caller chooses. They are checked when made, so that a line stays one line.
use std::fmt;

/// Why a text can't be one word of a line.
#[derive(Clone, Copy, Debug, PartialEq, Eq)]
pub enum NotAName {
    Empty,
    /// More than 255 bytes.
    TooLong,
    /// A space, a control character or one beyond ASCII.
    Character(char),
}

impl fmt::Display for NotAName {
    fn fmt(&self, f: &mut fmt::Formatter) -> fmt::Result {
        match self {
            NotAName::Empty => write!(f, "a name has at least one character"),
            NotAName::TooLong => write!(f, "a name has at most 255 characters"),
            NotAName::Character(found) => write!(
                f,
                "a name is one word of visible ASCII characters; {found:?} is none"
            ),
        }
    }
}

impl std::error::Error for NotAName {}

fn word(text: &str) -> Result<String, NotAName> {
    if text.is_empty() {
        return Err(NotAName::Empty);
    }
    if let Some(found) = text.chars().find(|c| !c.is_ascii_graphic()) {
        return Err(NotAName::Character(found));
    }
    if text.len() > 255 {
        return Err(NotAName::TooLong);
    }
    Ok(text.to_string())
}

/// A model's name, known to the station or not.
#[derive(Clone, Debug, PartialEq, Eq)]
pub struct Model(String);

impl Model {
    pub fn new(text: &str) -> Result<Model, NotAName> {
        word(text).map(Model)
    }

    pub fn as_str(&self) -> &str {
        &self.0
    }
}

impl fmt::Display for Model {
    fn fmt(&self, f: &mut fmt::Formatter) -> fmt::Result {
        f.write_str(&self.0)
    }
}

/// The interface's name in a log's line. The station doesn't look at it.
#[derive(Clone, Debug, PartialEq, Eq)]
pub struct Interface(String);

impl Interface {
    pub fn new(text: &str) -> Result<Interface, NotAName> {
        word(text).map(Interface)
    }
}

impl Default for Interface {
    fn default() -> Interface {
        Interface("can0".to_string())
    }
}

impl fmt::Display for Interface {
    fn fmt(&self, f: &mut fmt::Formatter) -> fmt::Result {
        f.write_str(&self.0)
    }
}
