//! The classes of schedules. Each is counted by itself.

#[derive(Clone, Copy, Debug, PartialEq, Eq)]
pub enum Class {
    /// Document 01's differential domain; steps at the times at which the Rust woke.
    Domain,
    /// The same, and each step is at its frame's own time or at the due time.
    Grid,
    /// Frames at any time, several before one look, sleeps that overrun, frames and arguments of any
    /// sort.
    Beyond,
}

impl Class {
    pub const ALL: [Class; 3] = [Class::Domain, Class::Grid, Class::Beyond];

    /// The class of the schedule with a number.
    pub fn of(index: u64) -> Class {
        Class::ALL[(index % 3) as usize]
    }

    /// The number of the n-th schedule of the class.
    pub fn index(self, n: u64) -> u64 {
        3 * n + self as u64
    }

    pub fn name(self) -> &'static str {
        ["domain", "grid", "beyond"][self as usize]
    }

    pub fn named(name: &str) -> Option<Class> {
        Class::ALL.into_iter().find(|class| class.name() == name)
    }

    /// Whether document 01's distances are kept.
    pub fn is_strict(self) -> bool {
        self != Class::Beyond
    }
}

#[cfg(test)]
mod tests {
    use super::*;

    #[test]
    fn numbers() {
        for class in Class::ALL {
            assert!((0..9).all(|n| Class::of(class.index(n)) == class));
            assert_eq!(Class::named(class.name()), Some(class));
        }
    }
}
