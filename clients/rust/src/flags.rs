//! Flags by the names that the Rust's fields have, in rising bit order.

/// An enum of flags with its names.
macro_rules! flags {
    ($(#[$doc:meta])* $kind:ident: $($case:ident $name:literal,)+) => {
        $(#[$doc])*
        #[derive(Clone, Copy, Debug, PartialEq, Eq, PartialOrd, Ord)]
        pub enum $kind {
            $($case,)+
        }

        impl $kind {
            pub const ALL: &'static [$kind] = &[$($kind::$case,)+];

            pub fn name(self) -> &'static str {
                match self {
                    $($kind::$case => $name,)+
                }
            }
        }

        impl Flag for $kind {
            fn all() -> &'static [$kind] {
                $kind::ALL
            }

            fn text(self) -> &'static str {
                self.name()
            }
        }
    };
}

pub(crate) trait Flag: Copy + Ord + 'static {
    fn all() -> &'static [Self];
    fn text(self) -> &'static str;
}

flags! {
    /// Flags of a status frame.
    StateFlag:
    Undervoltage "undervoltage",
    Overcurrent "overcurrent",
    Overtemperature "overtemperature",
    MagneticEncoderFault "magnetic_encoder_fault",
    Stall "stall",
    Uncalibrated "uncalibrated",
}

flags! {
    /// Faults of a fault report.
    FaultFlag:
    Overtemperature "overtemperature",
    DriverFault "driver_fault",
    Undervoltage "undervoltage",
    Overvoltage "overvoltage",
    PhaseBOvercurrent "phase_b_overcurrent",
    PhaseCOvercurrent "phase_c_overcurrent",
    EncoderUncalibrated "encoder_uncalibrated",
    HardwareIdFault "hardware_id_fault",
    PositionInitFault "position_init_fault",
    StallOverload "stall_overload",
    PhaseAOvercurrent "phase_a_overcurrent",
}

flags! {
    /// Warnings of a fault report.
    WarningFlag:
    OvertemperatureWarning "overtemperature_warning",
}

/// The names joined by commas, or `-`.
pub(crate) fn text<F: Flag>(flags: &[F]) -> String {
    match flags {
        [] => "-".to_string(),
        _ => {
            let names: Vec<&str> = flags.iter().map(|flag| flag.text()).collect();
            names.join(",")
        }
    }
}

/// The flags of such a text; None where a name is unknown or they don't rise.
pub(crate) fn parse<F: Flag>(text: &str) -> Option<Vec<F>> {
    if text == "-" {
        return Some(Vec::new());
    }
    let mut flags: Vec<F> = Vec::new();
    for name in text.split(',') {
        let flag = F::all().iter().copied().find(|flag| flag.text() == name)?;
        if flags.last().is_some_and(|last| *last >= flag) {
            return None;
        }
        flags.push(flag);
    }
    Some(flags)
}
