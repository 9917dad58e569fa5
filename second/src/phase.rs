//! The phases of the device, and which F4 begins a conversion in them.

/// Where the device is: in sleep, in a forced or a normal conversion, or in standby.
#[derive(Clone, Copy, Debug, PartialEq, Eq)]
pub enum Phase {
    Sleep,
    Forced,
    Normal,
    Standby,
}

impl Phase {
    /// Says whether a conversion is running.
    /// It may be a forced or a normal one.
    pub fn running(self) -> bool {
        matches!(self, Phase::Forced | Phase::Normal)
    }

    /// Says whether F4, taking effect in sleep or standby, begins a conversion.
    /// Modes 1 and 2 always do; mode 3 does from sleep.
    pub fn begins(self, value: u8) -> bool {
        match value & 3 {
            0 => false,
            3 => self != Phase::Standby,
            _ => true,
        }
    }
}
