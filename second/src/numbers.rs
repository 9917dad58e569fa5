//! The numbers handed back, 1 to 22. Number 0, done, is Rust's `Ok`.

/// A number other than 0, by the paper's meaning of it.
#[derive(Clone, Copy, Debug, PartialEq, Eq)]
#[repr(u8)]
pub enum Number {
    Ignored = 1,
    WrongLength = 2,
    BurstOpen = 3,
    AddressNotAllowed = 4,
    Copying = 5,
    WrongPhase = 6,
    OutOfRange = 7,
    AllBegun = 8,
    BufferTooShort = 9,
    Skipped = 10,
    NoTemperature = 11,
    StepLeftItsType = 12,
    DivisorZero = 13,
    PressureOutside = 14,
    PairCount = 15,
    WrongShape = 16,
    NeverReady = 17,
    CutShort = 18,
    TagOutOfPlace = 19,
    WrongFieldLength = 20,
    TooDeep = 21,
    OutsideLimits = 22,
}
