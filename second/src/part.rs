//! The two kinds of part: the BME280, and the BMP280, which has no humidity.

use crate::bus::WRITABLE;
use crate::calibration::BLOCK_TWO;
use crate::data::DATA;

/// The kind of part. It is chosen with the fresh state, and nothing else changes it.
#[derive(Clone, Copy, Debug, PartialEq, Eq)]
pub enum Part {
    Bme280,
    Bmp280,
}

impl Part {
    /// Gives what 0xD0 reads as.
    /// It tells the two parts apart.
    pub fn chip_id(self) -> u8 {
        match self {
            Part::Bme280 => 0x60,
            Part::Bmp280 => 0x58,
        }
    }

    /// Gives how many bytes block two has.
    /// A BMP280 has none.
    pub fn block_two(self) -> usize {
        match self {
            Part::Bme280 => BLOCK_TWO,
            Part::Bmp280 => 0,
        }
    }

    /// Gives how many data bytes there are, from 0xF7 on.
    /// They are what a whole burst gives, and what its close writes.
    pub fn data(self) -> usize {
        match self {
            Part::Bme280 => DATA,
            Part::Bmp280 => 6,
        }
    }

    /// Says whether a register may be written.
    /// F2 belongs to humidity, and a BMP280 has none.
    pub fn writable(self, register: u8) -> bool {
        let missing = self == Part::Bmp280 && register == 0xF2;
        WRITABLE.contains(&register) && !missing
    }
}
