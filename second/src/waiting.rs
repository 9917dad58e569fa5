//! Waiting times by oversampling codes, and polling of status bytes.

use crate::numbers::Number;

/// The microseconds of a waiting time: at the start, for each sample, and more for a channel.
#[derive(Clone, Copy, Debug)]
pub struct Times {
    start: u64,
    sample: u64,
    more: u64,
}

pub const MAXIMUM: Times = Times {
    start: 1250,
    sample: 2300,
    more: 575,
};

pub const TYPICAL: Times = Times {
    start: 1000,
    sample: 2000,
    more: 500,
};

/// What polling came to: the place of the ready byte, if any, and the polls made.
#[derive(Clone, Copy, Debug, PartialEq, Eq)]
pub struct Polling {
    pub place: Option<u64>,
    pub polls: u64,
}

/// Gives the number of samples that a code means, or 7 for a code above 7.
/// Codes 0 to 4 mean 0, 1, 2, 4, 8; 5 to 7 mean 16.
fn samples(code: u64) -> Result<u64, Number> {
    match code {
        0 => Ok(0),
        1..=4 => Ok(1 << (code - 1)),
        5..=7 => Ok(16),
        _ => Err(Number::OutOfRange),
    }
}

/// Gives the microseconds to wait for the codes of temperature, pressure and humidity.
/// Pressure and humidity take some more if they have any sample.
pub fn wait(times: Times, codes: [u64; 3]) -> Result<u64, Number> {
    let temperature = samples(codes[0])?;
    let pressure = samples(codes[1])?;
    let humidity = samples(codes[2])?;
    let mut total = times.start + times.sample * temperature;
    for channel in [pressure, humidity] {
        if channel > 0 {
            total += times.sample * channel + times.more;
        }
    }
    Ok(total)
}

/// Reads status bytes in order until one has bits 3 and 0 both clear.
/// The polls made are place plus one, or else the smaller of the two limits.
pub fn poll(allowance: u64, status: &[u8]) -> Polling {
    let limit = allowance.min(status.len() as u64);
    let ready = (0..limit)
        .zip(status)
        .find(|(_, byte)| **byte & 0b1001 == 0)
        .map(|(place, _)| place);
    Polling {
        place: ready,
        polls: ready.map_or(limit, |place| place + 1),
    }
}
