//! Points for the map room, their cells, and the comparison of two rooms.
//!
//! A double is put together as its 64 bits, over whole numbers. Nothing here is a
//! floating-point operation.

use crate::compensation::Reading;
use crate::numbers::Number;

/// The powers of two that temperature, pressure and humidity are divided by.
const POWERS: [u32; 3] = [0, 8, 10];
const FRACTION: u32 = 52;
const BIAS: u32 = 1023;

/// The whole-number value of each channel, or the number in its place.
/// They come as temperature, pressure, humidity.
pub type Channels = [Result<i64, Number>; 3];

/// A double as its bits: sign, exponent, fraction.
#[derive(Clone, Copy, Debug, PartialEq, Eq)]
pub struct Double(pub u64);

/// A map point: three doubles, and beside each whether it is known.
#[derive(Clone, Copy, Debug, PartialEq, Eq)]
pub struct Point {
    pub doubles: [Double; 3],
    pub known: [bool; 3],
}

/// A map cell.
#[derive(Clone, Copy, Debug, PartialEq, Eq)]
pub enum Cell {
    Temperature(Double),
    Pressure(Double),
    Humidity(Double),
    Missing(Number),
}

/// What the comparison of two rooms says of one channel.
#[derive(Clone, Copy, Debug, PartialEq, Eq)]
pub enum Verdict {
    Agree,
    Differ,
    Unknown,
}

/// Gives the three channels of a compensated answer.
/// A reading refused whole is missing in all three, with its number.
pub fn channels(answer: Result<Reading, Number>) -> Channels {
    match answer {
        Ok(reading) => [
            reading.temperature.map(|known| known.value),
            reading.pressure,
            reading.humidity,
        ],
        Err(number) => [Err(number); 3],
    }
}

/// Gives the double that is a whole number divided by so high a power of two.
/// The highest bit gives the exponent, and those below it are the fraction. The number has at
/// most 53 bits, and the power is at most 1022, so that nothing is rounded. 0 is positive zero.
pub fn double(whole: i64, power: u32) -> Double {
    let size = whole.unsigned_abs();
    if size == 0 {
        return Double(0);
    }
    let highest = 63 - size.leading_zeros();
    let fraction = (size - (1 << highest)) << (FRACTION - highest);
    let exponent = u64::from(BIAS + highest - power);
    let sign = u64::from(whole < 0);
    Double((sign << 63) | (exponent << FRACTION) | fraction)
}

/// Makes the map point of three channels.
/// A missing channel's double is positive zero.
pub fn point(channels: &Channels) -> Point {
    let mut point = Point {
        doubles: [Double(0); 3],
        known: [false; 3],
    };
    for (place, channel) in channels.iter().enumerate() {
        if let Ok(whole) = channel {
            point.doubles[place] = double(*whole, POWERS[place]);
            point.known[place] = true;
        }
    }
    point
}

/// Makes the map cells of three channels.
/// A missing one keeps its number.
pub fn cells(channels: &Channels) -> [Cell; 3] {
    let kinds: [fn(Double) -> Cell; 3] = [Cell::Temperature, Cell::Pressure, Cell::Humidity];
    [0, 1, 2].map(|place: usize| match channels[place] {
        Ok(whole) => kinds[place](double(whole, POWERS[place])),
        Err(number) => Cell::Missing(number),
    })
}

/// Gives by how much two whole-number values of one channel differ.
/// There is no difference unless both have a value.
pub fn difference(one: Result<i64, Number>, other: Result<i64, Number>) -> Option<i128> {
    let values = one.ok().zip(other.ok());
    values.map(|(one, other)| (i128::from(one) - i128::from(other)).abs())
}

/// Compares two rooms, channel by channel.
/// A difference that equals the channel's tolerance still agrees.
pub fn compare(one: &Channels, other: &Channels, tolerances: [u64; 3]) -> [Verdict; 3] {
    [0, 1, 2].map(|place: usize| {
        let tolerance = i128::from(tolerances[place]);
        match difference(one[place], other[place]) {
            Some(difference) if difference <= tolerance => Verdict::Agree,
            Some(_) => Verdict::Differ,
            None => Verdict::Unknown,
        }
    })
}
