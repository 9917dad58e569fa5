//! Compensation by the maker's formulas, step by step over whole numbers.

use crate::calibration::{self, Words};
use crate::data::{counts, DATA};
use crate::numbers::Number;
use crate::part::Part;
use crate::steps::Step;

const HIGHEST_PRESSURE: i64 = 4_294_967_295;
const HIGHEST_HUMIDITY: i64 = 419_430_400;

/// What one reading is worked out from: both blocks, the data bytes and the three codes.
/// Lengths and codes may be wrong.
#[derive(Clone, Debug, PartialEq, Eq)]
pub struct Input {
    pub one: Vec<u8>,
    pub two: Vec<u8>,
    pub data: Vec<u8>,
    pub codes: [u64; 3],
}

/// A temperature in hundredths of a degree, and the fine temperature beside it.
#[derive(Clone, Copy, Debug, PartialEq, Eq)]
pub struct Temperature {
    pub value: i64,
    pub fine: i64,
}

/// The three channels' answers; a number stands in its own channel's place only.
#[derive(Clone, Copy, Debug, PartialEq, Eq)]
pub struct Reading {
    pub temperature: Result<Temperature, Number>,
    pub pressure: Result<i64, Number>,
    pub humidity: Result<i64, Number>,
}

/// Compensates a temperature count, each step within signed 32 bits.
/// Value and fine temperature are absent together.
fn temperature(words: &Words, count: i64) -> Result<Temperature, Number> {
    let of = Step::<32>::of;
    let [t1, t2, t3] = words.t.map(of);
    let count = of(count);
    let var1 = (((count >> 3) - (t1 << 1)) * t2) >> 11;
    let var2 = (((((count >> 4) - t1) * ((count >> 4) - t1)) >> 12) * t3) >> 14;
    let fine = var1 + var2;
    let value = (fine * of(5) + of(128)) >> 8;
    Ok(Temperature {
        value: value.value()?,
        fine: fine.value()?,
    })
}

/// Compensates a pressure count, each step within signed 64 bits.
/// The zero test stands where the maker has it; the last line adds P7 times 16 after the shift.
fn pressure(words: &Words, fine: i64, count: i64) -> Result<i64, Number> {
    let of = Step::<64>::of;
    let [p1, p2, p3, p4, p5, p6, p7, p8, p9] = words.p.map(of);
    let var1 = of(fine) - of(128_000);
    let var2 = var1 * var1 * p6;
    let var2 = var2 + ((var1 * p5) << 17);
    let var2 = var2 + (p4 << 35);
    let var1 = ((var1 * var1 * p3) >> 8) + ((var1 * p2) << 12);
    let var1 = (((of(1) << 47) + var1) * p1) >> 33;
    var2.value()?;
    if var1.value()? == 0 {
        return Err(Number::DivisorZero);
    }
    let p = of(1_048_576) - of(count);
    let p = (((p << 31) - var2) * of(3125)) / var1;
    let var1 = (p9 * (p >> 13) * (p >> 13)) >> 25;
    let var2 = (p8 * p) >> 19;
    let p = ((p + var1 + var2) >> 8) + (p7 << 4);
    let value = p.value()?;
    if (0..=HIGHEST_PRESSURE).contains(&value) {
        Ok(value)
    } else {
        Err(Number::PressureOutside)
    }
}

/// Compensates a humidity count, each step within signed 32 bits.
/// 32768 is added before the product, and the clamp comes before the last shift.
fn humidity(words: &Words, fine: i64, count: i64) -> Result<i64, Number> {
    let of = Step::<32>::of;
    let [h1, h2, h3, h4, h5, h6] = words.h.map(of);
    let v = of(fine) - of(76_800);
    let left = (((of(count) << 14) - (h4 << 20) - (h5 * v)) + of(16_384)) >> 15;
    let right = ((v * h6) >> 10) * (((v * h3) >> 11) + of(32_768));
    let right = (((right >> 10) + of(2_097_152)) * h2 + of(8_192)) >> 14;
    let v = left * right;
    let v = v - (((((v >> 15) * (v >> 15)) >> 7) * h1) >> 4);
    Ok(v.value()?.clamp(0, HIGHEST_HUMIDITY) >> 12)
}

/// Answers for pressure or humidity: 10 where skipped, 11 where there is no temperature.
/// Otherwise the channel's own formula is taken with the fine temperature.
fn channel(
    code: u64,
    temperature: &Result<Temperature, Number>,
    formula: impl Fn(i64) -> Result<i64, Number>,
) -> Result<i64, Number> {
    if code == 0 {
        return Err(Number::Skipped);
    }
    match temperature {
        Ok(known) => formula(known.fine),
        Err(_) => Err(Number::NoTemperature),
    }
}

/// Compensates a part's data bytes and three codes by words that were read before.
/// Length is checked first (2), then the codes (7). A BMP280's humidity is 10, whatever its code is.
pub fn by_words(
    part: Part,
    words: &Words,
    data: &[u8],
    codes: [u64; 3],
) -> Result<Reading, Number> {
    if data.len() != part.data() {
        return Err(Number::WrongLength);
    }
    if codes.iter().any(|code| *code > 7) {
        return Err(Number::OutOfRange);
    }
    let mut eight = [0; DATA];
    eight[..data.len()].copy_from_slice(data);
    let [t_count, p_count, h_count] = counts(eight);
    let [t_code, p_code, h_code] = codes;
    let temperature = match t_code {
        0 => Err(Number::Skipped),
        _ => temperature(words, t_count),
    };
    Ok(Reading {
        temperature,
        pressure: channel(p_code, &temperature, |fine| pressure(words, fine, p_count)),
        humidity: match part {
            Part::Bme280 => channel(h_code, &temperature, |fine| humidity(words, fine, h_count)),
            Part::Bmp280 => Err(Number::Skipped),
        },
    })
}

/// Compensates one reading of a part: both blocks, the data bytes and the three codes.
/// The blocks' lengths are checked before all else (2).
pub fn compensate(part: Part, input: &Input) -> Result<Reading, Number> {
    let words = calibration::read(part, &input.one, &input.two)?;
    by_words(part, &words, &input.data, input.codes)
}
