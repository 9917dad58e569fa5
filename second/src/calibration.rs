//! The calibration bytes: block one is 0x88 to 0xA1, block two 0xE1 to 0xE7.

use crate::numbers::Number;
use crate::part::Part;

pub const BLOCK_ONE: usize = 26;
pub const BLOCK_TWO: usize = 7;

/// The words T1 to T3, P1 to P9 and H1 to H6, each list in the order of its digits.
#[derive(Clone, Copy, Debug, Default, PartialEq, Eq)]
pub struct Words {
    pub t: [i64; 3],
    pub p: [i64; 9],
    pub h: [i64; 6],
}

/// Reads an unsigned word of 16 bits at the given offset of a block.
/// Words are low byte first.
fn unsigned_word(block: &[u8], offset: usize) -> i64 {
    i64::from(u16::from_le_bytes([block[offset], block[offset + 1]]))
}

/// Reads a signed word of 16 bits at the given offset of a block.
/// Words are low byte first.
fn signed_word(block: &[u8], offset: usize) -> i64 {
    i64::from(i16::from_le_bytes([block[offset], block[offset + 1]]))
}

/// Reads a byte as signed.
/// This is how 0xE4, 0xE6 and 0xE7 are read.
fn signed_byte(byte: u8) -> i64 {
    i64::from(i8::from_le_bytes([byte]))
}

/// Reads the words of humidity from both blocks.
/// H4 takes the low nibble of 0xE5 and H5 the high one.
fn humidity_words(one: &[u8], two: &[u8]) -> [i64; 6] {
    [
        i64::from(one[25]),
        signed_word(two, 0),
        i64::from(two[2]),
        signed_byte(two[3]) * 16 + i64::from(two[4] & 0x0F),
        signed_byte(two[5]) * 16 + i64::from(two[4] >> 4),
        signed_byte(two[6]),
    ]
}

/// Reads a part's two blocks into their words, or gives 2 where a block has a wrong length.
/// 0xA0 is unused. A BMP280 has no block two, and no words of humidity.
pub fn read(part: Part, one: &[u8], two: &[u8]) -> Result<Words, Number> {
    if one.len() != BLOCK_ONE || two.len() != part.block_two() {
        return Err(Number::WrongLength);
    }
    let mut words = Words::default();
    words.t[0] = unsigned_word(one, 0);
    for place in 1..3 {
        words.t[place] = signed_word(one, 2 * place);
    }
    words.p[0] = unsigned_word(one, 6);
    for place in 1..9 {
        words.p[place] = signed_word(one, 6 + 2 * place);
    }
    if part == Part::Bme280 {
        words.h = humidity_words(one, two);
    }
    Ok(words)
}

/// Gives the low byte of a number, in two's complement.
/// Used to put words back into bytes.
fn low_byte(value: i64) -> u8 {
    value.to_le_bytes()[0]
}

/// Builds the two blocks that carry the given words, with zero at 0xA0.
/// It is the reverse of reading, for the sheet and for generated chips.
pub fn blocks(words: &Words) -> (Vec<u8>, Vec<u8>) {
    let mut one = Vec::with_capacity(BLOCK_ONE);
    for word in words.t.iter().chain(words.p.iter()) {
        one.push(low_byte(*word));
        one.push(low_byte(*word >> 8));
    }
    one.push(0);
    one.push(low_byte(words.h[0]));
    let [_, h2, h3, h4, h5, h6] = words.h;
    let nibbles = low_byte(((h5 & 0x0F) << 4) | (h4 & 0x0F));
    let two = vec![
        low_byte(h2),
        low_byte(h2 >> 8),
        low_byte(h3),
        low_byte(h4 >> 4),
        nibbles,
        low_byte(h5 >> 4),
        low_byte(h6),
    ];
    (one, two)
}
