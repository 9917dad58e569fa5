//! How the words of a line are read: decimals, hex digits, lengths.

pub const LONGEST_LINE: usize = 4096;
const LONGEST_BUFFER: u64 = 256;
const HIGHEST_DECIMAL: u64 = 4_294_967_295;

/// Why a line is none of the commands.
#[derive(Clone, Copy, Debug, PartialEq, Eq)]
pub enum Reason {
    UnknownWord,
    WrongNumberOfWords,
    NotANumber,
    OddHex,
    TooLong,
}

impl Reason {
    /// Gives the words that follow the question mark.
    /// There are these five and no others.
    pub fn words(self) -> &'static str {
        match self {
            Reason::UnknownWord => "unknown word",
            Reason::WrongNumberOfWords => "wrong number of words",
            Reason::NotANumber => "not a number",
            Reason::OddHex => "odd hex",
            Reason::TooLong => "too long",
        }
    }
}

/// Splits a line at each single space.
/// Two spaces in a row, or one at an end, make an empty word.
pub fn split(line: &[u8]) -> Vec<&[u8]> {
    line.split(|byte| *byte == b' ').collect()
}

/// Checks that a line has as many words as its command takes.
/// The command's own word or words are counted in.
pub fn check_count(words: &[&[u8]], count: usize) -> Result<(), Reason> {
    if words.len() == count {
        Ok(())
    } else {
        Err(Reason::WrongNumberOfWords)
    }
}

/// Reads a decimal word: one or more digits, at most 4,294,967,295.
/// Leading zeros are allowed, any count of them.
pub fn decimal(word: &[u8]) -> Result<u64, Reason> {
    if word.is_empty() {
        return Err(Reason::NotANumber);
    }
    let mut value = 0;
    for byte in word {
        if !byte.is_ascii_digit() {
            return Err(Reason::NotANumber);
        }
        value = value * 10 + u64::from(byte - b'0');
        if value > HIGHEST_DECIMAL {
            return Err(Reason::NotANumber);
        }
    }
    Ok(value)
}

/// Reads three decimal words, left to right.
/// They are codes or counts: temperature, pressure, humidity.
pub fn three_decimals(words: &[&[u8]]) -> Result<[u64; 3], Reason> {
    Ok([decimal(words[0])?, decimal(words[1])?, decimal(words[2])?])
}

/// Reads one hex digit, of either case.
/// Any other character is no number.
fn hex_digit(byte: u8) -> Result<u8, Reason> {
    match byte {
        b'0'..=b'9' => Ok(byte - b'0'),
        b'a'..=b'f' => Ok(byte - b'a' + 10),
        b'A'..=b'F' => Ok(byte - b'A' + 10),
        _ => Err(Reason::NotANumber),
    }
}

/// Reads a register, a device address or a value.
/// It must be exactly two hex digits.
pub fn two_digits(word: &[u8]) -> Result<u8, Reason> {
    match word {
        [high, low] => Ok(hex_digit(*high)? * 16 + hex_digit(*low)?),
        _ => Err(Reason::NotANumber),
    }
}

/// Reads bytes as hex pairs run together, with a dash for none.
/// A character that is no digit is found before an odd number of them.
pub fn hex_bytes(word: &[u8]) -> Result<Vec<u8>, Reason> {
    if word == b"-" {
        return Ok(Vec::new());
    }
    if word.is_empty() {
        return Err(Reason::NotANumber);
    }
    for byte in word {
        hex_digit(*byte)?;
    }
    if word.len() % 2 == 1 {
        return Err(Reason::OddHex);
    }
    word.chunks_exact(2).map(two_digits).collect()
}

/// Reads the length of a lent buffer.
/// More than 256 is too long.
pub fn buffer_length(word: &[u8]) -> Result<usize, Reason> {
    match decimal(word)? {
        length @ 0..=LONGEST_BUFFER => Ok(length as usize),
        _ => Err(Reason::TooLong),
    }
}
