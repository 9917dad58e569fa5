//! Commands that have a second word in their names: wait, i2c, spi, visit, and fresh of a BMP280.

use crate::command::Command;
use crate::part::Part;
use crate::visits::words::steps;
use crate::words::{
    buffer_length, check_count, decimal, hex_bytes, three_decimals, two_digits, Reason,
};

/// Gives the second word of a command that has one in its name.
/// A missing one is a wrong number of words.
fn second_word<'a>(words: &[&'a [u8]]) -> Result<&'a [u8], Reason> {
    words.get(1).copied().ok_or(Reason::WrongNumberOfWords)
}

/// Reads a waiting command.
/// Its second word is max or typ.
pub fn read_wait(words: &[&[u8]]) -> Result<Command, Reason> {
    let command = match second_word(words)? {
        b"max" => Command::WaitMaximum,
        b"typ" => Command::WaitTypical,
        _ => return Err(Reason::UnknownWord),
    };
    check_count(words, 5)?;
    Ok(command(three_decimals(&words[2..])?))
}

/// Reads an I2C command.
/// Its second word is write, decode or read.
pub fn read_i2c(words: &[&[u8]]) -> Result<Command, Reason> {
    match second_word(words)? {
        b"write" => {
            check_count(words, 5)?;
            Ok(Command::I2cWrite {
                address: two_digits(words[2])?,
                pairs: hex_bytes(words[3])?,
                length: buffer_length(words[4])?,
            })
        }
        b"decode" => {
            check_count(words, 4)?;
            Ok(Command::I2cDecode {
                bytes: hex_bytes(words[2])?,
                length: buffer_length(words[3])?,
            })
        }
        b"read" => {
            check_count(words, 5)?;
            Ok(Command::I2cRead {
                address: two_digits(words[2])?,
                register: two_digits(words[3])?,
                length: buffer_length(words[4])?,
            })
        }
        _ => Err(Reason::UnknownWord),
    }
}

/// Reads an SPI command.
/// Its second word is write, decode or read.
pub fn read_spi(words: &[&[u8]]) -> Result<Command, Reason> {
    let name = second_word(words)?;
    if ![&b"write"[..], b"decode", b"read"].contains(&name) {
        return Err(Reason::UnknownWord);
    }
    check_count(words, 4)?;
    if name == b"read" {
        return Ok(Command::SpiRead {
            register: two_digits(words[2])?,
            length: buffer_length(words[3])?,
        });
    }
    let bytes = hex_bytes(words[2])?;
    let length = buffer_length(words[3])?;
    Ok(match name {
        b"write" => Command::SpiWrite {
            pairs: bytes,
            length,
        },
        _ => Command::SpiDecode { bytes, length },
    })
}

/// Reads a command of visit records: read takes a record and a length, write a length and any number of steps.
/// All words are looked at from left to right.
pub fn read_visit(words: &[&[u8]]) -> Result<Command, Reason> {
    match second_word(words)? {
        b"read" => {
            check_count(words, 4)?;
            Ok(Command::VisitRead {
                record: hex_bytes(words[2])?,
                length: buffer_length(words[3])?,
            })
        }
        b"write" => {
            let length = words.get(2).ok_or(Reason::WrongNumberOfWords)?;
            Ok(Command::VisitWrite {
                length: buffer_length(length)?,
                steps: steps(words[3..].iter().copied())?,
            })
        }
        _ => Err(Reason::UnknownWord),
    }
}

/// Reads a fresh command: of a BMP280 where the second word says so, else of a BME280.
/// It takes one word more or none.
pub fn read_fresh(words: &[&[u8]]) -> Result<Command, Reason> {
    let (part, rest) = match &words[1..] {
        [b"bmp", rest @ ..] => (Part::Bmp280, rest),
        rest => (Part::Bme280, rest),
    };
    let begun = match rest {
        [] => 0,
        [begun] => decimal(begun)?,
        _ => return Err(Reason::WrongNumberOfWords),
    };
    Ok(Command::Fresh { part, begun })
}
