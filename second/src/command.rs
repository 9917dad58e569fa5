//! The commands of the bench's lines, read from a line's bytes.

use crate::compensation::Input;
use crate::part::Part;
use crate::two_words::{read_fresh, read_i2c, read_spi, read_visit, read_wait};
use crate::visits::Step;
use crate::words::{
    buffer_length, check_count, decimal, hex_bytes, split, three_decimals, two_digits, Reason,
    LONGEST_LINE,
};

/// One command with its words read.
#[derive(Clone, Debug, PartialEq, Eq)]
pub enum Command {
    Calibration {
        one: Vec<u8>,
        two: Vec<u8>,
    },
    Compensation {
        part: Part,
        input: Input,
    },
    Point(Input),
    Cells(Input),
    Rooms {
        one: Input,
        other: Input,
        tolerances: [u64; 3],
    },
    Day {
        one: Vec<u8>,
        two: Vec<u8>,
        readings: Vec<u8>,
        length: usize,
    },
    WaitMaximum([u64; 3]),
    WaitTypical([u64; 3]),
    Poll {
        allowance: u64,
        status: Vec<u8>,
    },
    I2cWrite {
        address: u8,
        pairs: Vec<u8>,
        length: usize,
    },
    I2cDecode {
        bytes: Vec<u8>,
        length: usize,
    },
    I2cRead {
        address: u8,
        register: u8,
        length: usize,
    },
    SpiWrite {
        pairs: Vec<u8>,
        length: usize,
    },
    SpiDecode {
        bytes: Vec<u8>,
        length: usize,
    },
    SpiRead {
        register: u8,
        length: usize,
    },
    VisitRead {
        record: Vec<u8>,
        length: usize,
    },
    VisitWrite {
        length: usize,
        steps: Vec<Step>,
    },
    Fresh {
        part: Part,
        begun: u64,
    },
    Power,
    Copied,
    Wake,
    Write {
        register: u8,
        value: u8,
    },
    Finish([u64; 3]),
    Open(u8),
    Byte,
    Close(usize),
    Ledger,
}

/// Reads a command of a single word.
/// More words after it are a wrong number of words.
fn read_single(words: &[&[u8]], command: Command) -> Result<Command, Reason> {
    check_count(words, 1)?;
    Ok(command)
}

/// Reads the six words of a reading.
/// Codes out of range are read too; they have a number of their own.
fn read_input(words: &[&[u8]]) -> Result<Input, Reason> {
    Ok(Input {
        one: hex_bytes(words[0])?,
        two: hex_bytes(words[1])?,
        data: hex_bytes(words[2])?,
        codes: three_decimals(&words[3..])?,
    })
}

/// Reads a command of one reading.
/// There is no other word in it.
fn read_one(words: &[&[u8]]) -> Result<Input, Reason> {
    check_count(words, 7)?;
    read_input(&words[1..])
}

/// Reads the compensation of a part's reading.
/// The lengths that are right depend on the part; any others are read too.
fn read_compensation(words: &[&[u8]], part: Part) -> Result<Command, Reason> {
    let input = read_one(words)?;
    Ok(Command::Compensation { part, input })
}

/// Reads the comparison of two rooms.
/// The tolerances come after both readings.
fn read_rooms(words: &[&[u8]]) -> Result<Command, Reason> {
    check_count(words, 16)?;
    Ok(Command::Rooms {
        one: read_input(&words[1..])?,
        other: read_input(&words[7..])?,
        tolerances: three_decimals(&words[13..])?,
    })
}

/// Reads a command that takes a fixed number of words, or finds its word unknown.
/// The count is checked first, then the words left to right.
fn read_fixed(words: &[&[u8]]) -> Result<Command, Reason> {
    let count = match words[0] {
        b"open" | b"close" => 2,
        b"cal" | b"poll" | b"write" => 3,
        b"finish" => 4,
        b"day" => 5,
        _ => return Err(Reason::UnknownWord),
    };
    check_count(words, count)?;
    Ok(match words[0] {
        b"open" => Command::Open(two_digits(words[1])?),
        b"close" => Command::Close(buffer_length(words[1])?),
        b"cal" => Command::Calibration {
            one: hex_bytes(words[1])?,
            two: hex_bytes(words[2])?,
        },
        b"day" => Command::Day {
            one: hex_bytes(words[1])?,
            two: hex_bytes(words[2])?,
            readings: hex_bytes(words[3])?,
            length: buffer_length(words[4])?,
        },
        b"poll" => Command::Poll {
            allowance: decimal(words[1])?,
            status: hex_bytes(words[2])?,
        },
        b"write" => Command::Write {
            register: two_digits(words[1])?,
            value: two_digits(words[2])?,
        },
        _ => Command::Finish(three_decimals(&words[1..])?),
    })
}

/// Reads a line of at least one byte into its command, or gives why it is none.
/// The length comes first, then the name, the number of words, and the words.
pub fn read(line: &[u8]) -> Result<Command, Reason> {
    if line.len() > LONGEST_LINE {
        return Err(Reason::TooLong);
    }
    let words = split(line);
    match words[0] {
        b"comp" => read_compensation(&words, Part::Bme280),
        b"bmp" => read_compensation(&words, Part::Bmp280),
        b"point" => Ok(Command::Point(read_one(&words)?)),
        b"cells" => Ok(Command::Cells(read_one(&words)?)),
        b"rooms" => read_rooms(&words),
        b"wait" => read_wait(&words),
        b"i2c" => read_i2c(&words),
        b"spi" => read_spi(&words),
        b"visit" => read_visit(&words),
        b"fresh" => read_fresh(&words),
        b"power" => read_single(&words, Command::Power),
        b"copied" => read_single(&words, Command::Copied),
        b"wake" => read_single(&words, Command::Wake),
        b"byte" => read_single(&words, Command::Byte),
        b"ledger" => read_single(&words, Command::Ledger),
        _ => read_fixed(&words),
    }
}
