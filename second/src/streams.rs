//! Reading lines from any bytes at all, and writing the answers in large pieces.

use crate::lines::Bench;
use crate::words::LONGEST_LINE;
use std::io::{self, ErrorKind, Read, Write};

const PIECE: usize = 65_536;

/// Adds bytes to the line being read, but keeps at most one byte more than a line may have.
/// So a line that is too long is known as such, and a megabyte of it takes no room.
fn keep(line: &mut Vec<u8>, bytes: &[u8]) {
    let room = (LONGEST_LINE + 1).saturating_sub(line.len());
    line.extend_from_slice(&bytes[..bytes.len().min(room)]);
}

/// Reads the next piece of the input, however long it is.
/// None is left at the end of the input.
fn next_piece(input: &mut impl Read, piece: &mut [u8]) -> io::Result<usize> {
    loop {
        match input.read(piece) {
            Err(error) if error.kind() == ErrorKind::Interrupted => {}
            result => return result,
        }
    }
}

/// Answers every line of the input; the last one may lack its newline.
/// The answers are written after each piece of the input.
pub fn answer_all(input: &mut impl Read, output: &mut impl Write) -> io::Result<()> {
    let mut bench = Bench::default();
    let mut piece = vec![0; PIECE];
    let mut line = Vec::new();
    let mut answers = Vec::new();
    loop {
        let length = next_piece(input, &mut piece)?;
        if length == 0 {
            break;
        }
        let mut rest = &piece[..length];
        while let Some(end) = rest.iter().position(|byte| *byte == b'\n') {
            keep(&mut line, &rest[..end]);
            bench.answer(&line, &mut answers);
            line.clear();
            rest = &rest[end + 1..];
        }
        keep(&mut line, rest);
        output.write_all(&answers)?;
        output.flush()?;
        answers.clear();
    }
    bench.answer(&line, &mut answers);
    output.write_all(&answers)?;
    output.flush()
}
