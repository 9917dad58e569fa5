//! What the lines of visit records answer, for lists and buffers of any length.

use super::words::{spell_all, steps};
use super::{reader, writer, Refusal, Step};
use crate::answers::Answer;
use crate::lines::FILLING;
use crate::words::Reason;

/// Writes a refusal: its number and, where it has one, its place.
/// The place is an offset or a step's place in the list.
fn refusal(answer: Answer<'_>, refusal: Refusal) -> Answer<'_> {
    let answer = answer.number(refusal.number);
    match refusal.at {
        Some(place) => answer.text(" at=").decimal(place),
        None => answer,
    }
}

/// Reads a record into a lent list of so many steps and writes what comes of it.
/// The steps are shown in the words of the line that writes them.
pub fn read<'a>(answer: Answer<'a>, record: &[u8], length: usize) -> Answer<'a> {
    let mut list = vec![Step::Close; length];
    match reader::fill(record, &mut list) {
        Ok(count) => {
            let answer = answer.text("0 n=").decimal(count);
            answer.text(" steps=").text(&spell_all(&list[..count]))
        }
        Err(refused) => refusal(answer, refused),
    }
}

/// Writes a record into a lent buffer of so many bytes and shows what comes of it.
/// The whole buffer is shown, so that what was not written is seen.
pub fn write<'a>(answer: Answer<'a>, steps: &[Step], length: usize) -> Answer<'a> {
    let mut buffer = vec![FILLING; length];
    let answer = match writer::write(steps, &mut buffer) {
        Ok(count) => answer.text("0 n=").decimal(count),
        Err(refused) => refusal(answer, refused),
    };
    answer.text(" buf=").bytes(&buffer)
}

/// Writes why words are no steps.
/// It is the bench's own answer.
fn reason(answer: Answer<'_>, reason: Reason) -> Answer<'_> {
    answer.text("? ").text(reason.words())
}

/// Answers a record of any length as the bench does, with a newline.
/// The list may be longer than the bench's.
pub fn read_line(record: &[u8], length: usize) -> Vec<u8> {
    let mut out = Vec::new();
    read(Answer(&mut out), record, length).text("\n");
    out
}

/// Answers steps of any number as the bench does, with a newline.
/// White space of any kind parts the words.
pub fn write_line(text: &[u8], length: usize) -> Vec<u8> {
    let words = text.split(u8::is_ascii_whitespace);
    let words = words.filter(|word| !word.is_empty());
    let mut out = Vec::new();
    let answer = Answer(&mut out);
    match steps(words) {
        Ok(steps) => write(answer, &steps, length),
        Err(bad) => reason(answer, bad),
    }
    .text("\n");
    out
}
