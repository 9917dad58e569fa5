//! Any bytes at all on the input: junk, long lines, no newline at the end, nothing.

use second::random::Random;
use second::streams::answer_all;
use std::io::Read;

/// Answers raw input.
/// It comes in one piece.
fn answered(input: &[u8]) -> String {
    let mut output = Vec::new();
    answer_all(&mut &input[..], &mut output).expect("a list can be written to");
    String::from_utf8(output).expect("answers are text")
}

/// An input that gives a few bytes at a time.
struct Dripping<'a>(&'a [u8], usize);

impl Read for Dripping<'_> {
    /// Gives at most so many bytes of what is left.
    /// Nothing is left at the end.
    fn read(&mut self, buffer: &mut [u8]) -> std::io::Result<usize> {
        let length = self.0.len().min(self.1).min(buffer.len());
        let (now, later) = self.0.split_at(length);
        buffer[..length].copy_from_slice(now);
        self.0 = later;
        Ok(length)
    }
}

/// Nothing, only newlines, and a last line without its newline.
/// Empty lines are passed over.
#[test]
fn ends_of_input() {
    assert_eq!(answered(b""), "");
    assert_eq!(answered(b"\n\n\n"), "");
    assert_eq!(answered(b"copied"), "0\n");
    assert_eq!(answered(b"copied\n"), "0\n");
    assert_eq!(answered(b"\ncopied\n\ncopied"), "0\n6\n");
    assert_eq!(answered(b"copied\r\ncopied"), "? unknown word\n0\n");
}

/// A megabyte in one line is one line that is too long; the next one is read.
/// So are lines that end just before and after the limit, across pieces of the input.
#[test]
fn long_lines() {
    let mut input = vec![b'x'; 1 << 20];
    input.extend_from_slice(b"\ncopied\n");
    input.extend(vec![0; 1 << 20]);
    assert_eq!(answered(&input), "? too long\n0\n? too long\n");
    let mut input = Vec::new();
    let mut expected = String::new();
    for length in [
        4_095, 4_096, 4_097, 61_000, 4_096, 65_535, 65_536, 4_096, 65_537, 1,
    ] {
        input.extend(vec![b'x'; length]);
        input.push(b'\n');
        let too_long = length > 4_096;
        expected.push_str(if too_long {
            "? too long\n"
        } else {
            "? unknown word\n"
        });
    }
    assert_eq!(answered(&input), expected);
}

/// A megabyte of binary junk, plain and with spaces and known words among it.
/// Every line that isn't empty has one answer.
#[test]
fn binary_junk() {
    let mut random = Random::new(5);
    let junk = random.bytes(1 << 20);
    let words: [&[u8]; 20] = [
        b"comp ",
        b"point - - - ",
        b"rooms - - - 1 1 1 - - - 1 1 1 ",
        b"wait max ",
        b"visit read 0100",
        b"visit write 9 ( ",
        b"7:-5:25767233:!10 ",
        b"day - - ",
        b"day 00 00 00 ",
        b") ",
        b"i2c write 76 ",
        b"spi decode ",
        b"poll 3 ",
        b"close ",
        b"open F7",
        b"byte",
        b"write F4 ",
        b"\n",
        b" 8",
        b"00",
    ];
    let mut mixed = Vec::new();
    while mixed.len() < 1 << 20 {
        match random.percent(70) {
            true => mixed.extend_from_slice(random.pick(&words)),
            false => mixed.push(random.byte()),
        }
    }
    for input in [junk, mixed] {
        let lines = input.split(|byte| *byte == b'\n');
        let spoken = lines.filter(|line| !line.is_empty()).count();
        assert_eq!(answered(&input).lines().count(), spoken);
    }
}

/// The pieces in which the input comes make no difference.
/// One byte at a time gives the same answers.
#[test]
fn pieces_make_no_difference() {
    let mut generator = second::generate::Generator::new(second::generate::Kind::Everything, 9);
    let lines: Vec<String> = (0..3_000).map(|_| generator.line()).collect();
    let input = lines.join("\n").into_bytes();
    let whole = answered(&input);
    for size in [1, 7, 4_096] {
        let mut output = Vec::new();
        answer_all(&mut Dripping(&input, size), &mut output).expect("a list can be written to");
        assert_eq!(output, whole.as_bytes());
    }
}
