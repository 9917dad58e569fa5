//! What the tests share: answering a script of lines on a fresh bench.

use second::lines::Bench;

/// Answers one line on a bench.
/// The newline is taken off.
pub fn answer(bench: &mut Bench, line: &str) -> String {
    let mut out = Vec::new();
    bench.answer(line.as_bytes(), &mut out);
    let text = String::from_utf8(out).expect("answers are text");
    text.trim_end_matches('\n').to_string()
}

/// Holds a script to its answers, on one fresh bench.
/// Each row is a command, an arrow and the answer.
pub fn check(script: &str) {
    let mut bench = Bench::default();
    for row in script.lines().map(str::trim).filter(|row| !row.is_empty()) {
        let (command, expected) = row.split_once(" => ").expect("a row has an arrow");
        let given = answer(&mut bench, command);
        assert_eq!(given, expected, "at the row: {row}");
    }
}
