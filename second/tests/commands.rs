//! The program's own commands on visit records and loggers' files: what they write, what they say, and their exit codes.

use second::calibration::blocks;
use second::day::cases::{chip, flat, AIR};
use second::generate::{day_files, files};
use second::visits::cases::{nested, SKIPPED};
use second::visits::writer::fields;
use std::fs;
use std::io::Write;
use std::process::{Command, Stdio};

/// Runs the program with words and standard input.
/// Gives its exit code, its output and what it said.
fn run(words: &str, input: &[u8]) -> (Option<i32>, Vec<u8>, String) {
    let mut program = Command::new(env!("CARGO_BIN_EXE_second"))
        .args(words.split(' '))
        .stdin(Stdio::piped())
        .stdout(Stdio::piped())
        .stderr(Stdio::piped())
        .spawn()
        .expect("the program runs");
    let mut pipe = program.stdin.take().expect("a pipe");
    // a program that has read enough may close the pipe early
    let _ = pipe.write_all(input);
    drop(pipe);
    let done = program.wait_with_output().expect("the program ends");
    let said = String::from_utf8(done.stderr).expect("a text");
    (done.status.code(), done.stdout, said)
}

/// Holds a run to its output, with exit code 0 and nothing said.
/// The output is bytes.
fn given(words: &str, input: &[u8], output: &[u8]) {
    assert_eq!(run(words, input), (Some(0), output.to_vec(), String::new()));
}

/// Reading and writing answer as the bench does.
/// A refusal is an answer, with exit code 0.
#[test]
fn answers() {
    let record = nested(2, &fields(&SKIPPED));
    let steps = b"( ( 7:-5:25767233:!10 ) )";
    given(
        "visit read 5",
        &record,
        b"0 n=5 steps=( ( 7:-5:25767233:!10 ) )\n",
    );
    given("visit read 4", &record, b"9\n");
    given("visit read 70000", &[], b"18 at=0\n");
    given("visit read 0", &vec![0; 1 << 20], b"2\n");
    given("visit write 2", b"\n", b"19 at=0 buf=AAAA\n");
    given("visit write 0", steps, b"9 buf=-\n");
    given("visit write 1", b"( 7:1:2 )", b"? not a number\n");
    let (code, output, _) = run("visit write 33", steps);
    assert_eq!(code, Some(0));
    assert!(output.starts_with(b"0 n=32 buf=01001D01001A") && output.ends_with(b"060AAA\n"));
    let longest = files::record(0, 5);
    let (_, output, _) = run("visit read 16384", &longest);
    let steps = output
        .splitn(2, |byte| *byte == b'=')
        .nth(1)
        .expect("a number");
    let steps = steps.splitn(2, |byte| *byte == b'=').nth(1).expect("steps");
    let (_, again, _) = run("visit write 65535", steps);
    assert!(again.starts_with(b"0 n=65535 buf=01FFFC"));
}

/// Showing and packing give a text and a record, or one line on standard error and exit code 1.
/// Nothing is written then.
#[test]
fn texts() {
    let record = nested(2, &fields(&SKIPPED));
    let (code, text, said) = run("visit show", &record);
    assert_eq!((code, said.as_str()), (Some(0), ""));
    assert!(text.starts_with(b"house 1\n  floor 1\n    time 7 (1970-01-01 00:00:07 UTC)\n"));
    given("visit pack", &text, &record);
    let refused = |words: &str, input: &[u8], line: &str| {
        assert_eq!(
            run(words, input),
            (Some(1), Vec::new(), format!("{line}\n"))
        );
    };
    refused(
        "visit show",
        &[9, 0, 0],
        "visit show: byte 0: tag out of place (19)",
    );
    refused(
        "visit show",
        &vec![1; 70_000],
        "visit show: more than 65,535 bytes (2)",
    );
    refused(
        "visit pack",
        b"house 2\n",
        "visit pack: line 1: the number is not this group's place",
    );
    refused(
        "visit pack",
        &vec![b'#'; 1 << 21],
        "visit pack: the text has more than 1,048,576 bytes",
    );
    let long = files::text(1, 5);
    refused(
        "visit pack",
        &long,
        "visit pack: the record would have more than 65,535 bytes (2)",
    );
}

/// A logger's file gives a table or values with commas, and a cut one a line on standard error and exit code 1.
/// Nothing is written then.
#[test]
fn days() {
    let (one, two) = blocks(&chip());
    let places = [(AIR[0], [1, 1, 1]), (AIR[0], [1, 1, 8])];
    let file = [one, two, flat(&places)].concat();
    let table = "place    °C       Pa               %RH\n\
                 1        25.08    100653.25390625  36.8857421875\n\
                 2        missing 7 (a code above 7)\n\
                 \n\
                 2 readings\n\
                 temperature: 1 there, 1 missing\n\x20 7 (a code above 7): 1\n\
                 pressure: 1 there, 1 missing\n\x20 7 (a code above 7): 1\n\
                 humidity: 1 there, 1 missing\n\x20 7 (a code above 7): 1\n";
    let csv = "place,celsius,celsius_number,pascal,pascal_number,humidity,humidity_number\n\
               1,25.08,0,100653.25390625,0,36.8857421875,0\n\
               2,,7,,7,,7\n";
    given("day", &file, table.as_bytes());
    given("day --csv", &file, csv.as_bytes());
    let cut = [
        (0, "it ends at byte 0, within the 33 calibration bytes"),
        (32, "it ends at byte 32, within the 33 calibration bytes"),
        (
            54,
            "it ends at byte 54, with 10 of the 11 bytes of reading 2",
        ),
    ];
    for (length, place) in cut {
        let said = format!("day: the file is cut: {place}\n");
        for words in ["day", "day --csv"] {
            let refused = (Some(1), Vec::new(), said.clone());
            assert_eq!(run(words, &file[..length]), refused);
        }
    }
}

/// Generated files have their numbers as names, and are the same each time.
/// Wrong words show the help and give 2.
#[test]
fn generated_files() {
    let folder = std::env::temp_dir().join(format!("second-{}", std::process::id()));
    let name = folder.to_str().expect("a name");
    for (command, make) in [
        ("generate-records", files::record as fn(u64, u64) -> Vec<u8>),
        ("generate-texts", files::text),
        ("generate-day-files", day_files::file),
    ] {
        given(&format!("{command} {name} 20 3"), &[], &[]);
        for place in 0..20 {
            let path = folder.join(format!("{:06}", place + 1));
            assert_eq!(fs::read(path).expect("a file"), make(place, 3));
        }
        fs::remove_dir_all(&folder).expect("the folder goes");
    }
    for words in [
        "visit",
        "visit read",
        "visit read x",
        "visit write 1048577",
        "visit show 9",
        "visit retire",
        "generate-records 20 3",
        "generate-texts folder x 3",
        "generate-day-files folder 3",
        "generate-days 3",
        "generate-bmp 3 3",
        "sheet bme",
        "sheet bmp 3",
        "day --table",
        "day --csv 3",
        "day x",
    ] {
        let (code, output, said) = run(words, &[]);
        assert_eq!((code, output.len()), (Some(2), 0), "{words}");
        assert!(said.starts_with("second answer"), "{words}");
    }
}
