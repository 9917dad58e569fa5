//! The second program's commands: answer, generate and its kinds, sheet, visit, day.

use second::day::file::File;
use second::day::texts;
use second::generate::{day_files, files, Generator, Kind};
use second::visits::{answers, pack, show, LONGEST_RECORD};
use second::{bmp, copying, day, edges, maps, sheet, streams, visits, words};
use std::fs;
use std::io::{self, BufWriter, ErrorKind, Read, Write};
use std::path::Path;
use std::process::ExitCode;

const HELP: &str = "\
second answer < FILE                  answers the bench's lines
second generate COUNT SEED            writes COUNT lines of every command
second generate-bme COUNT SEED        writes COUNT lines of every command, without the BMP280
second generate-comp COUNT SEED       writes COUNT compensation readings of a BME280
second generate-readings COUNT SEED   writes COUNT compensation readings of both parts
second generate-events COUNT SEED     writes COUNT machine events and ledgers
second generate-rooms COUNT SEED      writes COUNT points, cells and comparisons of rooms
second generate-visits COUNT SEED     writes COUNT lines of visit records
second generate-days COUNT SEED       writes COUNT lines of days
second sheet                          writes K1 to K14, other figures, the edges, copying, the rooms, the visits and the days
second sheet bmp                      writes the fixed cases of a BMP280
second visit read LEN < RECORD        answers as the bench does, for a record of any length
second visit write LEN < STEPS        answers as the bench does, for any number of steps
second visit show < RECORD            writes a record as a text for people
second visit pack < TEXT              writes the record of such a text
second day < FILE                     writes a logger's file as a table
second day --csv < FILE               writes a logger's file with commas between the values
second generate-records FOLDER COUNT SEED    writes COUNT records, each into a file
second generate-texts FOLDER COUNT SEED      writes COUNT texts, each into a file
second generate-day-files FOLDER COUNT SEED  writes COUNT logger's files
";
const LONGEST_LENT: u64 = 1_048_576;

/// Answers all lines of standard input on standard output.
/// Any bytes at all may come in.
fn answer() -> io::Result<()> {
    streams::answer_all(&mut io::stdin().lock(), &mut io::stdout().lock())
}

/// Writes so many generated lines to standard output.
/// The same seed gives the same lines.
fn generate(kind: Kind, count: u64, seed: u64) -> io::Result<()> {
    let mut output = BufWriter::new(io::stdout().lock());
    let mut generator = Generator::new(kind, seed);
    for _ in 0..count {
        writeln!(output, "{}", generator.line())?;
    }
    output.flush()
}

/// Writes the lines of the sheet, of the edges, of copying, of the rooms, of the visits and of the days to standard output.
/// Their order is fixed.
fn sheet() -> io::Result<()> {
    let parts = [
        sheet::lines(),
        edges::lines(),
        copying::lines(),
        maps::lines(),
        visits::cases::lines(),
        day::cases::lines(),
    ];
    write_lines(parts.concat())
}

/// Writes lines to standard output.
/// Each has its newline.
fn write_lines(lines: Vec<String>) -> io::Result<()> {
    let mut output = BufWriter::new(io::stdout().lock());
    for line in lines {
        writeln!(output, "{line}")?;
    }
    output.flush()
}

/// Writes so many files into a folder, which is made where it is missing.
/// Their names are their numbers from 1, with six digits.
fn fill(folder: &str, count: u64, seed: u64, make: fn(u64, u64) -> Vec<u8>) -> io::Result<()> {
    fs::create_dir_all(folder)?;
    for place in 0..count {
        let path = Path::new(folder).join(format!("{:06}", place + 1));
        fs::write(path, make(place, seed))?;
    }
    Ok(())
}

/// Reads standard input, but at most one byte more than so many.
/// So what is too long is known as such, however much there is.
fn input(longest: usize) -> io::Result<Vec<u8>> {
    let mut bytes = Vec::new();
    let limit = (longest as u64).saturating_add(1);
    io::stdin().lock().take(limit).read_to_end(&mut bytes)?;
    Ok(bytes)
}

/// Answers what stands on standard input by the given call.
/// A refusal is an answer like any other.
fn line(longest: usize, length: usize, call: fn(&[u8], usize) -> Vec<u8>) -> io::Result<()> {
    let mut output = io::stdout().lock();
    output.write_all(&call(&input(longest)?, length))?;
    output.flush()
}

/// Writes what the given call makes of standard input, or says on standard error why it makes nothing.
/// The latter gives exit code 1.
fn make(longest: usize, call: fn(&[u8]) -> Result<Vec<u8>, String>) -> io::Result<()> {
    match call(&input(longest)?) {
        Ok(bytes) => {
            let mut output = io::stdout().lock();
            output.write_all(&bytes)?;
            output.flush()
        }
        Err(line) => refuse(&line),
    }
}

/// Says on standard error why nothing is written.
/// The exit code is 1.
fn refuse(line: &str) -> io::Result<()> {
    writeln!(io::stderr(), "{line}")?;
    std::process::exit(1)
}

/// Writes a logger's file by the given call; it is read whole first.
/// Nothing is written of a file that is cut.
fn log(call: fn(&File, &mut dyn Write) -> io::Result<()>) -> io::Result<()> {
    let bytes = input(usize::MAX)?;
    match File::read(&bytes) {
        Ok(file) => {
            let mut output = BufWriter::with_capacity(1 << 16, io::stdout().lock());
            call(&file, &mut output)?;
            output.flush()
        }
        Err(line) => refuse(&line),
    }
}

/// Reads the length of a lent list or buffer: more than the bench's 256, and at most a million or so.
/// Anything else is a wrong argument.
fn length(word: &str) -> Option<usize> {
    let length = words::decimal(word.as_bytes()).ok()?;
    (length <= LONGEST_LENT).then_some(length as usize)
}

/// Runs a command on visit records, if the arguments name one.
/// What they take comes by standard input.
fn visit(arguments: &[&str]) -> Option<io::Result<()>> {
    match arguments {
        ["read", word] => Some(line(LONGEST_RECORD, length(word)?, answers::read_line)),
        ["write", word] => Some(line(usize::MAX, length(word)?, answers::write_line)),
        ["show"] => Some(make(LONGEST_RECORD, show::show)),
        ["pack"] => Some(make(pack::LONGEST_TEXT, pack::pack)),
        _ => None,
    }
}

/// Runs the command that the arguments name, if they name one.
/// Counts and seeds are decimal numbers of up to 64 bits.
fn run(arguments: &[&str]) -> Option<io::Result<()>> {
    match arguments {
        ["answer"] => Some(answer()),
        ["sheet"] => Some(sheet()),
        ["sheet", "bmp"] => Some(write_lines(bmp::lines())),
        ["visit", rest @ ..] => visit(rest),
        ["day"] => Some(log(texts::table)),
        ["day", "--csv"] => Some(log(texts::csv)),
        [command, count, seed] => {
            let kind = match *command {
                "generate" => Kind::Everything,
                "generate-bme" => Kind::BmeAlone,
                "generate-comp" => Kind::Comp,
                "generate-readings" => Kind::Readings,
                "generate-events" => Kind::Events,
                "generate-rooms" => Kind::Rooms,
                "generate-visits" => Kind::Visits,
                "generate-days" => Kind::Days,
                _ => return None,
            };
            Some(generate(kind, count.parse().ok()?, seed.parse().ok()?))
        }
        [command, folder, count, seed] => {
            let make = match *command {
                "generate-records" => files::record,
                "generate-texts" => files::text,
                "generate-day-files" => day_files::file,
                _ => return None,
            };
            Some(fill(folder, count.parse().ok()?, seed.parse().ok()?, make))
        }
        _ => None,
    }
}

/// Runs the program; wrong arguments show the help and give 2.
/// A reader that goes away early is no fault.
fn main() -> ExitCode {
    let arguments: Vec<_> = std::env::args_os().skip(1).collect();
    let arguments: Option<Vec<&str>> = arguments.iter().map(|word| word.to_str()).collect();
    match arguments.and_then(|words| run(&words)) {
        Some(Ok(())) => ExitCode::SUCCESS,
        Some(Err(error)) if error.kind() == ErrorKind::BrokenPipe => ExitCode::SUCCESS,
        Some(Err(error)) => {
            let _ = writeln!(io::stderr(), "second: {error}");
            ExitCode::FAILURE
        }
        None => {
            let _ = write!(io::stderr(), "{HELP}");
            ExitCode::from(2)
        }
    }
}
