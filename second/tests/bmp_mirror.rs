//! A BMP280 held to a BME280 whose F2 is never written: the two differ as the paper says, and in nothing else.

mod common;

use common::{answer, check};
use second::bmp::walks;
use second::copying;
use second::generate::{Generator, Kind};
use second::lines::Bench;

/// Two benches side by side. The first has the lines as they are; the other has a BME280 all along.
#[derive(Default)]
struct Mirror {
    first: Bench,
    other: Bench,
    bmp: bool,
    opened: Option<u32>,
    next: u32,
}

impl Mirror {
    /// Gives what F2 says when it is written, without a look at either bench.
    /// An open burst comes first.
    fn f2(&self) -> String {
        String::from(if self.opened.is_some() { "3" } else { "4" })
    }

    /// Gives the byte that a BMP280 has to give where the BME280 gives another one.
    /// The chip's id differs, and FD and FE are 0.
    fn byte(&mut self) -> String {
        let said = answer(&mut self.other, "byte");
        match (self.opened, self.next) {
            (Some(_), 0xD0) => String::from("0 58"),
            (Some(_), 0xFD | 0xFE) => String::from("0 00"),
            _ => said,
        }
    }

    /// Closes the BME280's burst, with a buffer of eight for six and the other way round.
    /// Where the BMP280's is whole already, the last two bytes are read first. The buffer shows six.
    fn close(&mut self, length: &str) -> String {
        let asked = match length {
            "6" => "8",
            "8" => "6",
            other => other,
        };
        if asked == "8" && self.opened.map_or(false, |opened| opened <= 0xF7) {
            for _ in (self.next..0xFF).take_while(|_| self.next >= 0xFD) {
                answer(&mut self.other, "byte");
            }
        }
        let said = answer(&mut self.other, &format!("close {asked}"));
        let (start, buffer) = said.split_once("buf=").expect("a buffer");
        match length {
            "6" => format!("{start}buf={}", &buffer[..12]),
            "8" => format!("{start}buf={buffer}AAAA"),
            _ => said,
        }
    }

    /// Answers a line on the other bench, and gives what the first one has to say.
    /// A BME280 says the same on both.
    fn expected(&mut self, line: &str) -> String {
        let words: Vec<&str> = line.split(' ').collect();
        match words[..] {
            ["fresh", "bmp", ..] => answer(&mut self.other, &line.replace("fresh bmp", "fresh")),
            ["write", "F2", _] if self.bmp => self.f2(),
            ["byte"] if self.bmp => self.byte(),
            ["close", length] if self.bmp => self.close(length),
            _ => answer(&mut self.other, line),
        }
    }

    /// Follows the open burst by the line and its answer.
    /// Refused lines change nothing.
    fn follow(&mut self, line: &str, said: &str) {
        let words: Vec<&str> = line.split(' ').collect();
        if !said.starts_with('0') {
            return;
        }
        match words[..] {
            ["fresh", ..] => {
                self.bmp = words.get(1) == Some(&"bmp");
                self.opened = None;
            }
            ["open", address] => {
                self.next = u32::from_str_radix(address, 16).expect("an address");
                self.opened = Some(self.next);
            }
            ["byte"] => self.next += 1,
            ["close", _] | ["power"] => self.opened = None,
            _ => {}
        }
    }

    /// Holds one line to the mirror.
    /// Gives what was said.
    fn hold(&mut self, line: &str) -> String {
        let expected = self.expected(line);
        let said = answer(&mut self.first, line);
        assert_eq!(said, expected, "{line}");
        self.follow(line, &said);
        said
    }
}

/// What the mirror changes, by hand: the byte at FD, the buffer, and where a burst is whole.
/// The same events are done on both parts.
#[test]
fn what_differs() {
    for (start, last, close) in [
        (
            "fresh",
            "80",
            "close 8 => 0 partial n=0 codes=0,0,0 before=0 buf=AAAAAAAAAAAAAAAA",
        ),
        (
            "fresh bmp",
            "00",
            "close 6 => 0 whole n=1 codes=1,1,0 before=0 buf=000020000010",
        ),
    ] {
        check(&format!(
            "{start} => 0
             copied => 0
             write F4 25 => 0
             copied => 0
             finish 1 2 3 => 0
             open F7 => 0
             byte => 0 00
             byte => 0 00
             byte => 0 20
             byte => 0 00
             byte => 0 00
             byte => 0 10
             byte => 0 {last}
             {close}"
        ));
    }
}

/// The walks of copying, told again of a BMP280, and its own walks.
/// All of them are stored.
#[test]
fn stored_walks() {
    let mut mirror = Mirror::default();
    for line in walks::lines() {
        mirror.hold(&line);
    }
    for walk in copying::WALKS {
        let mut mirror = Mirror::default();
        for line in walks::retold(walk) {
            mirror.hold(&line);
        }
    }
}

/// Generated walks of both parts.
/// Closes of each kind come on a BMP280, and every number that an event can have.
#[test]
fn generated_walks() {
    let mut said_of_bmp = Vec::new();
    for seed in 40..46 {
        let mut generator = Generator::new(Kind::Events, seed);
        let mut mirror = Mirror::default();
        for _ in 0..10_000 {
            let line = generator.line();
            let said = mirror.hold(&line);
            if mirror.bmp {
                said_of_bmp.push(format!("{line} => {said}"));
            }
        }
    }
    let count = |start: &str, part: &str| {
        let rows = said_of_bmp.iter().filter(|row| row.starts_with(start));
        rows.filter(|row| row.contains(part)).count()
    };
    assert!((20_000..40_000).contains(&said_of_bmp.len()));
    for (start, part, least) in [
        ("close 6", " whole n=", 600),
        ("close 6", "before=1", 100),
        ("close 6", "=> 0 partial", 300),
        ("close 8", "=> 2", 30),
        ("close 5", "=> 2", 3),
        ("write F2", "=> 4", 500),
        ("write F2", "=> 3", 3),
        ("finish", " 65535 => 0", 30),
        ("finish", " 65536 => 7", 30),
        ("finish", " 65536 => 6", 2),
        ("write", "=> 8", 20),
        ("finish", "=> 8", 5),
        ("wake", "=> 8", 5),
        ("write E0 B6", "=> 0", 100),
        ("power", "=> 0", 100),
        ("ledger", "waiting=1", 30),
    ] {
        assert!(
            count(start, part) >= least,
            "{start} {part} {}",
            count(start, part)
        );
    }
}

/// Generated walks: bursts on a BMP280 end at each address from FB to FF, and past it.
/// They are whole from FC on, if they were opened at F7 or before.
#[test]
fn ends_of_bursts() {
    let mut ends = [[0; 2]; 6];
    let mut generator = Generator::new(Kind::Events, 50);
    let mut mirror = Mirror::default();
    for _ in 0..60_000 {
        let line = generator.line();
        let (bmp, opened, next) = (mirror.bmp, mirror.opened, mirror.next);
        let said = mirror.hold(&line);
        if !bmp || !line.starts_with("close") || !said.starts_with('0') || next < 0xFC {
            continue;
        }
        let low = opened.map_or(false, |opened| opened <= 0xF7);
        assert_eq!(said.starts_with("0 whole"), low && next >= 0xFD, "{next:X}");
        ends[(next - 0xFB) as usize][usize::from(low)] += 1;
    }
    assert!(ends[1..].iter().all(|end| end[1] > 5), "{ends:?}");
}

/// Each walk starts in a BMP280's fresh state, and so does each that is told again.
/// No walk is left out of the lines.
#[test]
fn lines_start_fresh() {
    let lines = walks::lines();
    assert!(walks::WALKS
        .iter()
        .all(|walk| walk.starts_with("fresh bmp;") || walk.starts_with("fresh bmp 4294967295;")));
    let retold = copying::WALKS.iter().map(|walk| walks::retold(walk));
    let retold: Vec<Vec<String>> = retold.collect();
    assert!(retold.iter().all(|walk| walk[0] == "fresh bmp"));
    let own: usize = walks::WALKS
        .iter()
        .map(|walk| walks::spelled(walk).len())
        .sum();
    assert_eq!(lines.len(), own + retold.concat().len());
}
