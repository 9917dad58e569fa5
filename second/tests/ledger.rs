//! The ledger by history, held against a plain counter that goes from event to event.

use second::generate::{Generator, Kind};
use second::lines::Bench;

/// A plain counter of conversions. It believes the bench's 0 and keeps its own counts.
#[derive(Default)]
struct Counter {
    begun: u64,
    delivered: u64,
    overwritten: u64,
    abandoned: u64,
    running: Option<u64>,
    waiting: Option<u64>,
    shown: Option<u64>,
    shown_delivered: bool,
    normal: bool,
    standby: bool,
    held: Option<u8>,
    next_address: u16,
    opened_low: bool,
    burst: bool,
    bmp: bool,
}

impl Counter {
    /// Begins one more conversion.
    /// It may be a normal one.
    fn begin(&mut self, normal: bool) {
        self.begun += 1;
        self.running = Some(self.begun);
        self.normal = normal;
        self.standby = false;
    }

    /// Lets F4 take effect.
    /// Only its mode is of interest.
    fn take_effect(&mut self, value: u8) {
        match value & 3 {
            0 => self.standby = false,
            3 if self.standby => {}
            mode => self.begin(mode == 3),
        }
    }

    /// Shows a conversion in place of the one shown.
    /// An undelivered one is overwritten.
    fn show(&mut self, number: u64) {
        if self.shown.is_some() && !self.shown_delivered {
            self.overwritten += 1;
        }
        self.shown = Some(number);
        self.shown_delivered = false;
    }

    /// Finishes the running conversion.
    /// Under a burst it waits.
    fn finish(&mut self) {
        let number = self.running.take().expect("a running conversion");
        if !self.burst {
            self.show(number);
        } else if self.waiting.replace(number).is_some() {
            self.overwritten += 1;
        }
        self.standby = self.normal;
        if let Some(value) = self.held.take() {
            self.take_effect(value);
        }
    }

    /// Abandons what is running, waiting, or shown and not delivered.
    /// Everything but the counts starts anew.
    fn reset(&mut self) {
        let unread = self.shown.filter(|_| !self.shown_delivered);
        let found = [self.running, self.waiting, unread];
        *self = Counter {
            begun: self.begun,
            delivered: self.delivered,
            overwritten: self.overwritten,
            abandoned: self.abandoned + found.iter().flatten().count() as u64,
            bmp: self.bmp,
            ..Counter::default()
        };
    }

    /// Closes the burst and gives what the answer has to say of the conversion.
    /// Then what waits is shown.
    fn close(&mut self) -> String {
        let last = if self.bmp { 0xFC } else { 0xFE };
        let whole = self.opened_low && self.next_address > last;
        let text = match self.shown.filter(|_| whole) {
            Some(number) => {
                let before = u64::from(self.shown_delivered);
                self.delivered += 1 - before;
                self.shown_delivered = true;
                format!("whole n={number} before={before}")
            }
            None if whole => String::from("whole n=0 before=0"),
            None => String::from("partial n=0 before=0"),
        };
        if let Some(number) = self.waiting.take() {
            self.show(number);
        }
        self.burst = false;
        text
    }

    /// Gives the ledger's line.
    /// Standing is what is neither delivered, overwritten nor abandoned.
    fn line(&self) -> String {
        let unread = self.shown.filter(|_| !self.shown_delivered);
        format!(
            "begun={} delivered={} overwritten={} abandoned={} standing={} running={} waiting={} shown={}",
            self.begun,
            self.delivered,
            self.overwritten,
            self.abandoned,
            self.begun - self.delivered - self.overwritten - self.abandoned,
            u8::from(self.running.is_some()),
            u8::from(self.waiting.is_some()),
            u8::from(unread.is_some()),
        )
    }

    /// Takes one event that the bench has answered with 0.
    /// What a close has to say is given back.
    fn take(&mut self, words: &[&str]) -> Option<String> {
        let hex = |word: &str| u8::from_str_radix(word, 16).expect("two hex digits");
        match words {
            ["power"] | ["write", "E0", _] => self.reset(),
            ["write", "F4", value] if self.running.is_some() => self.held = Some(hex(value)),
            ["write", "F4", value] => self.take_effect(hex(value)),
            ["finish", ..] => self.finish(),
            ["wake"] => self.begin(true),
            ["open", address] => {
                self.burst = true;
                self.next_address = u16::from(hex(address));
                self.opened_low = hex(address) <= 0xF7;
            }
            ["byte"] => self.next_address += 1,
            ["close", _] => return Some(self.close()),
            _ => {}
        }
        None
    }
}

/// Answers a line on the bench and holds its answer and ledger to the counter's.
/// Gives the ledger's line.
fn step(bench: &mut Bench, counter: &mut Counter, line: &str) -> String {
    let mut out = Vec::new();
    bench.answer(line.as_bytes(), &mut out);
    let answer = String::from_utf8(out).expect("answers are text");
    let words: Vec<&str> = line.split(' ').collect();
    if words[0] == "fresh" {
        let begun = words.last().and_then(|word| word.parse().ok());
        *counter = Counter {
            begun: begun.unwrap_or(0),
            delivered: begun.unwrap_or(0),
            bmp: words.get(1) == Some(&"bmp"),
            ..Counter::default()
        };
    } else if answer.starts_with("0") {
        if let Some(closing) = counter.take(&words) {
            let mut said: Vec<&str> = answer.split(' ').collect();
            said.retain(|word| !word.starts_with("codes=") && !word.starts_with("buf="));
            assert_eq!(said[1..].join(" "), closing);
        }
    }
    let mut out = Vec::new();
    bench.answer(b"ledger", &mut out);
    let ledger = String::from_utf8(out).expect("answers are text");
    assert_eq!(ledger.trim_end(), counter.line(), "after {line}");
    ledger
}

/// Generated walks: the counter and the history agree after every event.
/// All ways to stand, and all four counts, are met on the way.
#[test]
fn generated_walks() {
    let mut seen = String::new();
    for seed in 0..6 {
        let mut generator = Generator::new(Kind::Events, seed);
        let (mut bench, mut counter) = (Bench::default(), Counter::default());
        for _ in 0..15_000 {
            let line = generator.line();
            let ledger = step(&mut bench, &mut counter, &line);
            if seen.len() < 4_000_000 {
                seen.push_str(&ledger);
            }
        }
    }
    for part in [
        "running=1 waiting=1 shown=1",
        "running=0 waiting=1 shown=0",
        "running=1 waiting=1 shown=0",
        "running=0 waiting=1 shown=1",
    ] {
        assert!(seen.contains(part), "{part}");
    }
}

/// Walks without any reset, long enough to be folded many times.
/// Repeated bursts and finishes under a burst that stays open are among them.
fn long_walk(start: &str, data: usize) {
    let (mut bench, mut counter) = (Bench::default(), Counter::default());
    step(&mut bench, &mut counter, start);
    let mut run = |lines: &str| {
        for line in lines.split(';') {
            step(&mut bench, &mut counter, line);
        }
    };
    let next = "wake;copied;finish 1 2 3";
    run("copied;write F4 27;copied;finish 1 2 3");
    let bytes = ";byte".repeat(data);
    let close = format!("close {data}");
    for _ in 0..100 {
        run(&format!(
            "open F7{bytes};{close};wake;copied;open F7{bytes};finish 1 2 3;{close}"
        ));
        run(&format!("{next};{next};open F7;{next};{close}"));
    }
    run("open F7;byte");
    for _ in 0..500 {
        run(next);
    }
    run(&format!("{};wake;{close};ledger", &bytes[1..]));
    for _ in 0..100 {
        run(&format!("open 80{};{close}", ";byte".repeat(128)));
    }
    run("copied;finish 1 2 3;power;ledger");
}

/// Both parts walk long without a reset.
/// Each has its own number of bytes.
#[test]
fn long_walks_without_reset() {
    long_walk("fresh", 8);
    long_walk("fresh bmp", 6);
}

/// Every sequence of five out of twelve happenings, from a machine that is ready.
/// The data bytes go as one of them, and so does a finish with the copied event before it.
fn short_walks(start: &str, data: usize) {
    let bytes = vec!["byte"; data].join(";");
    let close = format!("close {data}");
    let choices = [
        "write F4 25",
        "write F4 27",
        "write F4 00",
        "write E0 B6",
        "power",
        "finish 1 2 3",
        "copied;finish 1 2 3",
        "wake",
        "open F7",
        &bytes,
        &close,
        "copied",
    ];
    let all = choices.len().pow(5);
    for walk in 0..all {
        let (mut bench, mut counter) = (Bench::default(), Counter::default());
        step(&mut bench, &mut counter, start);
        step(&mut bench, &mut counter, "copied");
        let mut rest = walk;
        for _ in 0..5 {
            for line in choices[rest % choices.len()].split(';') {
                step(&mut bench, &mut counter, line);
            }
            rest /= choices.len();
        }
    }
}

/// Both parts walk every short walk.
/// Each has its own number of bytes.
#[test]
fn every_short_walk() {
    short_walks("fresh", 8);
    short_walks("fresh bmp", 6);
}
