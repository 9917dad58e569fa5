//! Seeded cases: the same seed gives the same lines on any machine.
//!
//! Lines come in episodes of one subject. Every line is also answered by a bench
//! of the generator's own, so that walks know which phase they have led to.

mod bmp;
mod buses;
mod chips;
mod damaged;
pub mod day_files;
mod days;
mod events;
pub mod files;
mod readings;
mod records;
mod rooms;
mod texts;
mod times;
mod tour;
pub mod trees;
mod visits;
mod walks;

use crate::lines::Bench;
use crate::part::Part;
use crate::random::Random;
use crate::spelling::fresh;
use std::collections::VecDeque;

const LINES_TO_TOUR: u64 = 4000;

/// What kind of lines to write. The stored cases have those of a BME280 alone as they were before the BMP280 came.
#[derive(Clone, Copy, Debug, PartialEq, Eq)]
pub enum Kind {
    Everything,
    BmeAlone,
    Comp,
    Readings,
    Events,
    Rooms,
    Visits,
    Days,
}

/// The generator: its source, its own bench, and the lines not yet handed out.
pub struct Generator {
    kind: Kind,
    random: Random,
    bench: Bench,
    pending: VecDeque<String>,
    since_tour: u64,
}

impl Generator {
    /// Starts a generator of one kind from a seed.
    /// Its bench has a fresh machine, as the program's own at the start.
    pub fn new(kind: Kind, seed: u64) -> Self {
        Generator {
            kind,
            random: Random::new(seed),
            bench: Bench::default(),
            pending: VecDeque::new(),
            since_tour: 0,
        }
    }

    /// Gives the next line.
    /// Where none is left, another episode is written first.
    pub fn line(&mut self) -> String {
        loop {
            if let Some(line) = self.pending.pop_front() {
                return line;
            }
            self.episode();
        }
    }

    /// Adds a line to those to be handed out, and answers it on the own bench.
    /// The answer itself is not needed, only the machine it leads to.
    fn say(&mut self, line: impl Into<String>) {
        let line = line.into();
        self.bench.answer(line.as_bytes(), &mut Vec::new());
        self.since_tour += 1;
        self.pending.push_back(line);
    }

    /// Writes one episode of the generator's kind.
    /// Of everything, a tour comes round in fixed distances, so that each number is reached.
    fn episode(&mut self) {
        match self.kind {
            Kind::Comp | Kind::Readings => self.readings(),
            Kind::Events => self.events(),
            Kind::Rooms => self.rooms(),
            Kind::Visits => self.visits(),
            Kind::Days => self.days(),
            Kind::Everything | Kind::BmeAlone if self.since_tour >= LINES_TO_TOUR => {
                self.since_tour = 0;
                self.tour();
            }
            Kind::Everything | Kind::BmeAlone => self.anything(),
        }
    }

    /// Says whether no line is to be of a BMP280.
    /// Nothing is drawn from the source for it then.
    fn bme_alone(&self) -> bool {
        matches!(self.kind, Kind::BmeAlone | Kind::Comp)
    }

    /// Picks the part of the next fresh state.
    /// Either one is as likely, where there are both.
    fn part(&mut self) -> Part {
        match self.bme_alone() {
            true => Part::Bme280,
            false => self.random.pick(&[Part::Bme280, Part::Bmp280]),
        }
    }

    /// Writes an episode of events only: a walk, now and then one close to number 8.
    /// Some walks begin in the fresh state, others where the last one ended.
    fn events(&mut self) {
        if self.random.percent(10) {
            self.walk_at_limit();
        } else {
            let begun = match self.random.below(10) {
                0 | 1 => Some(None),
                2 => Some(Some(self.random.below(1_000))),
                _ => None,
            };
            if let Some(begun) = begun {
                let part = self.part();
                self.say(fresh(part, begun));
            }
            self.walk();
        }
    }

    /// Writes an episode of any subject.
    /// Readings and walks take the most lines.
    fn anything(&mut self) {
        match self.random.below(100) {
            0..=16 => self.readings(),
            17..=24 => self.rooms(),
            25..=32 => self.visits(),
            33..=39 => self.days(),
            40..=42 => self.calibrations(),
            43..=52 => self.waits(),
            53..=62 => self.polls(),
            63..=79 => self.buses(),
            80..=89 => self.events(),
            _ => self.damaged(),
        }
    }

    /// Writes a run of lines, each by the same call, of a length between two limits.
    /// Both limits are included.
    fn run(&mut self, shortest: i64, longest: i64, line: fn(&mut Random) -> String) {
        for _ in 0..self.random.between(shortest, longest) {
            let line = line(&mut self.random);
            self.say(line);
        }
    }

    /// Writes a run of compensation readings.
    /// It is long enough to be most of what is generated.
    fn readings(&mut self) {
        match self.bme_alone() {
            true => self.run(5, 25, readings::reading),
            false => self.run(5, 25, bmp::either_reading),
        }
    }

    /// Writes a run of points, cells and comparisons of rooms.
    /// None of them changes the machine.
    fn rooms(&mut self) {
        self.run(4, 16, rooms::line);
    }

    /// Writes a run of visit records to be read and of steps to be written.
    /// None of them changes the machine.
    fn visits(&mut self) {
        self.run(4, 16, visits::line);
    }

    /// Writes a few days of readings.
    /// None of them changes the machine.
    fn days(&mut self) {
        self.run(3, 11, days::line);
    }

    /// Writes a few calibration blocks.
    /// Some have a wrong length.
    fn calibrations(&mut self) {
        self.run(1, 4, readings::calibration);
    }

    /// Writes a few waiting times.
    /// Some have a code above 7.
    fn waits(&mut self) {
        self.run(1, 6, times::wait);
    }

    /// Writes a few pollings.
    /// Some never become ready.
    fn polls(&mut self) {
        self.run(1, 6, times::poll);
    }

    /// Writes a run of I2C and SPI commands.
    /// Some are damaged, and some buffers too short.
    fn buses(&mut self) {
        self.run(3, 12, buses::line);
    }

    /// Writes a few lines that are, for the most part, none of the commands.
    /// Those that are commands after all change the machine as they should.
    fn damaged(&mut self) {
        match self.bme_alone() {
            true => self.run(2, 8, damaged::line),
            false => self.run(2, 8, bmp::either_damaged),
        }
    }
}
