//! Long walks of events, biased by the phase that they have led to.

use super::{events, Generator};
use crate::machine::MOST_CONVERSIONS;
use crate::part::Part;
use crate::phase::Phase;
use crate::random::Random;
use crate::spelling::fresh;

impl Generator {
    /// Writes a walk of many events, with the ledger in between and at its end.
    /// Each step looks at where the machine is.
    pub(super) fn walk(&mut self) {
        for _ in 0..self.random.between(15, 80) {
            self.step();
        }
        self.say("ledger");
    }

    /// Writes a walk that starts where almost all conversions have begun.
    /// Number 8 comes in it by write, by finish with a held F4, or by wake.
    pub(super) fn walk_at_limit(&mut self) {
        let begun = MOST_CONVERSIONS - self.random.pick(&[0, 1, 1, 1, 2, 3]);
        let part = self.part();
        self.say(fresh(part, Some(begun)));
        self.say("copied");
        for _ in 0..self.random.between(8, 30) {
            self.step();
            let machine = self.bench.machine();
            let refused = machine.copying() && machine.phase() == Phase::Sleep;
            if !refused && self.random.percent(30) {
                self.beginning(events::write_f4);
            }
        }
        self.say("ledger");
        let part = self.part();
        self.say(fresh(part, None));
    }

    /// Writes one step of a walk, of one event or more.
    /// A few steps are any event at all, or the ledger.
    fn step(&mut self) {
        let machine = self.bench.machine();
        let (phase, copying) = (machine.phase(), machine.copying());
        let open = machine.next_address().is_some();
        match self.random.below(100) {
            0..=4 => self.one(events::any),
            5..=9 => self.say("ledger"),
            _ if open => self.step_in_burst(),
            _ => match phase {
                Phase::Sleep if copying => self.step_copying(),
                Phase::Sleep => self.step_in_sleep(),
                Phase::Standby => self.step_in_standby(),
                Phase::Forced | Phase::Normal if copying => self.step_begun(),
                Phase::Forced | Phase::Normal => self.step_running(),
            },
        }
    }

    /// Writes one event made by the given call.
    /// The call draws from the generator's source.
    fn one(&mut self, event: fn(&mut Random) -> String) {
        let line = event(&mut self.random);
        self.say(line);
    }

    /// Gives how a finish is made for the machine's part.
    /// A BMP280's third count is at an edge more often.
    fn finish(&self) -> fn(&mut Random) -> String {
        match self.bench.machine().part() {
            Part::Bme280 => events::finish,
            Part::Bmp280 => events::finish_bmp,
        }
    }

    /// Writes a close that may have a wrong length.
    /// Those of a BMP280 have its own lengths.
    fn any_close(&mut self) {
        match self.bench.machine().part() {
            Part::Bme280 => self.one(events::close),
            Part::Bmp280 => self.one(events::close_bmp),
        }
    }

    /// Writes a close with a buffer of the right length.
    /// It is eight for a BME280, and six for a BMP280.
    fn close(&mut self) {
        let length = self.bench.machine().part().data();
        self.say(format!("close {length}"));
    }

    /// Says whether a conversion is running for which calibration is still being copied.
    /// It can't finish yet.
    fn begun_copying(&self) -> bool {
        let machine = self.bench.machine();
        machine.copying() && matches!(machine.phase(), Phase::Forced | Phase::Normal)
    }

    /// Writes an event that can begin a conversion, and in most cases the end of its copying.
    /// The other conversions are left copying for later steps.
    fn beginning(&mut self, event: fn(&mut Random) -> String) {
        let before = self.begun_copying();
        self.one(event);
        if !before && self.begun_copying() && self.random.percent(72) {
            self.say("copied");
        }
    }

    /// Writes a step in sleep while calibration is still being copied.
    /// Copying ends soon; until then writes are refused and bursts show fresh bytes.
    fn step_copying(&mut self) {
        match self.random.below(100) {
            0..=6 => self.one(events::write_f4),
            7..=13 => self.one(events::write_settings),
            14 | 15 => self.one(events::write_reset),
            16 | 17 => self.one(self.finish()),
            18..=23 => self.burst(),
            24..=26 => self.status(),
            _ => self.say("copied"),
        }
    }

    /// Writes a step in sleep.
    /// Settings are written, and a conversion begins soon.
    fn step_in_sleep(&mut self) {
        match self.random.below(100) {
            0..=21 => self.one(events::write_settings),
            22..=72 => self.beginning(events::write_f4),
            73 | 74 => self.one(events::write_reset),
            75..=77 => self.one(events::any),
            78 => self.say("copied"),
            _ => self.burst(),
        }
    }

    /// Writes a step while a conversion has begun and calibration is still being copied for it.
    /// Copying ends soon; until then no finish is done, and writes go by the running rules.
    fn step_begun(&mut self) {
        match self.random.below(100) {
            0..=10 => self.one(self.finish()),
            11..=23 => self.one(events::write_f4),
            24..=34 => self.one(events::write_settings),
            35 | 36 => self.one(events::write_reset),
            37 => self.say("power"),
            38 => self.say("wake"),
            39..=44 => self.status(),
            45..=50 => self.burst(),
            _ => self.say("copied"),
        }
    }

    /// Writes a burst that reads the status, now and then with something under it.
    /// Some read the control registers beside it.
    fn status(&mut self) {
        let address = self.random.pick(&["F3", "F3", "F2"]);
        self.say(format!("open {address}"));
        for _ in 0..self.random.between(1, 3) {
            if self.random.percent(20) {
                self.under_burst();
            }
            self.say("byte");
        }
        self.close();
    }

    /// Writes a step while a conversion is running and its copying is over.
    /// It finishes soon; F4 is held before that in many cases.
    fn step_running(&mut self) {
        match self.random.below(100) {
            0..=54 => self.beginning(self.finish()),
            55..=72 => self.one(events::write_f4),
            73..=78 => self.one(events::write_settings),
            79 | 80 => self.one(events::write_reset),
            81 => self.say("power"),
            82 => self.say("copied"),
            _ => self.burst(),
        }
    }

    /// Writes a step in standby.
    /// The device wakes soon; F4 may end the standby or leave it running.
    fn step_in_standby(&mut self) {
        match self.random.below(100) {
            0..=49 => self.beginning(events::wake),
            50..=64 => self.beginning(events::write_f4),
            65..=70 => self.one(events::write_settings),
            71 | 72 => self.one(events::write_reset),
            73 => self.say("power"),
            74 => self.say("copied"),
            _ => self.burst(),
        }
    }

    /// Writes a step while a burst has been left open.
    /// It goes on, or conversions finish and begin under it, or it is closed.
    fn step_in_burst(&mut self) {
        match self.random.below(100) {
            0..=34 => self.say("byte"),
            35..=66 => self.under_burst(),
            67..=70 => self.one(events::any),
            71..=73 => self.say("power"),
            _ => self.any_close(),
        }
    }

    /// Writes what can happen in the device while a burst is open.
    /// Conversions finish, some too soon, and the device wakes; copying ends; the ledger may be asked.
    fn under_burst(&mut self) {
        if self.random.percent(10) {
            let line = self.random.pick(&["ledger", "ledger", "copied"]);
            self.say(line);
        }
        let machine = self.bench.machine();
        match (machine.phase(), machine.copying()) {
            (Phase::Forced | Phase::Normal, true) if self.random.percent(15) => {
                self.one(self.finish())
            }
            (_, true) => self.say("copied"),
            (Phase::Forced | Phase::Normal, _) => self.beginning(self.finish()),
            (Phase::Standby, _) => self.beginning(events::wake),
            (Phase::Sleep, _) => self.say("byte"),
        }
    }

    /// Picks how many bytes a burst from this address gives, so that it is whole or nearly so.
    /// A BMP280's ends at its last data byte, one before it, at FD, FE or FF, or past FF.
    fn whole_bytes(&mut self, address: u8) -> i64 {
        match self.bench.machine().part() {
            Part::Bme280 => 0xFF - i64::from(address) + i64::from(self.random.percent(20)) * 2,
            Part::Bmp280 => {
                let more = [-1, 0, 0, 0, 0, 0, 0, 0, 1, 1, 2, 2, 3, 5];
                0xFD - i64::from(address) + self.random.pick(&more)
            }
        }
    }

    /// Writes a burst: open, bytes with events under it, and mostly a close.
    /// Some bursts are left open, and many whole ones are done again.
    fn burst(&mut self) {
        let address = events::open_address(&mut self.random);
        self.say(format!("open {address:02X}"));
        if self.bench.machine().next_address().is_none() {
            return;
        }
        let whole = self.random.percent(70) && address >= 0xE0;
        let restless = self.random.percent(45);
        let bytes = match whole {
            true => self.whole_bytes(address),
            false => self.random.between(0, 9),
        };
        for _ in 0..bytes {
            self.say("byte");
            if restless && self.random.percent(40) {
                self.under_burst();
            }
        }
        if self.random.percent(12) {
            return;
        }
        if self.random.percent(15) {
            self.any_close();
        }
        self.close();
        if whole && self.random.percent(35) {
            self.say("open F7");
            for _ in 0..self.bench.machine().part().data() {
                self.say("byte");
            }
            self.close();
        }
    }
}
