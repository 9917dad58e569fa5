//! A tour that reaches every number from 0 to 22 and every reason, by its making.

use super::{chips, events, trees, Generator};
use crate::calibration::blocks;
use crate::day::cases::{day, flat, spell};
use crate::maps;
use crate::sheet::{k2_words, k5_words, zero_divisor_words};
use crate::spelling::{asked, input, reading, rooms};
use crate::visits::trees::Tree;
use crate::visits::writer::fields;
use crate::visits::{cases, Step};

impl Generator {
    /// Writes the tour, with seeded words and values where they don't matter.
    /// It ends in the fresh state.
    pub(super) fn tour(&mut self) {
        self.tour_of_readings();
        self.tour_of_rooms();
        self.tour_of_visits();
        self.tour_of_days();
        self.tour_of_buses();
        self.tour_of_events();
        self.tour_of_copying();
        self.tour_of_limit();
        self.tour_of_reasons();
        if !self.bme_alone() {
            self.tour_of_bmp();
        }
        self.say("fresh");
    }

    /// Reaches 2, 7 and 10 to 14, and 17 by polling.
    /// K1 to K4 are close to all of them.
    fn tour_of_readings(&mut self) {
        let counts = [519_888, 415_148, self.random.below(1 << 16)];
        let real = chips::real(&mut self.random);
        let mut hot = k5_words();
        hot.t = [0, 1, self.random.between(-5, 5)];
        let mut no_divisor = k2_words();
        no_divisor.p[0] = 0;
        let mut small_divisor = k2_words();
        small_divisor.p[0] = self.random.between(50, 200);
        small_divisor.p[8] = 0;
        let mut low = k2_words();
        low.p[6] = self.random.between(-32_768, -32_000);
        let lines = [
            reading(&real, counts, [1, 1, 1]),
            reading(&real, counts, [0, 1, 0]),
            reading(&real, counts, [1, 1, 8]),
            reading(&hot, [741_456, 0, 0], [1, 1, 1]),
            reading(&no_divisor, counts, [1, 1, 0]),
            reading(&zero_divisor_words(), [0, counts[1], 0], [1, 1, 0]),
            reading(&small_divisor, counts, [1, 1, 0]),
            reading(&low, [519_888, 1_048_575, 0], [1, 1, 0]),
            String::from("comp 00 - 8000 1 1 1"),
            format!("poll {} 0809", self.random.below(5)),
        ];
        for line in lines {
            self.say(line);
        }
    }

    /// Asks for the point and the cells of a reading of every outcome, and compares each with a real room.
    /// The tolerances are 0 or the highest, so that both words come beside unknown.
    fn tour_of_rooms(&mut self) {
        let counts = [519_888, 415_148, self.random.below(1 << 16)];
        let words = chips::real(&mut self.random);
        let real = input(&words, counts, [1, 1, 1]);
        let mut inputs = vec![real.clone(), input(&words, counts, [0, 1, 0])];
        let broken = chips::broken(&mut self.random);
        inputs.extend(broken.map(|(words, counts)| input(&words, counts, [1, 1, 1])));
        inputs.extend(maps::refused());
        for input in inputs {
            let tolerances = [0; 3].map(|_: u64| self.random.pick(&[0, 4_294_967_295]));
            self.say(asked("point", &input));
            self.say(asked("cells", &input));
            self.say(rooms(&input, &real, tolerances));
            self.say(rooms(&input, &input, tolerances));
        }
    }

    /// Reaches 18 to 22 and 9 by reading a record, and 19, 21, 22 and 9 by writing one.
    /// The slot is seeded, its humidity is not.
    fn tour_of_visits(&mut self) {
        let mut slot = trees::slot(&mut self.random);
        slot.humidity = Ok(102_401);
        let beyond = Tree::Slot(slot);
        slot.humidity = Ok(102_400);
        let tree = Tree::Groups(vec![Tree::Slot(slot)]);
        let record = tree.record();
        let lost = fields(&slot);
        let lines = [
            cases::read(&record, 5),
            cases::read(&record, 4),
            cases::read(&record[..record.len() - 1], 5),
            cases::read(&[&record[..], &[0]].concat(), 5),
            cases::read(&cases::nested(2, &[2, 0, 3, 0, 0, 0]), 5),
            cases::read(&cases::nested(3, &record), 11),
            cases::read(&beyond.record(), 3),
            cases::read(&cases::nested(1, &lost[7..]), 3),
            cases::write(record.len(), &tree.steps()),
            cases::write(record.len() - 1, &tree.steps()),
            cases::write(40, &tree.steps()[..4]),
            cases::write(40, &[Step::Open, Step::Close]),
            cases::write(40, &[Step::Open; 5]),
            cases::write(40, &beyond.steps()),
        ];
        for line in lines {
            self.say(line);
        }
    }

    /// Reaches 7 and 10 to 14 at one place of a day, and 2 in each way that it comes.
    /// A real chip has values at the places around it.
    fn tour_of_days(&mut self) {
        let counts = [519_888, 415_148, self.random.below(1 << 16)];
        let real = chips::real(&mut self.random);
        let away = [counts[0] + 64, counts[1] - 64, counts[2] / 2];
        for codes in [[1, 1, 1], [0, 1, 1], [1, 0, 1], [1, 1, 0], [1, 8, 1]] {
            let places = [(counts, [1, 1, 1]), (away, codes), (counts, [1, 1, 1])];
            self.say(day(&real, &places));
        }
        for (words, lacking) in chips::broken(&mut self.random) {
            self.say(day(&words, &[(lacking, [1, 1, 1]), (away, [1, 1, 1])]));
        }
        let (one, two) = blocks(&real);
        let bytes = flat(&[(counts, [1, 1, 1]), (away, [1, 1, 1])]);
        let lines = [
            spell(&one, &two, &[], 0),
            spell(&one, &two, &bytes, 1),
            spell(&one, &two, &bytes, 3),
            spell(&one, &two, &bytes[1..], 2),
            spell(&one[1..], &two, &bytes, 2),
            spell(&one, &[], &[], 0),
        ];
        for line in lines {
            self.say(line);
        }
    }

    /// Reaches 4, 9, 15 and 16 on both buses.
    /// Each comes with a lent buffer that stays as it was.
    fn tour_of_buses(&mut self) {
        let value = self.random.byte();
        let lines = [
            format!("i2c write 75 F4{value:02X} 3"),
            String::from("i2c write 77 - 3"),
            format!("i2c write 76 F7{value:02X} 3"),
            format!("i2c write 76 F4{value:02X} 2"),
            format!("i2c decode ECF4{value:02X}F2 8"),
            format!("spi write F4{value:02X} 2"),
            format!("spi decode F4{value:02X} 2"),
            format!("spi decode 74{value:02X} 1"),
        ];
        for line in lines {
            self.say(line);
        }
    }

    /// Reaches 1 to 7 by events, and a delivery, an overwriting and an abandonment.
    /// The counts are seeded.
    fn tour_of_events(&mut self) {
        self.script("fresh;write F2 01;copied;copied;wake;write F3 00;write E0 00");
        self.script("write F4 27;copied;write F4 27;write F4 00;open F7;open F7;write F2 00");
        let finish = events::finish(&mut self.random);
        self.say(finish);
        self.script("byte;close 7;close 8;close 8;wake;copied;finish 1048576 0 0;finish 0 0 65536");
        self.script("finish 0 0 0;open F7;byte;byte;byte;byte;byte;byte;byte;byte;close 8");
        self.script("ledger;write F4 25;power;ledger");
    }

    /// Reaches 5 in sleep, and what a conversion answers while calibration is copied for it.
    /// A written F4, a held one and a wake begin in turn; the values and counts are seeded.
    fn tour_of_copying(&mut self) {
        let [f2, f5] = [0; 2].map(|_: u8| self.random.byte());
        let writes = format!("write F2 {f2:02X};write F5 {f5:02X};write F4 27;write F4 25");
        let finish = events::finish(&mut self.random);
        for beginning in ["fresh", "copied;write F4 25", "copied;finish 1 2 3"] {
            self.script(beginning);
            self.script(&finish);
            self.script(&writes);
            self.script("write E0 00;open F3;byte;close 8;wake;finish 0 0 65536");
        }
        self.script(
            "copied;finish 1 2 3;copied;finish 1 2 3;wake;finish 4 5 6;open F3;copied;byte",
        );
        self.script("finish 4 5 6;close 8;ledger;wake;write E0 B6;ledger;copied;copied");
    }

    /// Reaches 8 by write, by wake, and by finish with a held F4.
    /// Each starts close to the last conversion.
    fn tour_of_limit(&mut self) {
        self.script("fresh 4294967295;copied;write F4 25;ledger");
        self.script("fresh 4294967294;copied;write F4 27;copied;finish 1 2 3;wake;ledger");
        self.script("fresh 4294967294;copied;write F4 25;write F4 25;copied;finish 1 2 3;ledger");
    }

    /// Reaches each of the five reasons, and those that lines of the map room, of visits and of days can have.
    /// None of these lines changes anything.
    fn tour_of_reasons(&mut self) {
        self.script("nothing;byte 1;open G7;poll 1 080;close 257");
        self.script("points - - - 1 1 1;point - - - 1 1;cells - - - 1 1 1 1;rooms");
        self.script("point - - 0x 1 1 1;cells - 0 - 1 1 x;rooms - - - 1 1 1");
        self.script("rooms - - - 1 1 1 - - - 1 1 1 0 0");
        self.script("rooms - - - 1 1 1 - - - 1 1 1 0 4294967296 0");
        self.script("rooms - - - 1 1 1 - 0 - 1 1 1 0 x 0");
        self.script("visit;visit pack;visit write;visit read -;visit read 010 9;visit read - 257");
        self.script("day;days;day - - -;day - 0 - x;day - - G 0;day - - - 257;day - - - 0 0");
        self.script("visit write x;visit write 257 x;visit write 9 ( 7:1:2 );visit write 9 ( ");
    }

    /// Writes several lines that stand in one text.
    /// Semicolons part them.
    pub(super) fn script(&mut self, lines: &str) {
        for line in lines.split(';') {
            self.say(line);
        }
    }
}
