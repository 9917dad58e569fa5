//! How answers are written, each in the words of the bench's lines.

use crate::bus::Decoded;
use crate::calibration::Words;
use crate::compensation::Reading;
use crate::day::Outcome;
use crate::ledger::Ledger;
use crate::machine::Closing;
use crate::numbers::Number;
use crate::rooms::{Cell, Double, Point, Verdict};
use crate::waiting::Polling;

const DIGITS: &[u8; 16] = b"0123456789ABCDEF";
const LETTERS: [&str; 3] = ["t", " p", " h"];

/// An answer being written at the end of the output.
pub struct Answer<'a>(pub &'a mut Vec<u8>);

impl Answer<'_> {
    /// Writes a text as it is.
    /// Spaces are part of the texts.
    pub fn text(self, text: &str) -> Self {
        self.0.extend_from_slice(text.as_bytes());
        self
    }

    /// Writes a whole number in decimal.
    /// A negative one has a minus before it.
    pub fn decimal<T: ToString>(self, value: T) -> Self {
        self.text(&value.to_string())
    }

    /// Writes one of the numbers handed back.
    /// It stands at the start of a line or in its channel's place.
    pub fn number(self, number: Number) -> Self {
        self.decimal(number as u8)
    }

    /// Writes bytes as hex pairs run together, in upper case.
    /// None at all are a dash.
    pub fn bytes(self, bytes: &[u8]) -> Self {
        if bytes.is_empty() {
            return self.text("-");
        }
        for byte in bytes {
            self.0.push(DIGITS[usize::from(byte >> 4)]);
            self.0.push(DIGITS[usize::from(byte & 0x0F)]);
        }
        self
    }

    /// Writes a double as the 16 hex digits of its bits.
    /// The sign's digit comes first.
    fn double(self, double: Double) -> Self {
        self.bytes(&double.0.to_be_bytes())
    }

    /// Writes one map cell at its place.
    /// A value is named by its kind, and a missing one by its place.
    fn cell(self, place: usize, cell: Cell) -> Self {
        match cell {
            Cell::Temperature(double) => self.text("t=").double(double),
            Cell::Pressure(double) => self.text(" p=").double(double),
            Cell::Humidity(double) => self.text(" h=").double(double),
            Cell::Missing(number) => self.text(LETTERS[place]).text("!").number(number),
        }
    }

    /// Writes one kind of calibration words with their names.
    /// The digits go from 1.
    fn words(self, letter: &str, words: &[i64]) -> Self {
        let mut answer = self;
        for (digit, word) in (1..=words.len()).zip(words) {
            answer = answer.text(" ").text(letter).decimal(digit);
            answer = answer.text("=").decimal(word);
        }
        answer
    }

    /// Writes one channel of a reading: its value, or the number in its place.
    /// The channel is named by its letter.
    fn channel(self, letter: &str, channel: Result<i64, Number>) -> Self {
        let answer = self.text(" ").text(letter);
        match channel {
            Ok(value) => answer.text("=").decimal(value),
            Err(number) => answer.text("!").number(number),
        }
    }
}

/// Writes 0 and, by the caller's own words, what comes with it.
/// A refusal is its number alone.
pub fn write<'a, T>(
    answer: Answer<'a>,
    result: Result<T, Number>,
    rest: fn(Answer<'a>, T) -> Answer<'a>,
) -> Answer<'a> {
    match result {
        Ok(value) => rest(answer.text("0"), value),
        Err(number) => answer.number(number),
    }
}

/// Writes nothing after the 0.
/// Most events come with no value.
pub fn nothing(answer: Answer<'_>, _: ()) -> Answer<'_> {
    answer
}

/// Writes the words of both calibration blocks.
/// They come as T, P and H.
pub fn calibration(answer: Answer<'_>, words: Words) -> Answer<'_> {
    let answer = answer.words("T", &words.t);
    answer.words("P", &words.p).words("H", &words.h)
}

/// Writes a compensated reading.
/// The fine temperature goes with the temperature.
pub fn reading(answer: Answer<'_>, reading: Reading) -> Answer<'_> {
    let mut answer = answer.channel("t", reading.temperature.map(|known| known.value));
    if let Ok(known) = reading.temperature {
        answer = answer.text(" fine=").decimal(known.fine);
    }
    let answer = answer.channel("p", reading.pressure);
    answer.channel("h", reading.humidity)
}

/// Writes the answers of a day, with semicolons between them.
/// A reading refused whole is its number alone.
pub fn day(answer: Answer<'_>, outcomes: Vec<Outcome>) -> Answer<'_> {
    let mut answer = answer;
    for (place, outcome) in outcomes.into_iter().enumerate() {
        if place > 0 {
            answer = answer.text(" ;");
        }
        answer = match outcome {
            Ok(known) => reading(answer, known),
            Err(number) => answer.text(" ").number(number),
        };
    }
    answer
}

/// Writes a map point.
/// The flags come after the doubles: 1 for a known channel, 0 for a missing one.
pub fn point(answer: Answer<'_>, point: Point) -> Answer<'_> {
    let mut answer = answer;
    for (letter, double) in LETTERS.into_iter().zip(point.doubles) {
        answer = answer.text(letter).text("=").double(double);
    }
    let [t, p, h] = point.known.map(u8::from);
    let answer = answer.text(" known=").decimal(t).text(",").decimal(p);
    answer.text(",").decimal(h)
}

/// Writes three map cells.
/// They come as temperature, pressure, humidity.
pub fn cells(answer: Answer<'_>, cells: [Cell; 3]) -> Answer<'_> {
    let places = cells.into_iter().enumerate();
    places.fold(answer, |answer, (place, cell)| answer.cell(place, cell))
}

/// Writes what the comparison of two rooms says.
/// Each channel has its own word.
pub fn verdicts(answer: Answer<'_>, verdicts: [Verdict; 3]) -> Answer<'_> {
    let mut answer = answer;
    for (letter, verdict) in LETTERS.into_iter().zip(verdicts) {
        let word = match verdict {
            Verdict::Agree => "=agree",
            Verdict::Differ => "=differ",
            Verdict::Unknown => "=unknown",
        };
        answer = answer.text(letter).text(word);
    }
    answer
}

/// Writes the microseconds of a waiting time.
/// They stand without a name.
pub fn microseconds(answer: Answer<'_>, time: u64) -> Answer<'_> {
    answer.text(" ").decimal(time)
}

/// Writes the place and the polls made, or 17 with the polls made.
/// It is the one refusal that comes with a value.
pub fn polling(answer: Answer<'_>, polling: Polling) -> Answer<'_> {
    let answer = match polling.place {
        Some(place) => answer.text("0 place=").decimal(place),
        None => answer.number(Number::NeverReady),
    };
    answer.text(" polls=").decimal(polling.polls)
}

/// Writes how many bytes were put into a lent buffer.
/// Every output on the buses comes with it.
pub fn length(answer: Answer<'_>, bytes: usize) -> Answer<'_> {
    answer.text(" n=").decimal(bytes)
}

/// Writes what decoding on I2C gives.
/// The device address comes before the number of bytes.
pub fn decoded(answer: Answer<'_>, decoded: Decoded) -> Answer<'_> {
    let answer = answer.text(" addr=").bytes(&[decoded.address]);
    length(answer, decoded.bytes)
}

/// Writes the register that a byte event gives.
/// It is two hex digits without a name.
pub fn register(answer: Answer<'_>, byte: u8) -> Answer<'_> {
    answer.text(" ").bytes(&[byte])
}

/// Writes what a close says.
/// A partial one has number and codes 0.
pub fn closing(answer: Answer<'_>, closing: Closing) -> Answer<'_> {
    let [t, p, h] = closing.codes;
    let kind = if closing.whole { " whole" } else { " partial" };
    let answer = answer.text(kind).text(" n=").decimal(closing.number);
    let answer = answer.text(" codes=").decimal(t).text(",").decimal(p);
    let answer = answer.text(",").decimal(h).text(" before=");
    answer.decimal(u8::from(closing.before))
}

/// Writes the ledger.
/// The last three name what stands.
pub fn ledger(answer: Answer<'_>, ledger: Ledger) -> Answer<'_> {
    let counts = [
        ("begun=", ledger.begun),
        (" delivered=", ledger.delivered),
        (" overwritten=", ledger.overwritten),
        (" abandoned=", ledger.abandoned),
        (" standing=", ledger.standing()),
        (" running=", ledger.running),
        (" waiting=", ledger.waiting),
        (" shown=", ledger.shown),
    ];
    let mut answer = answer;
    for (name, count) in counts {
        answer = answer.text(name).decimal(count);
    }
    answer
}
