//! The bench: one machine, fresh at the start, and an answer for each line.

use crate::answers::{self, write, Answer};
use crate::bus;
use crate::calibration;
use crate::command::{read, Command};
use crate::compensation::{compensate, Input};
use crate::day::{self, Outcome};
use crate::machine::Machine;
use crate::numbers::Number;
use crate::part::Part;
use crate::rooms::{self, Channels};
use crate::visits;
use crate::waiting::{poll, wait, MAXIMUM, TYPICAL};

pub const FILLING: u8 = 0xAA;

/// The bench that answers lines. It keeps one machine.
pub struct Bench {
    machine: Machine,
}

/// Lends a buffer of the length asked to a call and writes the call's answer.
/// The whole buffer is shown after it, so that what was not written is seen.
fn lend<'a, T>(
    answer: Answer<'a>,
    length: usize,
    call: impl FnOnce(&mut [u8]) -> Result<T, Number>,
    rest: fn(Answer<'a>, T) -> Answer<'a>,
) -> Answer<'a> {
    let mut buffer = vec![FILLING; length];
    let result = call(&mut buffer);
    write(answer, result, rest).text(" buf=").bytes(&buffer)
}

/// Gives the three channels of a BME280's reading, for the map room.
/// A reading refused whole has three too.
fn channels(input: &Input) -> Channels {
    rooms::channels(compensate(Part::Bme280, input))
}

/// Lends a list of so many answers to a day, and gives the list as it is filled.
/// It is filled with 1 before, which no reading answers.
fn day(one: &[u8], two: &[u8], readings: &[u8], length: usize) -> Result<Vec<Outcome>, Number> {
    let mut outcomes = vec![Err(Number::Ignored); length];
    day::fill(one, two, readings, &mut outcomes)?;
    Ok(outcomes)
}

impl Default for Bench {
    /// Makes the bench with a fresh machine, which is a BME280.
    /// Nothing has been read yet.
    fn default() -> Self {
        Bench {
            machine: Machine::fresh(Part::Bme280, 0),
        }
    }
}

impl Bench {
    /// Gives the machine that the lines so far have led to.
    /// The generator of walks looks at it.
    pub fn machine(&self) -> &Machine {
        &self.machine
    }

    /// Answers one line, without its newline, at the end of the output.
    /// An empty line is passed over.
    pub fn answer(&mut self, line: &[u8], out: &mut Vec<u8>) {
        if line.is_empty() {
            return;
        }
        let answer = Answer(out);
        let answer = match read(line) {
            Ok(command) => self.obey(command, answer),
            Err(reason) => answer.text("? ").text(reason.words()),
        };
        answer.text("\n");
    }

    /// Carries out one command and writes its answer.
    /// Where a buffer is lent, it is made here and shown afterwards.
    fn obey<'a>(&mut self, command: Command, answer: Answer<'a>) -> Answer<'a> {
        match command {
            Command::Calibration { one, two } => {
                let words = calibration::read(Part::Bme280, &one, &two);
                write(answer, words, answers::calibration)
            }
            Command::Compensation { part, input } => {
                write(answer, compensate(part, &input), answers::reading)
            }
            Command::Point(input) => answers::point(answer, rooms::point(&channels(&input))),
            Command::Cells(input) => answers::cells(answer, rooms::cells(&channels(&input))),
            Command::Rooms {
                one,
                other,
                tolerances,
            } => {
                let verdicts = rooms::compare(&channels(&one), &channels(&other), tolerances);
                answers::verdicts(answer, verdicts)
            }
            Command::Day {
                one,
                two,
                readings,
                length,
            } => write(answer, day(&one, &two, &readings, length), answers::day),
            Command::WaitMaximum(codes) => {
                write(answer, wait(MAXIMUM, codes), answers::microseconds)
            }
            Command::WaitTypical(codes) => {
                write(answer, wait(TYPICAL, codes), answers::microseconds)
            }
            Command::Poll { allowance, status } => {
                answers::polling(answer, poll(allowance, &status))
            }
            Command::I2cWrite {
                address,
                pairs,
                length,
            } => {
                let call = |buffer: &mut [u8]| bus::i2c_write(address, &pairs, buffer);
                lend(answer, length, call, answers::length)
            }
            Command::I2cDecode { bytes, length } => {
                let call = |buffer: &mut [u8]| bus::i2c_decode(&bytes, buffer);
                lend(answer, length, call, answers::decoded)
            }
            Command::I2cRead {
                address,
                register,
                length,
            } => {
                let call = |buffer: &mut [u8]| bus::i2c_read(address, register, buffer);
                lend(answer, length, call, answers::length)
            }
            Command::SpiWrite { pairs, length } => {
                let call = |buffer: &mut [u8]| bus::spi_write(&pairs, buffer);
                lend(answer, length, call, answers::length)
            }
            Command::SpiDecode { bytes, length } => {
                let call = |buffer: &mut [u8]| bus::spi_decode(&bytes, buffer);
                lend(answer, length, call, answers::length)
            }
            Command::SpiRead { register, length } => {
                let call = |buffer: &mut [u8]| bus::spi_read(register, buffer);
                lend(answer, length, call, answers::length)
            }
            Command::VisitRead { record, length } => visits::answers::read(answer, &record, length),
            Command::VisitWrite { length, steps } => visits::answers::write(answer, &steps, length),
            Command::Byte => write(answer, self.machine.byte(), answers::register),
            Command::Close(length) => {
                let call = |buffer: &mut [u8]| self.machine.close(buffer);
                lend(answer, length, call, answers::closing)
            }
            Command::Ledger => answers::ledger(answer, self.machine.ledger()),
            Command::Fresh { part, begun } => {
                self.machine = Machine::fresh(part, begun);
                write(answer, Ok(()), answers::nothing)
            }
            Command::Power => {
                self.machine.power();
                write(answer, Ok(()), answers::nothing)
            }
            Command::Copied => write(answer, self.machine.copied(), answers::nothing),
            Command::Wake => write(answer, self.machine.wake(), answers::nothing),
            Command::Write { register, value } => {
                let result = self.machine.write(register, value);
                write(answer, result, answers::nothing)
            }
            Command::Finish(counts) => write(answer, self.machine.finish(counts), answers::nothing),
            Command::Open(address) => write(answer, self.machine.open(address), answers::nothing),
        }
    }
}
