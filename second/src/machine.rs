//! The register and mode machine: the device's fields, and the events that change them.

use crate::data::{self, DATA, FRESH_BYTES};
use crate::history::{Finished, Happening};
use crate::ledger::Ledger;
use crate::numbers::Number;
use crate::part::Part;
use crate::phase::Phase;
use crate::record::Record;

pub const MOST_CONVERSIONS: u64 = 4_294_967_295;
const RESET_VALUE: u8 = 0xB6;

/// What a close says: whole or partial, and which conversion was shown.
#[derive(Clone, Copy, Debug, Default, PartialEq, Eq)]
pub struct Closing {
    pub whole: bool,
    pub number: u64,
    pub codes: [u8; 3],
    pub before: bool,
}

/// The machine. What is shown, waits or runs is found in its record.
#[derive(Clone, Debug)]
pub struct Machine {
    part: Part,
    phase: Phase,
    copying: bool,
    f2: u8,
    f4: u8,
    f5: u8,
    latched: [u8; 3],
    held: Option<u8>,
    next_address: Option<u16>,
    record: Record,
}

impl Machine {
    /// Makes a part's fresh state, as after a number of conversions begun and all delivered.
    /// It is in sleep and copying, with nothing shown and no burst.
    pub fn fresh(part: Part, begun: u64) -> Self {
        Machine {
            part,
            phase: Phase::Sleep,
            copying: true,
            f2: 0,
            f4: 0,
            f5: 0,
            latched: [0; 3],
            held: None,
            next_address: None,
            record: Record::fresh(part, begun),
        }
    }

    /// Gives the kind of part.
    /// The generator of walks looks at it.
    pub fn part(&self) -> Part {
        self.part
    }

    /// Gives the phase that the device is in.
    /// The generator of walks looks at it.
    pub fn phase(&self) -> Phase {
        self.phase
    }

    /// Says whether calibration is still being copied.
    /// The generator of walks looks at it.
    pub fn copying(&self) -> bool {
        self.copying
    }

    /// Gives the address that an open burst reads next; 0x100 lies past the last one.
    /// The generator of walks looks at it.
    pub fn next_address(&self) -> Option<u16> {
        self.next_address
    }

    /// Gives 8 where one more conversion would begin and all have begun.
    /// Nothing has changed before this check.
    fn check_begun(&self, begins: bool) -> Result<(), Number> {
        if begins && self.record.begun() >= MOST_CONVERSIONS {
            return Err(Number::AllBegun);
        }
        Ok(())
    }

    /// Begins a conversion of either kind with the latched codes, which it keeps.
    /// Calibration is copied before each one, so that a beginning sets copying.
    fn begin(&mut self, phase: Phase) {
        self.record.begin(self.latched);
        self.phase = phase;
        self.copying = true;
    }

    /// F4 takes effect: it is set, and the codes are latched, humidity's from F2.
    /// Then its mode decides; in standby mode 3 leaves the standby running.
    fn take_effect(&mut self, value: u8) {
        self.f4 = value;
        self.latched = [value >> 5, (value >> 2) & 7, self.f2];
        match (value & 3, self.phase) {
            (0, _) => self.phase = Phase::Sleep,
            (3, Phase::Standby) => {}
            (3, _) => self.begin(Phase::Normal),
            _ => self.begin(Phase::Forced),
        }
    }

    /// Makes the state fresh but for the record, which goes on; the part stays what it is.
    /// What was running, waiting or shown is found in the record.
    fn reset(&mut self) {
        self.record.add(Happening::Reset);
        let fresh = Machine::fresh(self.part, 0);
        let before = std::mem::replace(self, fresh);
        self.record = before.record;
    }

    /// The power event, always done.
    /// It is like a reset, and an open burst ends with no answer.
    pub fn power(&mut self) {
        self.reset();
    }

    /// The copied event: ends copying, in every phase, and changes nothing else.
    /// Where nothing is being copied the event doesn't fit (6).
    pub fn copied(&mut self) -> Result<(), Number> {
        if !self.copying {
            return Err(Number::WrongPhase);
        }
        self.copying = false;
        Ok(())
    }

    /// The write event: checks 3, 4 (F2 too on a BMP280), 5 (copying and nothing running; not for E0), 8.
    /// E0 resets, F2 and F5 are kept, F4 is held or takes effect.
    pub fn write(&mut self, register: u8, value: u8) -> Result<(), Number> {
        if self.next_address.is_some() {
            return Err(Number::BurstOpen);
        }
        if !self.part.writable(register) {
            return Err(Number::AddressNotAllowed);
        }
        if self.copying && !self.phase.running() && register != 0xE0 {
            return Err(Number::Copying);
        }
        match register {
            0xE0 if value == RESET_VALUE => self.reset(),
            0xF2 => self.f2 = value & 7,
            0xF5 if self.phase == Phase::Sleep => self.f5 = value & !2,
            0xF4 if !self.phase.running() => {
                self.check_begun(self.phase.begins(value))?;
                self.take_effect(value);
            }
            0xF4 if self.held.is_none() => self.held = Some(value),
            _ => return Err(Number::Ignored),
        }
        Ok(())
    }

    /// The finish event with its three counts: checks 6 (not running, or copying), 7, 8.
    /// The phase changes first, then a held F4 takes effect.
    pub fn finish(&mut self, counts: [u64; 3]) -> Result<(), Number> {
        let conversion = self.record.running().ok_or(Number::WrongPhase)?;
        if self.copying {
            return Err(Number::WrongPhase);
        }
        if !data::within_bits(counts) {
            return Err(Number::OutOfRange);
        }
        let after = match self.phase {
            Phase::Normal => Phase::Standby,
            _ => Phase::Sleep,
        };
        self.check_begun(self.held.map_or(false, |value| after.begins(value)))?;
        self.record.add(Happening::Finished(Finished {
            conversion,
            bytes: data::bytes(data::stored(counts, conversion.codes)),
        }));
        self.phase = after;
        if after == Phase::Sleep {
            self.f4 &= !3;
        }
        if let Some(value) = self.held.take() {
            self.take_effect(value);
        }
        Ok(())
    }

    /// The wake event: from standby begins a conversion.
    /// Checks 6, then 8.
    pub fn wake(&mut self) -> Result<(), Number> {
        if self.phase != Phase::Standby {
            return Err(Number::WrongPhase);
        }
        self.check_begun(true)?;
        self.begin(Phase::Normal);
        Ok(())
    }

    /// The open event: opens a burst at an address of 0x80 to 0xFF.
    /// Checks 3, then 4.
    pub fn open(&mut self, address: u8) -> Result<(), Number> {
        if self.next_address.is_some() {
            return Err(Number::BurstOpen);
        }
        if address < 0x80 {
            return Err(Number::AddressNotAllowed);
        }
        self.record.add(Happening::Opened);
        self.next_address = Some(u16::from(address));
        Ok(())
    }

    /// Gives what a register reads as at this moment.
    /// Every address but the chip's id, status, data and control registers reads as 0.
    fn register(&self, address: u8) -> u8 {
        match address {
            0xD0 => self.part.chip_id(),
            0xF2 => self.f2,
            0xF3 => (u8::from(self.phase.running()) << 3) | u8::from(self.copying),
            0xF4 => self.f4,
            0xF5 => self.f5,
            0xF7..=0xFE => self.shown_bytes()[usize::from(address - 0xF7)],
            _ => 0,
        }
    }

    /// Gives what 0xF7 to 0xFE read as: the bytes of the shown conversion, or with nothing shown the fresh bytes.
    /// Beyond the part's own data bytes they are 0.
    fn shown_bytes(&self) -> [u8; DATA] {
        let mut bytes = self.record.shown().map_or(FRESH_BYTES, |shown| shown.bytes);
        bytes[self.part.data()..].fill(0);
        bytes
    }

    /// The byte event: gives one register of the open burst and moves on.
    /// Checks 6 (none open), then 4 (past 0xFF).
    pub fn byte(&mut self) -> Result<u8, Number> {
        let next = self.next_address.ok_or(Number::WrongPhase)?;
        let address = u8::try_from(next).map_err(|_| Number::AddressNotAllowed)?;
        let byte = self.register(address);
        self.record.add(Happening::Given(address));
        self.next_address = Some(next + 1);
        Ok(byte)
    }

    /// The close event with a lent buffer: checks 6, then 2 (not of as many bytes as the part's data).
    /// A whole burst writes the data bytes and names the conversion shown; both ways end it.
    pub fn close(&mut self, buffer: &mut [u8]) -> Result<Closing, Number> {
        if self.next_address.is_none() {
            return Err(Number::WrongPhase);
        }
        if buffer.len() != self.part.data() {
            return Err(Number::WrongLength);
        }
        let mut closing = Closing::default();
        if self.record.whole() {
            closing.whole = true;
            buffer.copy_from_slice(&self.shown_bytes()[..self.part.data()]);
            if let Some(shown) = self.record.shown() {
                closing.number = shown.conversion.number;
                closing.codes = shown.conversion.codes;
                closing.before = self.record.delivered(closing.number);
            }
        }
        self.record.add(Happening::Closed);
        self.next_address = None;
        Ok(closing)
    }

    /// Works out the ledger.
    /// It comes from the record alone.
    pub fn ledger(&self) -> Ledger {
        self.record.ledger()
    }
}
