//! Answers made from a seed, so that calls get far and now and then do not: locks that are refused for a while or for ever, a
//! firmware that is slow, busy or broken, accesses that fail, reads of FFFFFFFF. They are recorded.

use sulfryk::Registers;

use crate::bus::Bus;
use crate::case::Case;
use crate::choice::Choice;
use crate::locks::{Locks, Turns};
use crate::trace::{Access, Step};

/// Past so many accesses every read and write fails, so that the call ends.
const LONGEST: usize = 300_000;

const ESDP: u32 = 0x00020;
const I2CCTL: [u32; 2] = [0x00028, 0x15f5c];
const SWSM: [u32; 2] = [0x10140, 0x15f70];
const SW_FW_SYNC: [u32; 2] = [0x10160, 0x15f78];
const HICR: u32 = 0x15f00;
const FLEX_MNG: u32 = 0x15800;
const FLEX_END: u32 = FLEX_MNG + 4 * 64;

/// The grant of the 82599's QSFP bus.
const GRANT: u32 = 1 << 1;
const HICR_EN: u32 = 1 << 0;
const HICR_C: u32 = 1 << 1;
const HICR_SV: u32 = 1 << 2;

/// Accesses that fail, or reads of all ones: from the first on with a gap between them.
struct Faults {
    next: u32,
    /// Of a gap, in binary digits; none after the first where it is 0.
    digits: u32,
}

impl Faults {
    /// `length` is about that of the call, in binary digits.
    fn draw(choice: &mut Choice, chance: u32, length: u32) -> Self {
        if !choice.percent(chance) {
            return Faults { next: u32::MAX, digits: 0 };
        }
        let next = if choice.flip() { choice.spread(length) } else { choice.below(1 << length) };
        Faults { next, digits: choice.one(&[0, 0, 0, 1, 3, 4, 6, 10]) }
    }

    fn due(&mut self, number: u32, choice: &mut Choice) -> bool {
        if number < self.next {
            return false;
        }
        self.next = if self.digits == 0 { u32::MAX } else { number + 1 + choice.spread(self.digits) };
        true
    }
}

/// The firmware's answers to commands.
struct Firmware {
    /// Polls that still find it at work.
    polls: u32,
    /// Words of the last block written.
    words: u32,
    /// How long it works, in binary digits.
    slow: u32,
    /// In so many of 100 commands it is busy.
    busy: u32,
    /// It never ends a command.
    hangs: bool,
    /// In so many of 100 reads HICR has a bit that is wrong.
    broken: u32,
    /// In so many of 100 responses the length is one that may not fit.
    long: u32,
}

impl Firmware {
    fn draw(choice: &mut Choice) -> Self {
        Firmware {
            polls: 0,
            words: 2,
            slow: choice.one(&[0, 0, 0, 2, 5]),
            busy: choice.one(&[0, 0, 0, 20, 20, 60, 60, 90, 90, 100]),
            hangs: choice.below(300) == 0,
            broken: choice.one(&[0, 0, 0, 10, 50]),
            long: choice.one(&[0, 0, 20, 50]),
        }
    }

    fn started(&mut self, choice: &mut Choice) {
        self.polls = match self.slow {
            _ if self.hangs => u32::MAX,
            0 => 0,
            digits => choice.spread(digits),
        };
    }

    fn hicr(&mut self, choice: &mut Choice) -> u32 {
        let other = choice.word() & !(HICR_EN | HICR_C | HICR_SV);
        if self.polls > 0 {
            self.polls -= u32::from(!self.hangs);
            return other | HICR_EN | HICR_C;
        }
        let wrong = if choice.percent(self.broken) { choice.one(&[HICR_EN, HICR_SV]) } else { 0 };
        (other | HICR_EN | HICR_SV) & !wrong
    }

    /// The head of a response: mostly one that fits, and granting.
    fn head(&mut self, choice: &mut Choice) -> u32 {
        let room = (4 * (self.words - 1)).min(255);
        let len = if !choice.percent(self.long) {
            choice.below(room + 1)
        } else if choice.percent(75) {
            (room + choice.below(4)).saturating_sub(1).min(255)
        } else {
            choice.below(256)
        };
        let status = if choice.percent(self.busy) {
            0x80
        } else if choice.percent(90) {
            0x01
        } else {
            choice.below(256)
        };
        choice.word() & 0xff00_00ff | len << 8 | status << 16
    }
}

pub struct Answers {
    choice: Choice,
    pub trace: Vec<Step>,
    fails: Faults,
    ones: Faults,
    pub bus: Bus,
    locks: Locks,
    esdp: Turns,
    firmware: Firmware,
}

impl Answers {
    /// `trace` is emptied and written anew.
    pub fn new(choice: &mut Choice, case: &Case, mut trace: Vec<Step>) -> Self {
        trace.clear();
        let length = case.call.digits();
        Answers {
            trace,
            fails: Faults::draw(choice, 35, length),
            ones: Faults::draw(choice, 12, length),
            bus: Bus::draw(choice, case),
            locks: Locks::draw(choice, case),
            esdp: Turns::draw(choice),
            firmware: Firmware::draw(choice),
            choice: Choice::new(choice.long()),
        }
    }

    fn value(&mut self, register: u32) -> u32 {
        let choice = &mut self.choice;
        match register {
            r if I2CCTL.contains(&r) => self.bus.read(choice),
            r if SWSM.contains(&r) => self.locks.swsm(choice),
            r if SW_FW_SYNC.contains(&r) => self.locks.sync(choice),
            ESDP => match self.bus.switch() {
                Some(wired) => wired.esdp,
                None if self.esdp.refuses(choice).is_some() => choice.word() & !GRANT,
                None => choice.word() | GRANT,
            },
            HICR => self.firmware.hicr(choice),
            FLEX_MNG => self.firmware.head(choice),
            _ => choice.word(),
        }
    }

    fn written(&mut self, register: u32, value: u32) {
        match register {
            r if I2CCTL.contains(&r) => self.bus.write(value),
            r if SWSM.contains(&r) => self.locks.swsm_written(value),
            r if SW_FW_SYNC.contains(&r) => self.locks.sync_written(value),
            ESDP => {
                if let Some(wired) = self.bus.switch() {
                    wired.switch(value);
                }
            }
            HICR if value & HICR_C != 0 => self.firmware.started(&mut self.choice),
            FLEX_MNG..FLEX_END => self.firmware.words = (register - FLEX_MNG) / 4 + 1,
            _ => {}
        }
    }

    /// Its error, which is its number, where the access is to fail.
    fn failure(&mut self) -> Result<(), u32> {
        let number = self.trace.len();
        let fails = self.fails.due(number as u32, &mut self.choice);
        if fails || number >= LONGEST { Err(number as u32) } else { Ok(()) }
    }
}

impl Registers for Answers {
    type Error = u32;

    fn read(&mut self, register: u32) -> Result<u32, u32> {
        let failure = self.failure();
        let value = self.value(register);
        let ones = self.ones.due(self.trace.len() as u32, &mut self.choice);
        let value = if ones { u32::MAX } else { value };
        self.trace.push(Step { access: Access::Read(register), value, failed: failure.is_err() });
        failure.map(|()| value)
    }

    fn write(&mut self, register: u32, value: u32) -> Result<(), u32> {
        let failure = self.failure();
        self.written(register, value);
        self.trace.push(Step { access: Access::Write(register, value), value: 0, failed: failure.is_err() });
        failure
    }

    fn delay_us(&mut self, micros: usize) {
        let micros = u32::try_from(micros).expect("waits are below 2^32 us");
        self.trace.push(Step { access: Access::Wait(micros), value: 0, failed: false });
    }
}
