//! The bench module at the lines, every lock and grant at once; what is answered is recorded, and replayed.

use crate::module::Wired;
use sulfryk::Registers;

const SWSM: u32 = 0x10140;
/// SMBI clear, SWESMBI set: the semaphore is granted.
const GRANTED: u32 = 1 << 1;

#[derive(Clone, Copy)]
pub enum Step {
    Read(u32, u32),
    Write(u32, u32),
    Wait(usize),
}

/// I2CCTL has the module at its lines, SWSM grants, every other register reads 0.
pub struct Bench {
    pub wired: Wired,
    pub trace: Vec<Step>,
}

impl Registers for Bench {
    type Error = ();

    fn read(&mut self, register: u32) -> Result<u32, ()> {
        let value = match register {
            SWSM => GRANTED,
            _ if register == self.wired.layout.register => self.wired.read(),
            _ => 0,
        };
        self.trace.push(Step::Read(register, value));
        Ok(value)
    }

    fn write(&mut self, register: u32, value: u32) -> Result<(), ()> {
        if register == self.wired.layout.register {
            self.wired.write(value);
        }
        self.trace.push(Step::Write(register, value));
        Ok(())
    }

    fn delay_us(&mut self, micros: usize) {
        self.trace.push(Step::Wait(micros));
    }
}

/// Replays a trace: an access other than the recorded one fails.
pub struct Replay<'a> {
    pub trace: &'a [Step],
    pub at: usize,
}

impl Replay<'_> {
    fn next(&mut self) -> Option<Step> {
        self.at += 1;
        self.trace.get(self.at - 1).copied()
    }
}

impl Registers for Replay<'_> {
    type Error = ();

    #[inline(never)]
    fn read(&mut self, register: u32) -> Result<u32, ()> {
        match self.next() {
            Some(Step::Read(r, value)) if r == register => Ok(value),
            _ => Err(()),
        }
    }

    #[inline(never)]
    fn write(&mut self, register: u32, value: u32) -> Result<(), ()> {
        match self.next() {
            Some(Step::Write(r, v)) if r == register && v == value => Ok(()),
            _ => Err(()),
        }
    }

    #[inline(never)]
    fn delay_us(&mut self, micros: usize) {
        if !matches!(self.next(), Some(Step::Wait(n)) if n == micros) {
            self.at = usize::MAX / 2;
        }
    }
}
