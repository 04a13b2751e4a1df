//! The registers of a start: I2CCTL is the bench module's, so is ESDP where
//! the port has a mux, and every other read gets a random value that the
//! premises allow: no access fails, each lock and grant comes within its tries,
//! no checked read gives FFFFFFFF.

use std::convert::Infallible;

use super::module::Wired;
use super::start::Start;
use crate::driver::{sync, Family, Port, Registers, ESDP, STATUS};
use crate::fresh::Choice;
use crate::rules::{sw_fw_sync, swsm, transfer_mask, GRANT, REGSMP, SMBI, SWESMBI};

/// A register refuses for a number of reads, then grants for a number of
/// them, and so on. Three reads in a row that grant end every wait: a try at a
/// lock looks at one of two reads, a try at a resource at one of three.
struct Turns {
    /// The reads that it may refuse in a row.
    longest: u32,
    refusing: bool,
    left: u32,
}

impl Turns {
    fn new(longest: u32) -> Self {
        Turns { longest, refusing: false, left: 0 }
    }

    fn refuses(&mut self, choice: &mut Choice) -> bool {
        while self.left == 0 {
            self.refusing = !self.refusing;
            self.left = if self.refusing { refusals(choice, self.longest) } else { 3 + choice.below(40) };
        }
        self.left -= 1;
        self.refusing
    }
}

/// Mostly none or a few, now and then up to the last try.
fn refusals(choice: &mut Choice, longest: u32) -> u32 {
    match choice.below(200) {
        0..=99 => 0,
        100..=179 => choice.below(5),
        180..=196 => choice.below(30),
        197..=198 => choice.below(longest + 1),
        _ => longest,
    }
}

pub struct Host {
    pub wired: Wired,
    choice: Choice,
    port: Port,
    swsm: Turns,
    sync: Turns,
    esdp: Turns,
    /// Runs of accesses to I2CCTL with none to another register between, save
    /// the reads of STATUS.
    pub runs: u32,
    at_bus: bool,
}

impl Host {
    pub fn new(start: &Start) -> Self {
        let Start { port, word, esdp, module, .. } = start;
        Host::at(start, Wired::new(*port, *word, *esdp, module.clone()))
    }

    /// The lines as an earlier call left them.
    pub fn at(start: &Start, wired: Wired) -> Self {
        let Start { port, answers, .. } = start;
        Host {
            wired,
            choice: Choice::new(*answers),
            port: *port,
            // 2,000 reads for SMBI, 200 or 1,000 tries at the resource, 200 looks for the grant.
            swsm: Turns::new(1999),
            sync: Turns::new(199),
            esdp: Turns::new(199),
            runs: 0,
            at_bus: false,
        }
    }

    /// Whether the access is to I2CCTL.
    fn bus(&mut self, register: u32) -> bool {
        let here = register == self.wired.layout.register;
        if here && !self.at_bus {
            self.runs += 1;
        }
        self.at_bus = here || self.at_bus && register == STATUS;
        here
    }

    fn at_mux(&self, register: u32) -> bool {
        self.wired.mux && register == ESDP
    }

    /// SW_FW_SYNC: free, or with REGSMP or some of the bits that keep the bus
    /// from being taken.
    fn sync(&mut self, value: u32) -> u32 {
        let Port { family, lan, .. } = self.port;
        let (sw, fw, hw) = sync::probe_bits(family, transfer_mask(family, lan.into()));
        let all = sw | fw | hw;
        let free = value & !(REGSMP | all);
        if !self.sync.refuses(&mut self.choice) {
            return free;
        }
        let some = all & self.choice.word();
        let held = if some == 0 { all } else { some };
        if family == Family::F82599 {
            free | held
        } else {
            free | self.choice.one(&[held, REGSMP])
        }
    }

    fn value(&mut self, register: u32) -> u32 {
        let family = self.port.family;
        let value = self.choice.word();
        if register == swsm(family) {
            if self.swsm.refuses(&mut self.choice) {
                self.choice.one(&[value | SMBI, value & !SWESMBI])
            } else {
                value & !SMBI | SWESMBI
            }
        } else if register == sw_fw_sync(family) {
            self.sync(value)
        } else if register == ESDP {
            let (_, granted) = GRANT;
            if self.esdp.refuses(&mut self.choice) {
                value & !granted
            } else {
                value | granted
            }
        } else {
            value
        }
    }
}

impl Registers for Host {
    type Error = Infallible;

    fn read(&mut self, register: u32) -> Result<u32, Infallible> {
        if self.bus(register) {
            return Ok(self.wired.read());
        }
        if self.at_mux(register) {
            return Ok(self.wired.esdp);
        }
        if register == STATUS {
            let value = self.choice.word();
            return Ok(self.choice.one(&[value, value, value, u32::MAX]));
        }
        let value = self.value(register);
        // Bit 20 keeps no wait waiting.
        Ok(if value == u32::MAX { value & !(1 << 20) } else { value })
    }

    fn write(&mut self, register: u32, value: u32) -> Result<(), Infallible> {
        if self.bus(register) {
            self.wired.write(value);
        } else if self.at_mux(register) {
            self.wired.switch(value);
        }
        Ok(())
    }

    fn delay_us(&mut self, _micros: usize) {}
}
