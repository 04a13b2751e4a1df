//! Fresh cases of `i2c.rs`, most of them over lines that acknowledge.

use super::*;
use crate::driver::ESDP;
use crate::lines::{Layout, Lines};
use crate::script::{script, shape, Phrase};

const QSFP_DEVICE: u32 = 0x1558;
/// The last try of `scl_high`, from 0.
const LAST_TRY: u32 = 499;

impl Choice {
    pub fn transfer(&mut self) -> Case {
        let function = match self.below(24) {
            0..=5 => READ_BYTE,
            6..=8 => WRITE_BYTE,
            9..=11 => READ_COMBINED,
            12..=14 => WRITE_COMBINED,
            15..=19 => SCRIPT,
            20 => QSFP_SETUP,
            21 => ONES_ADD,
            22 => PLAIN,
            _ => PHY,
        };
        let mut case = self.at_port(function);
        case.args = self.call(function);
        if (READ_BYTE..=SCRIPT).contains(&function) {
            self.bus(&mut case);
        }
        case
    }

    /// Either sequence where the function takes one.
    fn sequence(&mut self, function: u32) -> Sequence {
        if sequenced(function) {
            self.one(&[Sequence::Pulses, Sequence::Rounds])
        } else {
            Sequence::Pulses
        }
    }

    /// Without arguments and rules.
    pub fn at_port(&mut self, function: u32) -> Case {
        let any = self.below(0x1_0000);
        let device = self.one(&[QSFP_DEVICE, any]);
        let family = self.below(5);
        // The handshake is that of the first family only.
        let family = if device == QSFP_DEVICE { self.one(&[0, family]) } else { family };
        Case {
            function,
            sequence: self.sequence(function),
            family,
            device,
            lan: self.below(2),
            args: [0; 3],
            seed: self.word(),
            fail_at: NEVER,
            ones_at: NEVER,
            rules: Vec::new(),
            lines: None,
        }
    }

    fn call(&mut self, function: u32) -> [u32; 3] {
        let address = self.below(128) * 2;
        let device = self.one(&[address, address, address, 0xa0, 0xa2, 0xfe]);
        let lock = self.percent(45);
        match function {
            READ_BYTE => packed(device, self.byte(), self.attempts(), lock),
            WRITE_BYTE => packed(device, self.byte(), self.byte(), lock),
            READ_COMBINED => packed(device, self.below(0x1_0000), 0, lock),
            WRITE_COMBINED => packed(device, self.below(0x1_0000), self.below(0x1_0000), lock),
            SCRIPT => self.script(),
            ONES_ADD => [self.byte(), self.byte(), 0],
            PLAIN => [self.below(4), 0, 0],
            _ => [0; 3],
        }
    }

    fn byte(&mut self) -> u32 {
        let byte = self.below(256);
        self.one(&[byte, byte, byte, byte, byte, 0, 0x80, 0xff])
    }

    pub fn attempts(&mut self) -> u32 {
        match self.below(100) {
            0..=2 => 0,
            3..=39 => 1,
            40..=69 => 2 + self.below(3),
            70..=95 => self.one(&[4, 11]),
            96..=98 => self.below(256),
            _ => 255,
        }
    }

    fn script(&mut self) -> [u32; 3] {
        loop {
            let phrases = 1 + self.below(4);
            let longest = if self.percent(10) { 60 / phrases } else { 4 };
            let phrases: Vec<Phrase> = (0..phrases).map(|_| self.phrase(longest)).collect();
            let (seed, shape) = (self.word(), shape(&phrases));
            if script(seed, shape).is_some() {
                return [seed, shape, 0];
            }
        }
    }

    fn phrase(&mut self, longest: u32) -> Phrase {
        let count = self.below(longest);
        if self.percent(50) {
            Phrase::Send(count)
        } else {
            Phrase::Read(count)
        }
    }

    /// The rules of the locks, of ESDP and of I2CCTL.
    pub fn bus(&mut self, case: &mut Case) {
        let family = case.family();
        let locked = match case.function {
            SCRIPT => false,
            IDENTIFY..=LIGHT => true,
            _ => case.args[2] == 1,
        };
        // Reads of I2CCTL that most calls make.
        let reads = match case.function {
            PAGE | QSFP_PAGE => 8_000,
            LIGHT => 1_500,
            IDENTIFY.. => 500,
            _ => 120,
        };
        let mut drawn = Vec::new();
        if locked {
            drawn.extend(self.transfer_locks(family, case.lan));
        }
        drawn.extend(self.esdp());
        let turn = self.below(4) as usize % drawn.len().max(1);
        drawn.rotate_left(turn);
        let layout = layout(family);
        match self.below(100) {
            0..=2 => {}
            3..=6 => drawn.push(self.released(layout)),
            _ => case.lines = Some(self.lines(layout, reads)),
        }
        case.rules = drawn;
    }

    fn transfer_locks(&mut self, family: Family, lan: u32) -> Vec<Rule> {
        let mask = transfer_mask(family, lan);
        match self.below(100) {
            0..=49 => granting(family, mask),
            50..=74 => showing(family, mask),
            _ => [self.swsm(family), self.sync(family, mask)].into_iter().flatten().collect(),
        }
    }

    fn esdp(&mut self) -> Option<Rule> {
        let refused = (GRANT.1, 0);
        Some(match self.below(100) {
            0..=74 => always(ESDP, GRANT),
            75..=86 => until(ESDP, self.below(40), refused, GRANT),
            87..=90 => until(ESDP, 198 + self.below(5), refused, GRANT),
            91 => always(ESDP, refused),
            92..=94 => until(ESDP, self.below(6), GRANT, (0, u32::MAX)),
            _ => return None,
        })
    }

    /// Lines that nothing holds, and from some read on perhaps SDA low.
    fn released(&mut self, layout: Layout) -> Rule {
        let high = (0, layout.scl_in | layout.sda_in);
        until(layout.register, self.below(60), high, self.one(&[high, (layout.sda_in, 0)]))
    }

    fn lines(&mut self, layout: Layout, reads: u32) -> Lines {
        let stretch = match self.below(400) {
            0..=329 => 0,
            330..=389 => 1 + self.below(5),
            390..=397 => self.below(60),
            _ => 498 + self.below(4),
        };
        let sample = match self.below(100) {
            0..=79 => 1,
            80..=92 => 2 + self.below(8),
            93..=96 => 10,
            _ => 11,
        };
        let late = stretch.min(LAST_TRY) + sample;
        let mut lines = Lines { stretch, late, ..Lines::plain(layout) };
        if self.percent(50) {
            self.window(&mut lines, reads);
        }
        lines
    }

    fn window(&mut self, lines: &mut Lines, reads: u32) {
        let Layout { scl_in, sda_in, .. } = lines.layout;
        let random = (self.word() | scl_in | sda_in, self.word() & !(scl_in | sda_in));
        lines.at = self.below(reads);
        lines.run = match self.below(100) {
            0..=39 => 1,
            40..=69 => 2 + self.below(11),
            70..=87 => self.below(150),
            88..=95 => 498 + self.below(4),
            _ => NEVER,
        };
        lines.bend = self.one(&[(u32::MAX, sda_in), (!sda_in, 0), (!scl_in, 0), random]);
        if lines.run < 100 && self.percent(25) {
            lines.period = 20 + self.below(300);
        }
    }
}
