//! Fresh cases of `sfp.rs`: as the locked transfers, with chosen bytes, and
//! the methods of its record; pages, and light.

use super::*;
use crate::light::{Shape, CHOICES, FINITE, MONITORED, NEAR_ONE, SMALL};

impl Choice {
    pub fn module_call(&mut self) -> Case {
        match self.below(100) {
            0..=3 => return self.page_call(),
            4..=11 => return self.light_call(),
            _ => {}
        }
        let function = match self.below(9) {
            0..=3 => IDENTIFY,
            4..=5 => IDENTIFY_QSFP,
            6..=7 => RATE_SELECT,
            _ => METHOD,
        };
        let mut case = self.at_port(function);
        case.args = [self.word(), self.word(), self.word()];
        match function {
            IDENTIFY => case.args = self.sent(|choice| choice.sfp_bytes()),
            IDENTIFY_QSFP => case.args = self.sent(|choice| choice.qsfp_bytes()),
            RATE_SELECT => case.args[0] = self.below(2),
            _ => {
                let kind = self.below(KINDS.len() as u32);
                case.args = [self.below(NVM_KEY + 1), kind | self.word() & MULTISPEED, self.word()];
            }
        }
        if function != METHOD {
            self.bus(&mut case);
        }
        case
    }

    /// Most with the sums right.
    fn page_call(&mut self) -> Case {
        let function = self.one(&[PAGE, QSFP_PAGE]);
        let mut case = self.at_port(function);
        case.args = [self.attempts(), self.word(), self.one(&[0, 0, 0, 0, 1, 2, 3])];
        self.bus(&mut case);
        case
    }

    /// Half with an external calibration, most of these with finite coefficients.
    fn light_call(&mut self) -> Case {
        let mut case = self.at_port(LIGHT);
        let any = self.word() as u8;
        let kind = self.one(&[any, any | MONITORED, 0x50, 0x58, 0x60, 0x68, 0x70, 0x40]);
        let mostly = self.one(&[NEAR_ONE, SMALL, FINITE, FINITE]);
        let often = if self.percent(80) { 80 } else { 0 };
        let coefficients = [(); 5].map(|()| {
            let any = self.below(CHOICES.len() as u32);
            if self.percent(often) {
                mostly
            } else {
                any
            }
        });
        let shape =
            Shape { kind, temperature: self.below(4), count: self.one(&[0, 0, 0, 1, 2, 3]), coefficients };
        case.args = [self.attempts(), self.word(), shape.number()];
        self.bus(&mut case);
        case
    }

    /// The bytes as the first of the queue, the others random.
    fn sent(&mut self, bytes: impl Fn(&mut Self) -> Vec<u8>) -> [u32; 3] {
        let mut queue = bytes(self);
        queue.resize_with(12, || self.word() as u8);
        [0, 4, 8].map(|i| u32::from_le_bytes([queue[i], queue[i + 1], queue[i + 2], queue[i + 3]]))
    }

    fn near(&mut self, values: &[u8]) -> u8 {
        let any = self.word() as u8;
        let value = self.one(values);
        if self.percent(85) {
            value
        } else {
            any
        }
    }

    /// Byte 0 up to five times; 6, 3 and 8; then 60, or 12, 14 and 15.
    fn sfp_bytes(&mut self) -> Vec<u8> {
        let wrong = match self.below(10) {
            0..=6 => 0,
            7..=8 => 1 + self.below(4),
            _ => 5,
        };
        let mut bytes: Vec<u8> = (0..wrong).map(|_| self.word() as u8).collect();
        let cable = self.near(&[0, 0, 0, 0x04, 0x08]);
        bytes.extend([3, self.near(&[0, 0, 0x01, 0x02, 0x08, 0x40]), self.near(&[0, 0, 0x10, 0x20]), cable]);
        if cable & 0x0c == 0x08 {
            bytes.push(self.near(&[0, 0x04]));
        } else {
            bytes.extend([self.near(&[0x67]), self.near(&[0, 0, 1]), self.near(&[0, 9, 10])]);
        }
        bytes
    }

    /// Bytes 0, 83, 86, 82, 92 and 93.
    fn qsfp_bytes(&mut self) -> Vec<u8> {
        vec![
            self.near(&[0x0d]),
            self.near(&[0, 0, 0, 0x01, 0x08, 0x10, 0x20]),
            self.near(&[0, 0x01, 0x02]),
            self.near(&[0x23]),
            self.near(&[0, 1, 1]),
            self.near(&[0, 0x0f, 0x10]),
        ]
    }
}
