//! Starts chosen at random: either sequence, any port, any module, any words of
//! I2CCTL and of ESDP that the papers allow.

use super::module::{has_mux, layout, Module, Receiver, Stage, MUX_ON};
use crate::case::FAMILIES;
use crate::driver::i2c::Sequence;
use crate::driver::Port;
use crate::fresh::Choice;

pub struct Start {
    pub sequence: Sequence,
    pub port: Port,
    pub word: u32,
    /// Without a mux it means nothing.
    pub esdp: u32,
    pub module: Module,
    /// The seed of all other answers.
    pub answers: u64,
}

const QSFP_DEVICE: u16 = 0x1558;

impl Choice {
    pub fn start(&mut self) -> Start {
        let sequence = self.one(&[Sequence::Pulses, Sequence::Rounds]);
        let port = self.port();
        let word = self.control(port);
        let module = self.module();
        let answers = u64::from(self.word());
        // From a stream of its own.
        let esdp = if has_mux(port) { Choice::new(!answers).switch() } else { 0 };
        Start { sequence, port, word, esdp, module, answers }
    }

    fn port(&mut self) -> Port {
        let family = self.one(&FAMILIES);
        let device = if self.percent(40) { QSFP_DEVICE } else { self.below(0x1_0000) as u16 };
        Port { family, device, lan: self.below(2) as u8 }
    }

    /// BB_EN set or both enables off, where the layout has them; else any.
    /// With a mux neither line is pulled.
    fn control(&mut self, port: Port) -> u32 {
        let layout = layout(port.family);
        let word = self.word();
        if word & layout.bb_en == 0 {
            word | layout.scl_off | layout.sda_off
        } else if has_mux(port) {
            layout.released(word)
        } else {
            word
        }
    }

    /// ESDP with the mux off or on and some bit besides bit 1 clear: mostly
    /// many, now and then one.
    fn switch(&mut self) -> u32 {
        let (word, clear) = (self.word(), 1 << self.one(&[0, 2, 5, 16, 31]));
        let bits = self.one(&[word, word, word, 0, u32::MAX]) & !clear;
        self.one(&[bits & !MUX_ON, bits | MUX_ON])
    }

    fn module(&mut self) -> Module {
        let mut pages = [self.page(), self.page()];
        self.classed(&mut pages[0]);
        Module {
            pages,
            offsets: [self.any(), self.any()],
            receiver: Receiver {
                stage: self.stage(),
                bits: self.taken(),
                page: self.below(2) as usize,
                offset_next: self.percent(50),
                noted: self.percent(50),
            },
        }
    }

    fn stage(&mut self) -> Stage {
        match self.below(7) {
            0 => Stage::Idle,
            1 => Stage::Address(self.below(9) as u8),
            2 => Stage::Receive(self.below(9) as u8),
            3 => Stage::AckRead,
            4 => Stage::AckWrite,
            5 => Stage::Send(self.below(8) as u8),
            _ => Stage::Listen,
        }
    }

    /// The bits taken, in a part of the starts those of an address.
    fn taken(&mut self) -> u8 {
        let any = self.any();
        self.one(&[any, any, 0xa0, 0xa1, 0xa2, 0xa3])
    }

    fn any(&mut self) -> u8 {
        self.word() as u8
    }

    /// Mostly random bytes, in a part of the starts all the same.
    fn page(&mut self) -> [u8; 256] {
        match self.below(20) {
            0 => [0x00; 256],
            1 => [0xff; 256],
            2 => [self.any(); 256],
            _ => std::array::from_fn(|_| self.any()),
        }
    }

    /// The bytes that decide the class, so that each class comes up.
    fn classed(&mut self, a0: &mut [u8; 256]) {
        if self.percent(10) {
            return;
        }
        a0[0] = self.mostly(80, &[0x03]);
        a0[3] = self.mostly(90, &[0x00, 0x00, 0x00, 0x10, 0x20, 0x30, 0xcf]);
        a0[6] = self.mostly(90, &[0x00, 0x00, 0x40, 0x40, 0x01, 0x02, 0x03, 0x08, 0x0b, 0xb4]);
        a0[8] = self.mostly(90, &[0x00, 0x00, 0x00, 0x00, 0xf3, 0x04, 0x08, 0x0c]);
        a0[12] = self.mostly(90, &[0x67, 0x67, 0x67, 0x66, 0x68]);
        a0[14] = self.mostly(50, &[0x00]);
        a0[15] = self.mostly(80, &[0x00, 0x09, 0x0a, 0x0b]);
        a0[60] = self.mostly(80, &[0x00, 0x04, 0xfb]);
    }

    /// One of these, else any byte.
    fn mostly(&mut self, chance: u32, of: &[u8]) -> u8 {
        if self.percent(chance) {
            self.one(of)
        } else {
            self.any()
        }
    }
}
