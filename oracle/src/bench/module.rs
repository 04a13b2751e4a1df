//! The bench module of the papers, with the lines, I2CCTL and the second
//! cage's mux. Written from their text and from nothing of the port.

use crate::driver::{Family, Port};

/// `Address` and `Receive` with so many bits taken, 0 to 8; `Send` with the
/// bit that is on SDA, 0 to 7, the highest first.
#[derive(Clone, Copy, Debug, PartialEq, Eq)]
pub enum Stage {
    Idle,
    Address(u8),
    Receive(u8),
    AckRead,
    AckWrite,
    Send(u8),
    Listen,
}

/// `page` is 0 for A0 and 1 for A2; `noted` is true for an SDA noted high.
#[derive(Clone, Copy, Debug, PartialEq, Eq)]
pub struct Receiver {
    pub stage: Stage,
    pub bits: u8,
    pub page: usize,
    pub offset_next: bool,
    pub noted: bool,
}

#[derive(Clone, Debug, PartialEq, Eq)]
pub struct Module {
    pub pages: [[u8; 256]; 2],
    pub offsets: [u8; 2],
    pub receiver: Receiver,
}

impl Module {
    /// The byte at the offset of the page chosen.
    fn byte(&self) -> u8 {
        let page = self.receiver.page;
        self.pages[page][usize::from(self.offsets[page])]
    }

    fn advance(&mut self) {
        let offset = &mut self.offsets[self.receiver.page];
        *offset = offset.wrapping_add(1);
    }

    pub fn pulls_sda(&self) -> bool {
        match self.receiver.stage {
            Stage::AckRead | Stage::AckWrite => true,
            Stage::Send(n) => self.byte() >> (7 - n) & 1 == 0,
            Stage::Idle | Stage::Address(_) | Stage::Receive(_) | Stage::Listen => false,
        }
    }

    fn start(&mut self) {
        self.receiver.stage = Stage::Address(0);
    }

    fn stop(&mut self) {
        self.receiver.stage = Stage::Idle;
    }

    fn scl_rises(&mut self, sda: bool) {
        let receiver = &mut self.receiver;
        match receiver.stage {
            Stage::Address(n) if n < 8 => {
                receiver.bits = receiver.bits << 1 | u8::from(sda);
                receiver.stage = Stage::Address(n + 1);
            }
            Stage::Receive(n) if n < 8 => {
                receiver.bits = receiver.bits << 1 | u8::from(sda);
                receiver.stage = Stage::Receive(n + 1);
            }
            Stage::Listen => receiver.noted = sda,
            _ => {}
        }
    }

    fn scl_falls(&mut self) {
        self.receiver.stage = match self.receiver.stage {
            Stage::Address(8) => self.addressed(),
            Stage::Receive(8) => {
                self.store();
                Stage::AckWrite
            }
            Stage::AckWrite => Stage::Receive(0),
            Stage::AckRead => Stage::Send(0),
            Stage::Send(7) => {
                self.advance();
                Stage::Listen
            }
            Stage::Send(n) => Stage::Send(n + 1),
            Stage::Listen if self.receiver.noted => Stage::Idle,
            Stage::Listen => Stage::Send(0),
            stage @ (Stage::Idle | Stage::Address(_) | Stage::Receive(_)) => stage,
        };
    }

    fn addressed(&mut self) -> Stage {
        let (page, stage) = match self.receiver.bits {
            0xa0 => (0, Stage::AckWrite),
            0xa1 => (0, Stage::AckRead),
            0xa2 => (1, Stage::AckWrite),
            0xa3 => (1, Stage::AckRead),
            _ => return Stage::Idle,
        };
        self.receiver.page = page;
        self.receiver.offset_next = true;
        stage
    }

    fn store(&mut self) {
        let Receiver { page, bits, offset_next, .. } = self.receiver;
        if offset_next {
            self.offsets[page] = bits;
            self.receiver.offset_next = false;
        } else {
            self.pages[page][usize::from(self.offsets[page])] = bits;
            self.advance();
        }
    }
}

/// I2CCTL's bits; the last three are 0 where the layout lacks them.
#[derive(Clone, Copy)]
pub struct Layout {
    pub register: u32,
    scl_in: u32,
    scl_out: u32,
    sda_in: u32,
    sda_out: u32,
    pub scl_off: u32,
    pub sda_off: u32,
    pub bb_en: u32,
}

pub fn layout(family: Family) -> Layout {
    match family {
        Family::F82599 | Family::X540 | Family::X550 => Layout {
            register: 0x00028,
            scl_in: 1 << 0,
            scl_out: 1 << 1,
            sda_in: 1 << 2,
            sda_out: 1 << 3,
            scl_off: 0,
            sda_off: 0,
            bb_en: 0,
        },
        Family::X552 | Family::X553 => Layout {
            register: 0x15f5c,
            scl_in: 1 << 14,
            scl_out: 1 << 9,
            sda_in: 1 << 12,
            sda_out: 1 << 10,
            scl_off: 1 << 13,
            sda_off: 1 << 11,
            bb_en: 1 << 8,
        },
    }
}

impl Layout {
    fn drives(&self, word: u32, out: u32, off: u32) -> bool {
        let enabled = self.bb_en == 0 || word & self.bb_en != 0 && word & off == 0;
        enabled && word & out == 0
    }

    /// I2CCTL with both lines released.
    pub fn released(&self, word: u32) -> u32 {
        word | self.scl_out | self.sda_out
    }

    fn pulls_scl(&self, word: u32) -> bool {
        self.drives(word, self.scl_out, self.scl_off)
    }

    fn pulls_sda(&self, word: u32) -> bool {
        self.drives(word, self.sda_out, self.sda_off)
    }
}

/// The bit of ESDP that switches the mux on.
pub const MUX_ON: u32 = 1 << 1;

/// Whether the port reaches its module through a mux.
pub fn has_mux(port: Port) -> bool {
    port.family == Family::X552 && port.lan == 1
}

/// I2CCTL with the module at the lines, and ESDP where that switches a mux.
#[derive(Clone)]
pub struct Wired {
    pub layout: Layout,
    pub mux: bool,
    pub word: u32,
    /// As last written; without a mux it means nothing.
    pub esdp: u32,
    pub module: Module,
    /// Writes that moved both lines at the module.
    pub both: u32,
    /// Writes of ESDP that moved a line there.
    pub moved: u32,
    /// Writes of ESDP with the bit clear that found the module not Idle or a
    /// line pulled.
    pub unsettled: u32,
}

impl Wired {
    pub fn new(port: Port, word: u32, esdp: u32, module: Module) -> Self {
        let (layout, mux) = (layout(port.family), has_mux(port));
        Wired { layout, mux, word, esdp, module, both: 0, moved: 0, unsettled: 0 }
    }

    /// Each side feels the other's pulls.
    fn joined(&self, esdp: u32) -> bool {
        !self.mux || esdp & MUX_ON != 0
    }

    pub fn read(&self) -> u32 {
        let Layout { scl_in, sda_in, .. } = self.layout;
        let felt = self.joined(self.esdp) && self.module.pulls_sda();
        let scl = if self.layout.pulls_scl(self.word) { 0 } else { scl_in };
        let sda = if self.layout.pulls_sda(self.word) || felt { 0 } else { sda_in };
        self.word & !(scl_in | sda_in) | scl | sda
    }

    pub fn write(&mut self, word: u32) {
        self.turn(word, self.esdp);
    }

    /// ESDP is written.
    pub fn switch(&mut self, esdp: u32) {
        let settled = self.module.receiver.stage == Stage::Idle && self.released();
        if esdp & MUX_ON == 0 && !settled {
            self.unsettled += 1;
        }
        if self.turn(self.word, esdp) {
            self.moved += 1;
        }
    }

    /// SCL and SDA as the module sees them.
    fn seen(&self, word: u32, esdp: u32) -> (bool, bool) {
        let joined = self.joined(esdp);
        let scl = joined && self.layout.pulls_scl(word);
        let sda = joined && self.layout.pulls_sda(word) || self.module.pulls_sda();
        (!scl, !sda)
    }

    /// Whether a line moves at the module. Where both do, SCL moves first and
    /// sees the old SDA.
    fn turn(&mut self, word: u32, esdp: u32) -> bool {
        let (scl_before, sda_before) = self.seen(self.word, self.esdp);
        let (scl, sda) = self.seen(word, esdp);
        self.word = word;
        self.esdp = esdp;
        if scl != scl_before && sda != sda_before {
            self.both += 1;
        }
        match (scl_before, scl) {
            (false, true) => self.module.scl_rises(sda_before),
            (true, false) => self.module.scl_falls(),
            _ => {}
        }
        match (scl, sda_before, sda) {
            (true, true, false) => self.module.start(),
            (true, false, true) => self.module.stop(),
            _ => {}
        }
        (scl, sda) != (scl_before, sda_before)
    }

    /// Neither side pulls either line.
    pub fn released(&self) -> bool {
        !self.layout.pulls_scl(self.word) && !self.layout.pulls_sda(self.word) && !self.module.pulls_sda()
    }
}
