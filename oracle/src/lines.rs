//! I2CCTL with a module on its lines that acknowledges every byte, given as a
//! rule of a case: a small machine that follows what is written there.

/// Added to the register's number where a rule on the line is of this kind.
pub const MARK: u32 = 1 << 31;

/// I2CCTL and its bits, in the two layouts of the original.
#[derive(Clone, Copy, Debug, PartialEq, Eq)]
pub struct Layout {
    pub register: u32,
    pub scl_in: u32,
    pub scl_out: u32,
    pub sda_in: u32,
    pub sda_out: u32,
}

pub const LAYOUT_82599: Layout =
    Layout { register: 0x00028, scl_in: 1 << 0, scl_out: 1 << 1, sda_in: 1 << 2, sda_out: 1 << 3 };
pub const LAYOUT_X552: Layout =
    Layout { register: 0x15f5c, scl_in: 1 << 14, scl_out: 1 << 9, sda_in: 1 << 12, sda_out: 1 << 10 };

/// How the lines answer. The reads numbered from `at`, `run` of them, get
/// `bend` (and, or) on top; the number counts the earlier reads, modulo
/// `period` if that is not 0.
#[derive(Clone, Copy, Debug, PartialEq, Eq)]
pub struct Lines {
    pub layout: Layout,
    pub period: u32,
    pub at: u32,
    pub run: u32,
    pub bend: (u32, u32),
    /// Reads after each rise of SCL that still show it low; below 2^16.
    pub stretch: u32,
    /// Reads after the rise of SCL before an acknowledgement shows; below 2^16.
    pub late: u32,
}

impl Lines {
    /// Without a window: every byte is acknowledged at the first sample.
    pub fn plain(layout: Layout) -> Self {
        Lines { layout, period: 0, at: 0, run: 0, bend: (u32::MAX, 0), stretch: 0, late: 1 }
    }

    pub fn words(&self) -> [u32; 7] {
        let register = MARK + self.layout.register;
        let marks = self.stretch + (self.late << 16);
        [register, self.period, self.at, self.run, self.bend.0, self.bend.1, marks]
    }

    pub fn from_words(words: [u32; 7]) -> Option<Self> {
        let [register, period, at, run, and, or, marks] = words;
        let layout = [LAYOUT_82599, LAYOUT_X552].into_iter().find(|l| MARK + l.register == register)?;
        Some(Lines { layout, period, at, run, bend: (and, or), stretch: marks & 0xffff, late: marks >> 16 })
    }

    fn in_window(&self, count: u32) -> bool {
        let k = if self.period == 0 { count } else { count % self.period };
        k >= self.at && k - self.at < self.run
    }
}

/// What the lines have come to.
#[derive(Clone, Copy)]
pub struct Wires {
    pub scl: bool,
    pub sda: bool,
    /// 0 before a START and after a STOP. Else the SCL pulse: 1 to 8 for a
    /// byte's bits, 9 for its acknowledgement; a START makes it 9.
    pub slot: u32,
    /// Reads since SCL rose.
    pub since: u32,
    /// The byte is the address after a START.
    pub first: bool,
    /// That address asks the module to send.
    pub sends: bool,
    /// Bytes that the module has sent: each counts once its acknowledgement's
    /// pulse has begun.
    pub sent: u32,
}

impl Wires {
    pub fn new() -> Self {
        Wires { scl: false, sda: true, slot: 0, since: 0, first: false, sends: false, sent: 0 }
    }

    pub fn written(&mut self, layout: &Layout, value: u32) {
        let scl = value & layout.scl_out != 0;
        let sda = value & layout.sda_out != 0;
        if self.scl && scl && self.sda != sda {
            self.slot = if sda { 0 } else { 9 };
            if !sda {
                (self.first, self.sends) = (true, false);
            }
        }
        if !self.scl && scl {
            self.slot = if self.slot == 0 { 0 } else { self.slot % 9 + 1 };
            self.since = 0;
            self.risen(sda);
        }
        self.scl = scl;
        self.sda = sda;
    }

    /// SCL has risen into its slot: who sends, and what was sent.
    fn risen(&mut self, sda: bool) {
        match self.slot {
            8 if self.first => self.sends = sda,
            9 if self.first => self.first = false,
            9 if self.sends => self.sent += 1,
            _ => {}
        }
    }

    /// A bit that the module sends is on SDA.
    pub fn sending(&self) -> bool {
        self.scl && (1..=8).contains(&self.slot) && self.sends && !self.first
    }
}

/// The rule at work. The module sends `queue`, then the stream's bits.
#[derive(Clone)]
pub struct Playing {
    pub lines: Lines,
    queue: Vec<u8>,
    wires: Wires,
    count: u32,
}

impl Playing {
    pub fn new(lines: Lines, queue: Vec<u8>) -> Self {
        Playing { lines, queue, wires: Wires::new(), count: 0 }
    }

    /// The queue's bit that is on SDA.
    fn bit(&self) -> Option<bool> {
        let byte = self.queue.get(self.wires.sent as usize).filter(|_| self.wires.sending())?;
        Some(byte >> (8 - self.wires.slot) & 1 == 1)
    }

    pub fn written(&mut self, value: u32) {
        self.wires.written(&self.lines.layout, value);
    }

    /// The answer to a read, made from the stream's `value`: the output bits
    /// as last written, the input bits as the lines, the others as they are.
    pub fn read(&mut self, value: u32) -> u32 {
        let Lines { layout, stretch, late, bend, .. } = self.lines;
        let Wires { scl, sda, slot, since, .. } = self.wires;
        let mut value = with(value, layout.scl_out, scl);
        value = with(value, layout.sda_out, sda);
        value = with(value, layout.scl_in, scl && since >= stretch);
        if !(scl && (1..=8).contains(&slot)) {
            value = with(value, layout.sda_in, !(scl && slot == 9 && since >= late));
        }
        if let Some(bit) = self.bit() {
            value = with(value, layout.sda_in, bit);
        }
        if self.lines.in_window(self.count) {
            value = value & bend.0 | bend.1;
        }
        self.count += 1;
        self.wires.since += 1;
        value
    }
}

fn with(value: u32, bit: u32, set: bool) -> u32 {
    if set {
        value | bit
    } else {
        value & !bit
    }
}
