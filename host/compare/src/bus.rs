//! I2CCTL and what is at its lines: the bench module from any state, a module that acknowledges every byte, lines by chance,
//! or lines that are stuck.

use sulfryk::{Family, Port};

use crate::case::{Call, Case};
use crate::choice::Choice;
use crate::lines::{LAYOUT_82599, LAYOUT_X552, Layout, Lines, Playing};
use crate::module::{MUX_ON, Module, Receiver, Stage, Wired, has_mux, layout};

pub enum Bus {
    Bench(Box<Wired>),
    Acknowledging(Playing),
    /// SCL is mostly high and SDA by chance; the outputs as last written.
    Chance {
        layout: Layout,
        last: u32,
    },
    /// These bits clear and these set.
    Stuck {
        last: u32,
        clear: u32,
        set: u32,
    },
}

/// The states of the bench module's receiver, `Send` with the bit on SDA and `Listen` with the SDA noted.
pub const STATES: usize = 39;

impl Bus {
    pub fn draw(choice: &mut Choice, case: &Case) -> Self {
        let layout = match case.port.family {
            Family::X552 | Family::X553 => LAYOUT_X552,
            _ => LAYOUT_82599,
        };
        match choice.below(100) {
            0..=44 => Bus::Bench(Box::new(bench(choice, case))),
            45..=79 => Bus::Acknowledging(acknowledging(choice, case, layout)),
            80..=87 => Bus::Chance { layout, last: choice.word() },
            88..=92 => Bus::Stuck { last: choice.word(), clear: layout.sda_in, set: layout.scl_in },
            93..=98 => Bus::Stuck { last: choice.word(), clear: 0, set: layout.sda_in | layout.scl_in },
            // SCL stays low: each rise has its 500 tries.
            _ => Bus::Stuck { last: choice.word(), clear: layout.scl_in, set: layout.sda_in },
        }
    }

    /// The number of the state in which the bench module begins.
    pub fn state(&self) -> Option<usize> {
        let Bus::Bench(wired) = self else { return None };
        let Module { receiver, .. } = &wired.module;
        let bit = usize::from(!wired.module.pulls_sda());
        Some(match receiver.stage {
            Stage::Idle => 0,
            Stage::Address(n) => 1 + usize::from(n),
            Stage::Receive(n) => 10 + usize::from(n),
            Stage::AckRead => 19,
            Stage::AckWrite => 20,
            Stage::Send(n) => 21 + 2 * usize::from(n) + bit,
            Stage::Listen => 37 + usize::from(receiver.noted),
        })
    }

    pub fn read(&mut self, choice: &mut Choice) -> u32 {
        match self {
            Bus::Bench(wired) => wired.read(),
            Bus::Acknowledging(playing) => playing.read(choice.word()),
            Bus::Chance { layout, last } => {
                let word = choice.word();
                let scl = if word & 0x1f0 == 0 { 0 } else { layout.scl_in };
                let sda = if word & 1 == 0 { 0 } else { layout.sda_in };
                *last & !(layout.scl_in | layout.sda_in) | scl | sda
            }
            Bus::Stuck { last, clear, set } => *last & !*clear | *set,
        }
    }

    pub fn write(&mut self, value: u32) {
        match self {
            Bus::Bench(wired) => wired.write(value),
            Bus::Acknowledging(playing) => playing.written(value),
            Bus::Chance { last, .. } | Bus::Stuck { last, .. } => *last = value,
        }
    }

    /// ESDP, where the bench module is reached through a mux.
    pub fn switch(&mut self) -> Option<&mut Wired> {
        match self {
            Bus::Bench(wired) if wired.mux => Some(wired),
            _ => None,
        }
    }
}

fn bench(choice: &mut Choice, case: &Case) -> Wired {
    let word = control(choice, case.port);
    let esdp = choice.word() & !(1 << 5) & if choice.flip() { !0 } else { !MUX_ON };
    Wired::new(case.port, word, esdp, module(choice, &case.call))
}

/// Any word, but with the enables off where BB_EN is clear; now and then that does not hold.
fn control(choice: &mut Choice, port: Port) -> u32 {
    let layout = layout(port.family);
    let word = choice.word();
    if choice.percent(10) {
        word
    } else if word & layout.bb_en == 0 {
        word | layout.scl_off | layout.sda_off
    } else if has_mux(port) {
        layout.released(word)
    } else {
        word
    }
}

fn module(choice: &mut Choice, call: &Call) -> Module {
    let mut pages = [page(choice), page(choice)];
    let [a0, a2] = &mut pages;
    match call {
        Call::IdentifyQsfp => qsfp(choice, a0),
        Call::Page { .. } | Call::QsfpPage { .. } => {
            summed(choice, &mut a0[..96]);
            summed(choice, &mut a0[128..224]);
        }
        Call::Light { .. } => {
            a0[92] = monitoring(choice);
            a2[56..76].copy_from_slice(&coefficients(choice));
        }
        _ => sfp(choice, a0),
    }
    let stage = match choice.below(8) {
        0 => Stage::Idle,
        1 => Stage::Address(choice.below(9) as u8),
        2 => Stage::Receive(choice.below(9) as u8),
        3 => Stage::AckRead,
        4 => Stage::AckWrite,
        5 | 6 => Stage::Send(choice.below(8) as u8),
        _ => Stage::Listen,
    };
    let bits = choice.mostly(60, &[0xa0, 0xa1, 0xa2, 0xa3]);
    let page = choice.below(2) as usize;
    let receiver = Receiver { stage, bits, page, offset_next: choice.flip(), noted: choice.flip() };
    Module { pages, offsets: [choice.byte(), choice.byte()], receiver }
}

/// Mostly random bytes, now and then all the same.
fn page(choice: &mut Choice) -> [u8; 256] {
    match choice.below(20) {
        0 => return [0x00; 256],
        1 => return [0xff; 256],
        _ => {}
    }
    let mut page = [0; 256];
    page.chunks_mut(8).for_each(|eight| eight.copy_from_slice(&choice.long().to_le_bytes()));
    page
}

/// The bytes that decide the class of an SFP, so that each class comes up.
fn sfp(choice: &mut Choice, a0: &mut [u8; 256]) {
    a0[0] = choice.mostly(85, &[0x03]);
    a0[3] = choice.mostly(90, &[0x00, 0x00, 0x00, 0x10, 0x20, 0x30, 0xcf]);
    a0[6] = choice.mostly(90, &[0x00, 0x00, 0x40, 0x40, 0x01, 0x02, 0x02, 0x03, 0x08, 0x0b, 0xb4]);
    a0[8] = choice.mostly(90, &[0x00, 0x00, 0x00, 0x00, 0xf3, 0x04, 0x08, 0x0c]);
    a0[12] = choice.mostly(90, &[0x67, 0x67, 0x67, 0x66, 0x68]);
    a0[14] = choice.mostly(50, &[0x00]);
    a0[15] = choice.mostly(80, &[0x00, 0x09, 0x0a, 0x0b]);
    a0[60] = choice.mostly(80, &[0x00, 0x04, 0xfb]);
}

/// The same of a QSFP.
fn qsfp(choice: &mut Choice, a0: &mut [u8; 256]) {
    a0[0] = choice.mostly(85, &[0x0d]);
    a0[0x83] = choice.mostly(90, &[0x00, 0x00, 0x00, 0x01, 0x08, 0x10, 0x20, 0x30, 0xc6]);
    a0[0x86] = choice.mostly(90, &[0x00, 0x01, 0x02, 0x03]);
    a0[0x82] = choice.mostly(90, &[0x23, 0x23, 0x22]);
    a0[0x92] = choice.mostly(50, &[0x00]);
    a0[0x93] = choice.mostly(70, &[0x00, 0x0f, 0x10]);
}

/// Each check byte right, but for one time in four.
fn summed(choice: &mut Choice, page: &mut [u8]) {
    let sum = |bytes: &[u8]| bytes.iter().fold(0u8, |sum, b| sum.wrapping_add(*b));
    page[63] = sum(&page[..63]).wrapping_add(choice.one(&[0, 0, 0, 1]));
    page[95] = sum(&page[64..95]).wrapping_add(choice.one(&[0, 0, 0, 1]));
}

/// Byte 92.
fn monitoring(choice: &mut Choice) -> u8 {
    choice.mostly(85, &[0x60, 0x60, 0x50, 0x50, 0x50, 0x70, 0x70, 0x40, 0x00])
}

/// Rx_PWR(4) first: of the random bits those that stay, and those that are set.
fn coefficients(choice: &mut Choice) -> [u8; 20] {
    const CHOICES: [(u32, u32); 12] = [
        (0xffff_ffff, 0),
        (0, 0),
        (0, 0x8000_0000),
        (0, 0x3f80_0000),
        (0x807f_ffff, 0),
        (0, 0x7f7f_ffff),
        (0x83ff_ffff, 0x3c00_0000),
        (0x83ff_ffff, 0x3c00_0000),
        (0x8fff_ffff, 0x2000_0000),
        (0x8f7f_ffff, 0x7000_0000),
        (0x807f_ffff, 0x7f80_0001),
        (0x8000_0000, 0x7f80_0000),
    ];
    // In half of the cases without what is not finite.
    let of = if choice.flip() { 10 } else { 12 };
    let mut bytes = [0; 20];
    for four in bytes.chunks_mut(4) {
        let (stay, set) = CHOICES[choice.below(of) as usize];
        four.copy_from_slice(&(choice.word() & stay | set).to_be_bytes());
    }
    bytes
}

/// What the module sends, in the order in which the call asks for it.
fn queue(choice: &mut Choice, call: &Call) -> Vec<u8> {
    let mut a0 = page(choice);
    let at = |page: &[u8; 256], places: &[usize]| places.iter().map(|place| page[*place]).collect();
    match call {
        Call::Identify => {
            sfp(choice, &mut a0);
            at(&a0, &[0, 6, 3, 8, 12, 14, 15])
        }
        Call::IdentifyQsfp => {
            qsfp(choice, &mut a0);
            at(&a0, &[0, 0x83, 0x86, 0x82, 0x92, 0x93])
        }
        Call::Page { .. } | Call::QsfpPage { .. } => {
            summed(choice, &mut a0[..96]);
            a0[..96].to_vec()
        }
        Call::Light { .. } => {
            let mut queue = vec![monitoring(choice)];
            queue.extend(&a0[..10]);
            queue.extend(coefficients(choice));
            queue
        }
        _ => Vec::new(),
    }
}

/// Mostly at the first sample and without stretching; in half of the cases with a window in which a line is bent.
fn acknowledging(choice: &mut Choice, case: &Case, layout: Layout) -> Playing {
    let mut lines = Lines::plain(layout);
    lines.late = match choice.below(20) {
        0..=12 => 1,
        13..=18 => 1 + choice.below(10),
        _ => 11,
    };
    lines.stretch = if choice.percent(85) { 0 } else { choice.spread(5) };
    if choice.flip() {
        let digits = case.call.digits() - 2;
        lines.at = choice.spread(digits);
        lines.run = 1 + choice.spread(8);
        lines.period = if choice.percent(70) { 0 } else { lines.at + lines.run + choice.spread(10) };
        lines.bend = choice.one(&[
            (!layout.sda_in, 0),
            (u32::MAX, layout.sda_in),
            (!layout.scl_in, 0),
            (!(layout.scl_in | layout.sda_in), 0),
        ]);
    }
    Playing::new(lines, queue(choice, &case.call))
}
