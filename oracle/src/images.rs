//! The images of modules that the programs `report` and `monitor` ship: made
//! here and not dumped from modules. Each is page A0 and then page A2, laid out
//! by SFF-8472 with all its sums right. Byte numbers below are SFF-8472's,
//! decimal.

use std::fs;
use std::path::Path;

use crate::light::{EXTERNAL, INTERNAL, MONITORED};

type Page = [u8; 256];

/// What tells one image from another.
struct Plan {
    /// The file's name without `.bin`.
    name: &'static str,
    /// Byte 0.
    identifier: u8,
    part: &'static str,
    medium: Medium,
    /// Bytes 3, 6 and 8.
    codes: [u8; 3],
}

/// What a module of a medium has besides its codes.
enum Medium {
    /// 10 Gbd with the wavelength in nm and the lengths of bytes 14 to 19.
    Ten(u16, [u8; 6]),
    /// 1.25 Gbd, likewise.
    One(u16, [u8; 6]),
    /// A copper cable of so many metres, with its byte 60.
    Cable(u8, u8),
    /// 1000BASE-T.
    Copper,
}

const SFP: u8 = 0x03;
/// An SFF module that is soldered in: no SFP, though of the same layout.
const SOLDERED: u8 = 0x02;

/// Lengths: single mode in km and in 100 m, then OM2, OM1, OM4, OM3 in 10 m.
const SHORT: [u8; 6] = [0, 0, 8, 3, 40, 30];
const SHORT_1G: [u8; 6] = [0, 0, 55, 27, 0, 0];
const MULTIMODE: [u8; 6] = [0, 0, 22, 22, 0, 22];
const LONG: [u8; 6] = [10, 100, 0, 0, 0, 0];

/// One for each kind that a module which answers can have, with either
/// multispeed flag where the kind allows both, and for each way to Unknown.
const PLANS: [Plan; 14] = [
    plan("dacu", SFP, "ST-10G-CU3M", Medium::Cable(3, 0x01), [0x00, 0x00, 0x04]),
    plan("daact", SFP, "ST-10G-ACU7M", Medium::Cable(7, 0x04), [0x00, 0x00, 0x08]),
    plan("sr", SFP, "ST-10G-SR", Medium::Ten(850, SHORT), [0x10, 0x00, 0x00]),
    plan("srsx", SFP, "ST-10G-SR-SX", Medium::Ten(850, SHORT), [0x10, 0x01, 0x00]),
    plan("lr", SFP, "ST-10G-LR", Medium::Ten(1310, LONG), [0x20, 0x00, 0x00]),
    plan("lrlx", SFP, "ST-10G-LR-LX", Medium::Ten(1310, LONG), [0x20, 0x02, 0x00]),
    plan("t", SFP, "ST-1G-T", Medium::Copper, [0x00, 0x08, 0x00]),
    plan("sx", SFP, "ST-1G-SX", Medium::One(850, SHORT_1G), [0x00, 0x01, 0x00]),
    plan("lx", SFP, "ST-1G-LX", Medium::One(1310, LONG), [0x00, 0x02, 0x00]),
    plan("bx10g", SFP, "ST-10G-BX", Medium::Ten(1270, LONG), [0x00, 0x00, 0x00]),
    plan("bx1g", SFP, "ST-1G-BX", Medium::One(1310, LONG), [0x00, 0x40, 0x00]),
    plan("lrm", SFP, "ST-10G-LRM", Medium::Ten(1310, MULTIMODE), [0x40, 0x00, 0x00]),
    plan("dalin", SFP, "ST-10G-ACL5M", Medium::Cable(5, 0x01), [0x10, 0x01, 0x08]),
    plan("sff", SOLDERED, "ST-10G-SR-SFF", Medium::Ten(850, SHORT), [0x10, 0x00, 0x00]),
];

const fn plan(
    name: &'static str,
    identifier: u8,
    part: &'static str,
    medium: Medium,
    codes: [u8; 3],
) -> Plan {
    Plan { name, identifier, part, medium, codes }
}

pub fn write(folder: &str) -> Result<(), String> {
    for (i, plan) in PLANS.iter().enumerate() {
        put(folder, plan.name, &[a0(plan, i + 1), a2(plan)].concat())?;
    }
    Ok(())
}

fn put(folder: &str, name: &str, bytes: &[u8]) -> Result<(), String> {
    let file = Path::new(folder).join(format!("{name}.bin"));
    fs::write(&file, bytes).map_err(|e| format!("{}: {e}", file.display()))
}

/// An image for `monitor`: its kind of calibration, what is measured
/// (temperature, supply, bias, output power and the count of received light)
/// and the coefficients, Rx_PWR(4) first.
type Light = (&'static str, u8, [u16; 5], [f32; 5]);

const LINE: [f32; 5] = [0.0, 0.0, 0.0, 1.0, 0.0];
const BENT: [f32; 5] = [1e-16, -2e-11, 1.5e-6, 0.98, -12.5];
const LIGHTS: [Light; 22] = [
    ("internal", INTERNAL, usual(0x2380, 4000), LINE),
    ("straight", EXTERNAL, usual(0x2380, 4000), LINE),
    ("curved", EXTERNAL, usual(0x1f41, 4000), BENT),
    ("negative", EXTERNAL, usual(0x1f41, 10), BENT),
    ("raw", 0, usual(0x2380, 4000), LINE),
    ("nan", EXTERNAL, usual(0x2380, 4000), [0.0, 0.0, f32::NAN, 1.0, 0.0]),
    ("infinite", EXTERNAL, usual(0x2380, 4000), [0.0, 0.0, 0.0, 1.0, f32::NEG_INFINITY]),
    ("overflow", EXTERNAL, usual(0x2380, 4000), [f32::MAX, 0.0, 0.0, 1.0, 0.0]),
    ("large", EXTERNAL, usual(0x2380, 4000), [1e20, 0.0, 0.0, 1.0, 0.0]),
    ("coldest", INTERNAL, usual(0x8000, 0), LINE),
    ("below0", INTERNAL, usual(0xffff, 1), LINE),
    ("hottest", INTERNAL, usual(0x7fff, 0xffff), LINE),
    ("lower", EXTERNAL, usual(0x2380, 4000), [-1e20, 0.0, 0.0, 1.0, 0.0]),
    ("minus0", EXTERNAL, usual(0x2380, 4000), [0.0, 0.0, 0.0, 0.0, -0.25]),
    ("near0", INTERNAL, usual(0x2380, 9999), LINE),
    ("faint", EXTERNAL, usual(0x2380, 4000), [0.0, 0.0, 0.0, 0.0, 0.5]),
    ("bright", EXTERNAL, usual(0x2380, 0xffff), [0.0, 0.0, 0.0, 1.0, 1.0]),
    ("zero", INTERNAL, usual(0, 10_000), LINE),
    ("full", EXTERNAL, usual(0x2380, 0xffff), LINE),
    ("strong", EXTERNAL, usual(0x2380, 4000), [0.0, 0.0, 0.0, 0.0, 1e9]),
    ("other", INTERNAL, [0x2380, 31874, 45678, 12347, 4000], LINE),
    ("dark", EXTERNAL, [0x2380, 0xffff, 0, 0, 4000], [0.0, 0.0, 0.0, 0.0, 0.499_999_97]),
];

/// What is measured, with the usual supply, bias and output power.
const fn usual(temperature: u16, count: u16) -> [u16; 5] {
    [temperature, 33001, 3001, 5000, count]
}

/// The images of `monitor`: those above in a 10GBASE-SR, and a cable, which has
/// no monitoring.
pub fn lights(folder: &str) -> Result<(), String> {
    let (cable, fibre) = (&PLANS[0], &PLANS[2]);
    put(folder, "absent", &[a0(cable, 101), a2(cable)].concat())?;
    for (i, (name, kind, measured, coefficients)) in LIGHTS.into_iter().enumerate() {
        let (mut first, mut second) = (a0(fibre, i + 102), a2(fibre));
        first[92] = MONITORED | kind | 0x08;
        first[95] = sum(&first[64..95]);
        for (four, c) in second[56..76].chunks_exact_mut(4).zip(coefficients) {
            four.copy_from_slice(&c.to_be_bytes());
        }
        second[95] = sum(&second[..95]);
        words(&mut second[96..106], &measured);
        put(folder, name, &[first, second].concat())?;
    }
    Ok(())
}

fn a0(plan: &Plan, number: usize) -> Page {
    let mut page = [0; 256];
    page[0] = plan.identifier;
    // Defined by the two-wire interface alone.
    page[1] = 0x04;
    [page[3], page[6], page[8]] = plan.codes;
    medium(&mut page, &plan.medium);
    text(&mut page[20..36], "SULFRYK TEST");
    // Bytes 37 to 39, the vendor's OUI, stay 0: unspecified.
    text(&mut page[40..56], plan.part);
    text(&mut page[56..60], "A");
    page[63] = sum(&page[..63]);
    text(&mut page[68..84], &format!("MADE{number:04}"));
    // Year, month, day and two bytes for the lot.
    text(&mut page[84..92], "250101");
    if optical(&plan.medium) {
        // TX_DISABLE, TX_FAULT and RX_LOS.
        page[65] = 0x1a;
        // Diagnostics, internally calibrated, average power; the flags and the
        // soft versions of the three signals; revision 12.3.
        page[92..95].copy_from_slice(&[0x68, 0xf0, 0x08]);
    }
    page[95] = sum(&page[64..95]);
    // The vendor's own bytes, as an erased memory; the rest is reserved.
    page[96..128].fill(0xff);
    page
}

/// The connector, the encoding, the rate in 100 MBd, the lengths and bytes 60
/// and 61.
fn medium(page: &mut Page, medium: &Medium) {
    const TEN: [u8; 2] = [0x06, 103];
    const ONE: [u8; 2] = [0x01, 13];
    let (connector, rate, lengths, at_60) = match *medium {
        Medium::Ten(nm, lengths) => (0x07, TEN, lengths, nm.to_be_bytes()),
        Medium::One(nm, lengths) => (0x07, ONE, lengths, nm.to_be_bytes()),
        Medium::Cable(m, at_60) => (0x21, [0x00, 103], [0, 0, 0, 0, m, 0], [at_60, 0]),
        Medium::Copper => (0x22, ONE, [0, 0, 0, 0, 100, 0], [0, 0]),
    };
    page[2] = connector;
    page[11..13].copy_from_slice(&rate);
    page[14..20].copy_from_slice(&lengths);
    page[60..62].copy_from_slice(&at_60);
}

fn optical(medium: &Medium) -> bool {
    matches!(medium, Medium::Ten(..) | Medium::One(..))
}

/// Without diagnostics an erased memory.
fn a2(plan: &Plan) -> Page {
    if !optical(&plan.medium) {
        return [0xff; 256];
    }
    let mut page = [0; 256];
    // High alarm, low alarm, high warning, low warning of each: temperature in
    // 1/256 degree, supply in 100 uV, bias in 2 uA, both powers in 0.1 uW.
    words(&mut page[0..8], &[85 << 8, 0xf600, 80 << 8, 0xfb00]);
    words(&mut page[8..16], &[36000, 30000, 35000, 31000]);
    words(&mut page[16..24], &[6000, 1000, 5500, 1500]);
    words(&mut page[24..32], &[12589, 1585, 10000, 1995]);
    words(&mut page[32..40], &[12589, 794, 10000, 1000]);
    // The fourth of the five coefficients of the received power is 1 and the
    // others 0; each slope is 1 and each offset 0.
    page[68..72].copy_from_slice(&1f32.to_be_bytes());
    words(&mut page[76..92], &[256, 0, 256, 0, 256, 0, 256, 0]);
    page[95] = sum(&page[..95]);
    // Temperature, supply, bias and powers as measured.
    words(&mut page[96..106], &[0x2380, 33000, 3000, 5000, 4000]);
    page
}

/// Padded with blanks.
fn text(field: &mut [u8], text: &str) {
    field.fill(b' ');
    field[..text.len()].copy_from_slice(text.as_bytes());
}

fn words(field: &mut [u8], words: &[u16]) {
    for (pair, word) in field.chunks_exact_mut(2).zip(words) {
        pair.copy_from_slice(&word.to_be_bytes());
    }
}

/// The low eight bits of the sum.
fn sum(bytes: &[u8]) -> u8 {
    bytes.iter().fold(0, |s, b| s.wrapping_add(*b))
}
