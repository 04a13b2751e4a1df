//! Light and temperature. The original has no such call: each byte is one
//! locked `read_byte` of it, and the rest is worked out here, in Rust's f32.

use crate::answers::{Fnv, Stream};
use crate::driver::{i2c, Error, Port, Registers};

/// The most bytes: 92 of A0, then 96 to 105 and 56 to 75 of A2.
pub const BYTES: usize = 31;

/// What is not finite, by number.
pub const COEFFICIENT: u32 = 28;
pub const RESULT: u32 = 29;

/// Bits of byte 92.
pub const MONITORED: u8 = 0x40;
pub const INTERNAL: u8 = 0x20;
pub const EXTERNAL: u8 = 0x10;

/// The choices for a coefficient: the bits of the stream that stay, and those
/// that are set.
pub const ZERO: u32 = 1;
pub const MINUS_ZERO: u32 = 2;
pub const ONE: u32 = 3;
pub const SUBNORMAL: u32 = 5;
pub const LARGEST: u32 = 7;
pub const MINUS_LARGEST: u32 = 8;
pub const INFINITE: u32 = 9;
pub const NAN: u32 = 10;
pub const FINITE: u32 = 11;
pub const NEAR_ONE: u32 = 12;
pub const SMALL: u32 = 13;
pub const LARGE: u32 = 14;
pub const CHOICES: [(u32, u32); 16] = [
    (0xffff_ffff, 0),
    (0, 0),
    (0, 0x8000_0000),
    (0, 0x3f80_0000),
    (0, 0xbf80_0000),
    (0x807f_ffff, 0),
    (0, 1),
    (0, 0x7f7f_ffff),
    (0, 0xff7f_ffff),
    (0x8000_0000, 0x7f80_0000),
    (0x807f_ffff, 0x7f80_0001),
    (0xff7f_ffff, 0),
    (0x83ff_ffff, 0x3c00_0000),
    (0x8fff_ffff, 0x2000_0000),
    (0x8f7f_ffff, 0x7000_0000),
    (0x8000_0000, 0x0080_0000),
];

/// The choices for the temperature and for the count of received light; any of
/// the stream's comes first.
const TEMPERATURES: [(u16, u16); 4] = [(0xffff, 0), (0, 0x8000), (0, 0xffff), (0, 0x7fff)];
const COUNTS: [(u16, u16); 4] = [(0xffff, 0), (0, 0), (0, 1), (0, 0xffff)];

/// What the module sends, but for the seed of its stream.
#[derive(Clone, Copy)]
pub struct Shape {
    /// Byte 92.
    pub kind: u8,
    pub temperature: u32,
    pub count: u32,
    /// Rx_PWR(4) first.
    pub coefficients: [u32; 5],
}

impl Shape {
    pub fn number(self) -> u32 {
        let low = u32::from(self.kind) | self.temperature << 8 | self.count << 10;
        (0..).zip(self.coefficients).fold(low, |number, (i, choice)| number | choice << (12 + 4 * i))
    }

    fn of(number: u32) -> Self {
        Shape {
            kind: number as u8,
            temperature: number >> 8 & 3,
            count: number >> 10 & 3,
            coefficients: [12, 16, 20, 24, 28].map(|shift| number >> shift & 15),
        }
    }
}

/// The bytes in the order of their requests.
pub fn bytes(seed: u32, shape: u32) -> Vec<u8> {
    let shape = Shape::of(shape);
    let mut stream = Stream::new(seed);
    let mut bytes: Vec<u8> = (0..BYTES).map(|_| stream.next() as u8).collect();
    bytes[0] = shape.kind;
    for (at, (and, or)) in [(1, TEMPERATURES[shape.temperature as usize]), (9, COUNTS[shape.count as usize])]
    {
        let word = u16::from_be_bytes([bytes[at], bytes[at + 1]]) & and | or;
        bytes[at..at + 2].copy_from_slice(&word.to_be_bytes());
    }
    for (four, choice) in bytes[11..].chunks_mut(4).zip(shape.coefficients) {
        let (and, or) = CHOICES[choice as usize];
        let pattern = u32::from_be_bytes([four[0], four[1], four[2], four[3]]) & and | or;
        four.copy_from_slice(&pattern.to_be_bytes());
    }
    bytes
}

pub enum Reading {
    Internal(u16),
    Calibrated(f32),
    Absent,
}

pub struct Measures {
    pub temperature: i16,
    pub voltage: u16,
    pub bias: u16,
    pub sent: u16,
    pub reading: Reading,
}

impl Measures {
    /// The reading's count or bit pattern; the sum over the other values, the
    /// temperature with 32,768 added, and the kind of the reading.
    pub fn values(&self) -> [u32; 3] {
        let (kind, pattern) = match self.reading {
            Reading::Internal(count) => (0, count.into()),
            Reading::Calibrated(power) => (1, power.to_bits()),
            Reading::Absent => (2, 0),
        };
        let temperature = (i32::from(self.temperature) + 0x8000) as u32;
        let words = [temperature, self.voltage.into(), self.bias.into(), self.sent.into(), kind];
        [pattern, Fnv::over(&words), 0]
    }
}

/// The call: what the module says, or the number of what is not finite.
pub fn read<Io: Registers>(
    io: &mut Io,
    port: Port,
    attempts: usize,
) -> Result<Result<Measures, u32>, Error<Io::Error>> {
    let mut byte = |device, offset| i2c::read_byte(io, port, device, offset, attempts, true);
    let kind = byte(0xa0, 92)?;
    if kind & MONITORED == 0 {
        return Ok(Ok(Measures { temperature: 0, voltage: 0, bias: 0, sent: 0, reading: Reading::Absent }));
    }
    let mut words = [0; 5];
    for (word, offset) in words.iter_mut().zip((96..).step_by(2)) {
        *word = u16::from_be_bytes([byte(0xa2, offset)?, byte(0xa2, offset + 1)?]);
    }
    let [temperature, voltage, bias, sent, received] = words;
    let measures = |reading| Measures { temperature: temperature as i16, voltage, bias, sent, reading };
    if kind & EXTERNAL != 0 {
        let mut patterns = [0; 5];
        for (pattern, first) in patterns.iter_mut().zip((56..).step_by(4)) {
            let mut four = [0; 4];
            for (place, offset) in four.iter_mut().zip(first..) {
                *place = byte(0xa2, offset)?;
            }
            *pattern = u32::from_be_bytes(four);
        }
        return Ok(power(patterns, received).map(|power| measures(Reading::Calibrated(power))));
    }
    let reading = if kind & INTERNAL != 0 { Reading::Internal(received) } else { Reading::Absent };
    Ok(Ok(measures(reading)))
}

/// Horner's rule from Rx_PWR(4) on, each product and each sum rounded once. A
/// pattern with the exponent all ones is told before a float is made of it.
pub fn power(patterns: [u32; 5], count: u16) -> Result<f32, u32> {
    if patterns.iter().any(|pattern| pattern >> 23 & 0xff == 0xff) {
        return Err(COEFFICIENT);
    }
    let [c4, c3, c2, c1, c0] = patterns.map(f32::from_bits);
    let x = f32::from(count);
    let mut power = c4;
    for c in [c3, c2, c1, c0] {
        let product = power * x;
        power = product + c;
    }
    if power.is_finite() {
        Ok(power)
    } else {
        Err(RESULT)
    }
}
