//! What a module says of its light and temperature (SFF-8472), and levels of light. The original has no such calls.

use crate::call::{Call, Metered, Sequence, Value, number};
use crate::{Port, R, Registers, abi, numbers};

/// The received power.
#[derive(Clone, Copy, Debug, PartialEq)]
pub enum Reading {
    /// The module's count of 0.1 µW.
    Internal(u16),
    /// The module is calibrated externally: the power in 0.1 µW by its coefficients, finite.
    Calibrated(f32),
    /// The module says nothing of it.
    Absent,
}

/// What the module measures; all 0 where it is not monitored.
#[derive(Clone, Copy, Debug, PartialEq)]
pub struct Measures {
    /// In 1/256 degree Celsius.
    pub temperature: i16,
    /// Of the supply, in 100 µV.
    pub voltage: u16,
    /// Of the laser, in 2 µA.
    pub bias: u16,
    /// The power sent, in 0.1 µW.
    pub sent: u16,
    /// The power received.
    pub reading: Reading,
}

/// All bytes were read, and no power can be made of them.
#[derive(Clone, Copy, Debug, PartialEq, Eq)]
pub enum NotFinite {
    /// A coefficient is infinite or no number.
    Coefficient,
    /// The power is.
    Power,
}

impl Value for Result<Measures, NotFinite> {
    fn of(next: &abi::Next) -> Self {
        Ok(Measures {
            temperature: next.temperature,
            voltage: next.first as u16,
            bias: next.second as u16,
            sent: next.third as u16,
            reading: reading(next.fourth, next.fifth),
        })
    }

    fn failed(number: u32) -> Option<Self> {
        match number {
            28 => Some(Err(NotFinite::Coefficient)),
            29 => Some(Err(NotFinite::Power)),
            _ => None,
        }
    }
}

fn reading(kind: u32, value: u32) -> Reading {
    match kind {
        0 => Reading::Internal(value as u16),
        1 => Reading::Calibrated(f32::from_bits(value)),
        // 2; only an archive that is not this crate's has others.
        _ => Reading::Absent,
    }
}

/// Reads light and temperature, each byte by one locked [`read_byte`](crate::i2c::read_byte) with so many attempts.
pub fn light<Io: Registers>(
    io: &mut Io,
    port: Port,
    attempts: usize,
) -> Metered<R<Result<Measures, NotFinite>, Io::Error>> {
    light_open(port, attempts, None).run(io)
}

/// [`light`](light()) with this sequence.
pub fn light_with<Io: Registers>(
    io: &mut Io,
    port: Port,
    attempts: usize,
    sequence: Sequence,
) -> Metered<R<Result<Measures, NotFinite>, Io::Error>> {
    light_open(port, attempts, Some(sequence)).run(io)
}

/// [`light`](light()), to be stepped.
pub fn light_open(
    port: Port,
    attempts: usize,
    sequence: Option<Sequence>,
) -> Call<Result<Measures, NotFinite>> {
    let (family, pci, lan) = numbers(port);
    Call::of(abi::sulfryk_light_open(family, pci, lan, crate::attempts(attempts), number(sequence)))
}

/// The level of a power, given as a count of 0.1 µW, in tenths of a dBm, rounded down; none of the count 0.
pub fn level(count: u16) -> Option<i16> {
    let level = abi::sulfryk_level(count);
    (level.number == 0).then_some(level.tenths)
}
