//! Whole pages of a module, 96 bytes, each read by one locked [`read_byte`](crate::i2c::read_byte). The original has no such
//! calls.

use crate::call::{Call, Metered, Page, Sequence, Value, number};
use crate::{Port, R, Registers, abi, numbers};

/// The bytes of a page; a buffer has at least so many.
pub const BYTES: usize = 96;

/// All bytes were read, and a check byte is wrong.
#[derive(Clone, Copy, Debug, PartialEq, Eq)]
pub enum WrongSum {
    /// Byte 63, of bytes 0 to 62.
    First,
    /// Byte 95, of bytes 64 to 94; the first is right.
    Second,
}

impl Value for Result<(), WrongSum> {
    fn of(_: &abi::Next) -> Self {
        Ok(())
    }

    fn failed(number: u32) -> Option<Self> {
        match number {
            26 => Some(Err(WrongSum::First)),
            27 => Some(Err(WrongSum::Second)),
            _ => None,
        }
    }
}

/// Reads bytes 0 to 95 of page A0 into the first 96 of `buffer`; those before a failure stand. The result says whether both
/// check bytes are right.
pub fn page<Io: Registers>(
    io: &mut Io,
    port: Port,
    attempts: usize,
    buffer: &mut [u8],
) -> Metered<R<Result<(), WrongSum>, Io::Error>> {
    page_open(port, attempts, buffer, None).run(io, buffer)
}

/// [`page`] with this sequence.
pub fn page_with<Io: Registers>(
    io: &mut Io,
    port: Port,
    attempts: usize,
    buffer: &mut [u8],
    sequence: Sequence,
) -> Metered<R<Result<(), WrongSum>, Io::Error>> {
    page_open(port, attempts, buffer, Some(sequence)).run(io, buffer)
}

/// [`page`], to be stepped.
pub fn page_open(
    port: Port,
    attempts: usize,
    buffer: &[u8],
    sequence: Option<Sequence>,
) -> Call<Result<(), WrongSum>, Page> {
    let (family, pci, lan) = numbers(port);
    let attempts = crate::attempts(attempts);
    let (first, len) = (buffer.as_ptr(), buffer.len());
    // SAFETY: the bytes are lent for the opening alone, and only read.
    Call::of(unsafe { abi::sulfryk_page_open(family, pci, lan, attempts, first, len, number(sequence)) })
}

/// The same of a QSFP: bytes 128 to 223.
pub fn qsfp_page<Io: Registers>(
    io: &mut Io,
    port: Port,
    attempts: usize,
    buffer: &mut [u8],
) -> Metered<R<Result<(), WrongSum>, Io::Error>> {
    qsfp_page_open(port, attempts, buffer, None).run(io, buffer)
}

/// [`qsfp_page`] with this sequence.
pub fn qsfp_page_with<Io: Registers>(
    io: &mut Io,
    port: Port,
    attempts: usize,
    buffer: &mut [u8],
    sequence: Sequence,
) -> Metered<R<Result<(), WrongSum>, Io::Error>> {
    qsfp_page_open(port, attempts, buffer, Some(sequence)).run(io, buffer)
}

/// [`qsfp_page`], to be stepped.
pub fn qsfp_page_open(
    port: Port,
    attempts: usize,
    buffer: &[u8],
    sequence: Option<Sequence>,
) -> Call<Result<(), WrongSum>, Page> {
    let (family, pci, lan) = numbers(port);
    let attempts = crate::attempts(attempts);
    let (first, len) = (buffer.as_ptr(), buffer.len());
    // SAFETY: the bytes are lent for the opening alone, and only read.
    Call::of(unsafe { abi::sulfryk_qsfp_page_open(family, pci, lan, attempts, first, len, number(sequence)) })
}
