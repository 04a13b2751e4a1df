//! Pages of 96 bytes. The original has no such call: each byte is one locked
//! `read_byte` of it.

use crate::answers::Stream;
use crate::driver::{i2c, Error, Port, Registers};

pub const BYTES: usize = 96;
/// Bytes of the lent buffer; byte i begins as 255 - i.
pub const BUFFER: u8 = 100;

/// The sums by number, where they are wrong.
pub const FIRST_SUM: u32 = 26;
pub const SECOND_SUM: u32 = 27;

/// What the module sends: the outputs of a stream of its own, and the two
/// check bytes, one too high where `shape` has 1 (the first) or 2.
pub fn bytes(seed: u32, shape: u32) -> Vec<u8> {
    let mut stream = Stream::new(seed);
    let mut page: Vec<u8> = (0..BYTES).map(|_| stream.next() as u8).collect();
    page[63] = sum(&page[..63]).wrapping_add((shape & 1) as u8);
    page[95] = sum(&page[64..95]).wrapping_add((shape >> 1 & 1) as u8);
    page
}

fn sum(bytes: &[u8]) -> u8 {
    bytes.iter().fold(0, |sum, b| sum.wrapping_add(*b))
}

/// The number of the first sum that is wrong, or 0.
pub fn judged(page: &[u8]) -> u32 {
    if sum(&page[..63]) != page[63] {
        return FIRST_SUM;
    }
    if sum(&page[64..95]) != page[95] {
        return SECOND_SUM;
    }
    0
}

/// Bytes `first` and on into the buffer; those before a failure stand.
pub fn read<Io: Registers>(
    io: &mut Io,
    port: Port,
    first: u8,
    attempts: usize,
    buffer: &mut [u8],
) -> Result<(), Error<Io::Error>> {
    for (place, byte) in (0..).zip(&mut buffer[..BYTES]) {
        *byte = i2c::read_byte(io, port, 0xa0, first + place, attempts, true)?;
    }
    Ok(())
}
