//! Transfers on the module bus, as the original's `i2c.rs` has them. `device` is an 8-bit address, which is even. With `lock`
//! a transfer takes the semaphore of the port's bus.

use crate::call::{Call, Metered, Sequence, number};
use crate::{Port, R, Registers, abi, numbers};

/// Read attempts for a byte other than the probe of the identifier: 4 on the X552 and the X553, else 11.
pub fn attempts(port: Port) -> usize {
    if port.family.x550em() { 4 } else { 11 }
}

/// Reads byte `offset` of `device`. With `lock` the semaphore is taken for each attempt, and a failed one waits 100 ms. More
/// than 255 attempts are refused.
pub fn read_byte<Io: Registers>(
    io: &mut Io,
    port: Port,
    device: u8,
    offset: u8,
    attempts: usize,
    lock: bool,
) -> R<u8, Io::Error> {
    read_byte_metered(io, port, device, offset, attempts, lock, None).result
}

/// [`read_byte`] with this sequence.
pub fn read_byte_with<Io: Registers>(
    io: &mut Io,
    port: Port,
    device: u8,
    offset: u8,
    attempts: usize,
    lock: bool,
    sequence: Sequence,
) -> R<u8, Io::Error> {
    read_byte_metered(io, port, device, offset, attempts, lock, Some(sequence)).result
}

/// [`read_byte`], metered.
pub fn read_byte_metered<Io: Registers>(
    io: &mut Io,
    port: Port,
    device: u8,
    offset: u8,
    attempts: usize,
    lock: bool,
    sequence: Option<Sequence>,
) -> Metered<R<u8, Io::Error>> {
    read_byte_open(port, device, offset, attempts, lock, sequence).run(io)
}

/// [`read_byte`], to be stepped.
pub fn read_byte_open(
    port: Port,
    device: u8,
    offset: u8,
    attempts: usize,
    lock: bool,
    sequence: Option<Sequence>,
) -> Call<u8> {
    let (family, pci, lan) = numbers(port);
    let attempts = crate::attempts(attempts);
    Call::of(abi::sulfryk_read_byte_open(family, pci, lan, device, offset, attempts, lock, number(sequence)))
}

/// Writes byte `offset` of `device`: 2 attempts, the semaphore held across both.
pub fn write_byte<Io: Registers>(
    io: &mut Io,
    port: Port,
    device: u8,
    offset: u8,
    value: u8,
    lock: bool,
) -> R<(), Io::Error> {
    write_byte_metered(io, port, device, offset, value, lock, None).result
}

/// [`write_byte`] with this sequence.
pub fn write_byte_with<Io: Registers>(
    io: &mut Io,
    port: Port,
    device: u8,
    offset: u8,
    value: u8,
    lock: bool,
    sequence: Sequence,
) -> R<(), Io::Error> {
    write_byte_metered(io, port, device, offset, value, lock, Some(sequence)).result
}

/// [`write_byte`], metered.
pub fn write_byte_metered<Io: Registers>(
    io: &mut Io,
    port: Port,
    device: u8,
    offset: u8,
    value: u8,
    lock: bool,
    sequence: Option<Sequence>,
) -> Metered<R<(), Io::Error>> {
    write_byte_open(port, device, offset, value, lock, sequence).run(io)
}

/// [`write_byte`], to be stepped.
pub fn write_byte_open(
    port: Port,
    device: u8,
    offset: u8,
    value: u8,
    lock: bool,
    sequence: Option<Sequence>,
) -> Call<()> {
    let (family, pci, lan) = numbers(port);
    Call::of(abi::sulfryk_write_byte_open(family, pci, lan, device, offset, value, lock, number(sequence)))
}

/// Reads the 16-bit register `reg`, of which 15 bits count, in the "combined" form with check bytes: 4 attempts, the semaphore
/// taken for each.
pub fn read_combined<Io: Registers>(
    io: &mut Io,
    port: Port,
    device: u8,
    reg: u16,
    lock: bool,
) -> R<u16, Io::Error> {
    read_combined_metered(io, port, device, reg, lock, None).result
}

/// [`read_combined`] with this sequence.
pub fn read_combined_with<Io: Registers>(
    io: &mut Io,
    port: Port,
    device: u8,
    reg: u16,
    lock: bool,
    sequence: Sequence,
) -> R<u16, Io::Error> {
    read_combined_metered(io, port, device, reg, lock, Some(sequence)).result
}

/// [`read_combined`], metered.
pub fn read_combined_metered<Io: Registers>(
    io: &mut Io,
    port: Port,
    device: u8,
    reg: u16,
    lock: bool,
    sequence: Option<Sequence>,
) -> Metered<R<u16, Io::Error>> {
    read_combined_open(port, device, reg, lock, sequence).run(io)
}

/// [`read_combined`], to be stepped.
pub fn read_combined_open(
    port: Port,
    device: u8,
    reg: u16,
    lock: bool,
    sequence: Option<Sequence>,
) -> Call<u16> {
    let (family, pci, lan) = numbers(port);
    Call::of(abi::sulfryk_read_combined_open(family, pci, lan, device, reg, lock, number(sequence)))
}

/// Writes the 16-bit register `reg` in the "combined" form: 2 attempts, the semaphore held across both.
pub fn write_combined<Io: Registers>(
    io: &mut Io,
    port: Port,
    device: u8,
    reg: u16,
    value: u16,
    lock: bool,
) -> R<(), Io::Error> {
    write_combined_metered(io, port, device, reg, value, lock, None).result
}

/// [`write_combined`] with this sequence.
pub fn write_combined_with<Io: Registers>(
    io: &mut Io,
    port: Port,
    device: u8,
    reg: u16,
    value: u16,
    lock: bool,
    sequence: Sequence,
) -> R<(), Io::Error> {
    write_combined_metered(io, port, device, reg, value, lock, Some(sequence)).result
}

/// [`write_combined`], metered.
pub fn write_combined_metered<Io: Registers>(
    io: &mut Io,
    port: Port,
    device: u8,
    reg: u16,
    value: u16,
    lock: bool,
    sequence: Option<Sequence>,
) -> Metered<R<(), Io::Error>> {
    write_combined_open(port, device, reg, value, lock, sequence).run(io)
}

/// [`write_combined`], to be stepped.
pub fn write_combined_open(
    port: Port,
    device: u8,
    reg: u16,
    value: u16,
    lock: bool,
    sequence: Option<Sequence>,
) -> Call<()> {
    let (family, pci, lan) = numbers(port);
    Call::of(abi::sulfryk_write_combined_open(family, pci, lan, device, reg, value, lock, number(sequence)))
}

/// Sets up ESDP for the handshake of the 82599's QSFP ports (PCI device 1558), once.
pub fn qsfp_setup<Io: Registers>(io: &mut Io) -> R<(), Io::Error> {
    qsfp_setup_open().run(io).result
}

/// [`qsfp_setup`], to be stepped.
pub fn qsfp_setup_open() -> Call<()> {
    Call::of(abi::sulfryk_qsfp_setup_open())
}
