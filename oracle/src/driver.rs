//! The original below a parent of ours: here are the items that its files
//! import from `super`, with the meaning they have in its `hardware.rs`.

pub const STATUS: u32 = 0x00008;
pub const ESDP: u32 = 0x00020;

/// What touches the registers; the answers of a case stand behind it.
pub trait Registers {
    type Error;
    fn read(&mut self, offset: u32) -> Result<u32, Self::Error>;
    fn write(&mut self, offset: u32, value: u32) -> Result<(), Self::Error>;
    fn delay_us(&mut self, micros: usize);
}

/// The failures that these four files can give.
#[derive(Debug)]
pub enum Error<E> {
    Io(E),
    Removed,
    Semaphore { held: u32 },
    I2c { device: u8 },
    HostInterface { hicr: u32 },
    Firmware { command: u8, status: u8 },
}

#[derive(Clone, Copy, Debug, PartialEq, Eq)]
pub enum Family {
    F82599,
    X540,
    X550,
    X552,
    X553,
}

/// `device` is the PCI device number, `lan` the port number 0 or 1.
#[derive(Clone, Copy, Debug)]
pub struct Port {
    pub family: Family,
    pub device: u16,
    pub lan: u8,
}

type R<T, E> = Result<T, Error<E>>;

/// A checked read: all ones is what a card that is gone answers.
fn read<Io: Registers>(io: &mut Io, reg: u32) -> R<u32, Io::Error> {
    match io.read(reg) {
        Ok(u32::MAX) => Err(Error::Removed),
        Ok(value) => Ok(value),
        Err(e) => Err(Error::Io(e)),
    }
}

fn write<Io: Registers>(io: &mut Io, reg: u32, value: u32) -> R<(), Io::Error> {
    io.write(reg, value).map_err(Error::Io)
}

/// A raw read of STATUS, whose value does not matter.
fn flush<Io: Registers>(io: &mut Io) -> R<(), Io::Error> {
    match io.read(STATUS) {
        Ok(_) => Ok(()),
        Err(e) => Err(Error::Io(e)),
    }
}

fn delay_ms<Io: Registers>(io: &mut Io, ms: usize) {
    io.delay_us(1000 * ms)
}

include!(concat!(env!("OUT_DIR"), "/original.rs"));
