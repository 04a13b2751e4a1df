//! The original below a parent of ours, over the crate's `Registers`, `Error`, `Family` and `Port`: as it is, and with the
//! clearing sequence by name and the meter.

#[allow(unused_imports)]
pub use sulfryk::{Family, Port};

/// The items that the original's files import from `super`, with the meaning that they have in its `hardware.rs`.
macro_rules! wrapped {
    ($file:literal) => {
        use sulfryk::{Error, Family, Port, R, Registers};

        const STATUS: u32 = 0x00008;
        const ESDP: u32 = 0x00020;

        fn read<Io: Registers>(io: &mut Io, reg: u32) -> R<u32, Io::Error> {
            match io.read(reg) {
                Ok(u32::MAX) => Err(Error::Removed),
                Ok(value) => Ok(value),
                Err(e) => Err(Error::Io(e)),
            }
        }

        fn write<Io: Registers>(io: &mut Io, reg: u32, value: u32) -> R<(), Io::Error> {
            io.write(reg, value).map_err(Error::Io)
        }

        fn flush<Io: Registers>(io: &mut Io) -> R<(), Io::Error> {
            match io.read(STATUS) {
                Ok(_) => Ok(()),
                Err(e) => Err(Error::Io(e)),
            }
        }

        fn delay_ms<Io: Registers>(io: &mut Io, ms: usize) {
            io.delay_us(1000 * ms)
        }

        include!(concat!(env!("OUT_DIR"), $file));
    };
}

pub mod original {
    wrapped!("/original.rs");
}

pub mod changed {
    wrapped!("/changed.rs");
}
