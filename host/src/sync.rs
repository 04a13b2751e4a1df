//! The semaphores that software and firmware share, as the original's `sync.rs` has them. One that is still held after the
//! bounded wait is never forced.

use crate::call::Call;
use crate::{Port, R, Registers, abi, numbers};

/// EEPROM.
pub const EEP: u32 = 1 << 0;
/// The PHY of port 0.
pub const PHY0: u32 = 1 << 1;
/// The PHY of port 1.
pub const PHY1: u32 = 1 << 2;
/// The MAC's registers.
pub const MAC_CSR: u32 = 1 << 3;
/// The firmware's host interface.
pub const SW_MNG: u32 = 1 << 10;
/// The I2C bus of port 0.
pub const I2C0: u32 = 1 << 11;
/// The I2C bus of port 1.
pub const I2C1: u32 = 1 << 12;
/// Both PHYs and both buses, which the X552 and the X553 share.
pub const SHARED_I2C: u32 = PHY0 | PHY1 | I2C0 | I2C1;
/// The X553's PHY token, which the firmware gives.
pub const TOKEN: u32 = 1 << 30;

/// The PHY of the port with this number.
pub fn phy(lan: u8) -> u32 {
    if lan == 1 { PHY1 } else { PHY0 }
}

/// Takes `mask`; with [`TOKEN`] its other bits and then the firmware's token.
pub fn acquire<Io: Registers>(io: &mut Io, port: Port, mask: u32) -> R<(), Io::Error> {
    acquire_open(port, mask).run(io).result
}

/// [`acquire`], to be stepped.
pub fn acquire_open(port: Port, mask: u32) -> Call<()> {
    let (family, pci, lan) = numbers(port);
    Call::of(abi::sulfryk_acquire_open(family, pci, lan, mask))
}

/// Gives `mask` back: the token first, and the other bits even if that failed.
pub fn release<Io: Registers>(io: &mut Io, port: Port, mask: u32) -> R<(), Io::Error> {
    release_open(port, mask).run(io).result
}

/// [`release`], to be stepped.
pub fn release_open(port: Port, mask: u32) -> Call<()> {
    let (family, pci, lan) = numbers(port);
    Call::of(abi::sulfryk_release_open(family, pci, lan, mask))
}

/// Runs `f` with `mask` held, which is given back whether or not `f` succeeded. The failure of `f` goes before that of the
/// release.
pub fn locked<Io: Registers, T>(
    io: &mut Io,
    port: Port,
    mask: u32,
    f: impl FnOnce(&mut Io) -> R<T, Io::Error>,
) -> R<T, Io::Error> {
    acquire(io, port, mask)?;
    let result = f(io);
    let released = release(io, port, mask);
    let value = result?;
    released?;
    Ok(value)
}
