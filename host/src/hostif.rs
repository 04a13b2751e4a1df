//! Firmware commands, as the original's `hostif.rs` has them.

use crate::call::{Block, Call};
use crate::{Port, R, Registers, abi, numbers};

/// The command that asks for the X553's PHY token or gives it back.
pub const TOKEN_COMMAND: u8 = 0x0a;
/// Its status where the firmware is busy.
pub const TOKEN_BUSY: u8 = 0x80;

/// One command: `block`, 1 to 64 words with the header first, is handed to the firmware, and the response is read back into
/// it. The result is the response's status. Holds [`SW_MNG`](crate::sync::SW_MNG).
pub fn command<Io: Registers>(io: &mut Io, port: Port, block: &mut [u32]) -> R<u8, Io::Error> {
    command_open(port, block).run(io, block).result
}

/// [`command`], to be stepped.
pub fn command_open(port: Port, block: &[u32]) -> Call<u8, Block> {
    let (family, pci, lan) = numbers(port);
    // SAFETY: the words are lent for the opening alone, and only read.
    Call::of(unsafe { abi::sulfryk_command_open(family, pci, lan, block.as_ptr(), block.len()) })
}

/// Asks for the X553's PHY token (`take`) or gives it back. False: the firmware is busy.
pub fn token<Io: Registers>(io: &mut Io, port: Port, take: bool) -> R<bool, Io::Error> {
    token_open(port, take).run(io).result
}

/// [`token`], to be stepped.
pub fn token_open(port: Port, take: bool) -> Call<bool> {
    let (family, pci, lan) = numbers(port);
    Call::of(abi::sulfryk_token_open(family, pci, lan, take))
}
