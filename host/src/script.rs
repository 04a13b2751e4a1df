//! Scripts: a transfer by one-byte commands, made once, without lock. The original has no such call.
//!
//! | command | what it does |
//! |---|---|
//! | 10 | START |
//! | 20, and a byte | sends the byte, which is to be acknowledged |
//! | 30 | reads a byte and acknowledges it |
//! | 31 | reads a byte and does not |
//! | 40 | STOP |
//!
//! A script has 1 to 64 bytes: once or more START and an address, then bytes to send where that is even, or to read, the last
//! one by 31, where it is odd; and a STOP at the end.

use crate::call::{Call, Metered, Script};
use crate::{Port, R, Registers, abi, numbers};

/// Runs `script`; each byte that it reads is handed to `read`. After a failure the bus is cleared by the original's sequence.
pub fn run<Io: Registers>(
    io: &mut Io,
    port: Port,
    script: &[u8],
    read: impl FnMut(u8),
) -> Metered<R<(), Io::Error>> {
    open(port, script).run(io, script, read)
}

/// [`run`], to be stepped.
pub fn open(port: Port, script: &[u8]) -> Call<(), Script> {
    let (family, pci, lan) = numbers(port);
    // SAFETY: the bytes are lent for the opening alone, and only read.
    Call::of(unsafe { abi::sulfryk_script_open(family, pci, lan, script.as_ptr(), script.len()) })
}
