//! The calls of the module bus of a family of network controllers (82599, X540, X550, X552, X553), proved in Rattle, for a boot
//! driver in Rust. They have the names and signatures of the original driver's [`i2c`], [`sfp`], [`sync`] and [`hostif`], and
//! run over the driver's [`Registers`].
//!
//! In a driver
//!
//! ```
//! pub use sulfryk::{Error, Family, Port, Registers, i2c, sfp, sync};
//! pub mod hostif {
//!     pub use sulfryk::hostif::*; // and the driver's own `phy_activity`, which is made of `command`
//! }
//! ```
//!
//! takes the place of its own modules and types of these names.
//!
//! A call has up to four forms:
//!
//! - `identify`: the original's signature;
//! - `identify_with`: the same with a clearing [`Sequence`] by name;
//! - `identify_metered`: the result with the count of transfers and the slowest acknowledgement, as [`Metered`];
//! - `identify_open`: a [`Call`], which the host steps itself, one access at a time.
//!
//! The last two take `None` for the default sequence. [`pages`], [`light`] and [`script`] have calls that the original has not.
//!
//! What is proved is the archive behind the calls. This crate is the loop over it, the names of its numbers, and the few plain
//! functions: [`Module`](sfp::Module)'s methods, [`i2c::attempts`], [`sync::phy`], [`sync::locked`].
//!
//! The archive is linked statically. It needs no other symbol, keeps nothing between calls, and takes numbers by value and
//! slices that are lent for one step. It is for x86-64, has the System V calling convention on every target, and uses the red
//! zone below its stack pointer: an interrupt handler that runs on the same stack must leave that alone.
//!
//! # Linking
//!
//! The archive holds an ELF object, which an ELF linker takes. The linker of `x86_64-unknown-uefi` (`lld-link`) does not take it
//! as it is. It was linked there after it had been put into one section, by `ld -T` with a script that has `.text*` and
//! `.rodata*` in one `.text` and discards the rest, and converted by `objcopy -O pe-x86-64 --strip-debug`; tried by loading the
//! image on Linux, not under UEFI.
#![no_std]
#![deny(missing_docs)]

#[rustfmt::skip]
#[allow(missing_docs)]
mod abi;
pub mod call;
mod hardware;
pub mod hostif;
pub mod i2c;
pub mod light;
pub mod pages;
pub mod script;
pub mod sfp;
pub mod sync;

pub use call::{Access, Answer, Call, Metered, Next, Sequence};
pub use hardware::{Error, Family, Port, R, Registers};

/// Family, PCI device and port number as an opening takes them.
fn numbers(port: Port) -> (u32, u16, u32) {
    (port.family as u32, port.device, port.lan.into())
}

/// Attempts as an opening takes them: a number too large stays too large, and is refused.
fn attempts(attempts: usize) -> u32 {
    u32::try_from(attempts).unwrap_or(u32::MAX)
}
