//! The original's calls over registers that are elsewhere, as one object whose size is compared.

use sulfryk::{Error, Registers};

#[rustfmt::skip]
#[path = "../../compare/src/driver.rs"]
mod driver;
use driver::Port;
use driver::original::{hostif, i2c, sfp, sync};

/// Registers behind symbols that nothing here defines.
pub struct Elsewhere;

unsafe extern "C" {
    safe fn elsewhere_read(register: u32) -> u64;
    safe fn elsewhere_write(register: u32, value: u32) -> bool;
    safe fn elsewhere_wait(micros: usize);
}

impl Registers for Elsewhere {
    type Error = ();

    fn read(&mut self, register: u32) -> Result<u32, ()> {
        u32::try_from(elsewhere_read(register)).map_err(|_| ())
    }

    fn write(&mut self, register: u32, value: u32) -> Result<(), ()> {
        if elsewhere_write(register, value) { Ok(()) } else { Err(()) }
    }

    fn delay_us(&mut self, micros: usize) {
        elsewhere_wait(micros)
    }
}

type R<T> = Result<T, Error<()>>;

macro_rules! original {
    ($($name:ident($($arg:ident: $kind:ty),*) -> $value:ty = $call:path;)*) => {
        $(#[unsafe(no_mangle)]
        pub fn $name($($arg: $kind),*) -> R<$value> {
            $call(&mut Elsewhere, $($arg),*)
        })*
    };
}

original! {
    original_read_byte(port: Port, device: u8, offset: u8, attempts: usize, lock: bool) -> u8 = i2c::read_byte;
    original_write_byte(port: Port, device: u8, offset: u8, value: u8, lock: bool) -> () = i2c::write_byte;
    original_read_combined(port: Port, device: u8, reg: u16, lock: bool) -> u16 = i2c::read_combined;
    original_write_combined(port: Port, device: u8, reg: u16, value: u16, lock: bool) -> () = i2c::write_combined;
    original_qsfp_setup() -> () = i2c::qsfp_setup;
    original_identify(port: Port) -> sfp::Module = sfp::identify;
    original_identify_qsfp(port: Port) -> sfp::Module = sfp::identify_qsfp;
    original_soft_rate_select(port: Port, ten: bool) -> bool = sfp::soft_rate_select;
    original_acquire(port: Port, mask: u32) -> () = sync::acquire;
    original_release(port: Port, mask: u32) -> () = sync::release;
    original_command(port: Port, block: &mut [u32]) -> u8 = hostif::command;
    original_token(port: Port, take: bool) -> bool = hostif::token;
}
