//! A host in Rust: identifies the bench module, which a reset stopped while it acknowledged a write, on port 0 of an 82599
//! whose locks all come at once, and prints the record. `bench.c` is the same in C.

use std::convert::Infallible;

use module::{Module, Receiver, Stage, Wired};
use sulfryk::{Family, Metered, Port, Registers, sfp};

/// What the bench module imports.
mod driver {
    pub use sulfryk::{Family, Port};
}

/// The bench module with the lines and I2CCTL, as the comparison with the original has it.
#[allow(dead_code)]
#[rustfmt::skip]
#[path = "../../oracle/src/bench/module.rs"]
mod module;

const SWSM: u32 = 0x10140;
/// SMBI clear, SWESMBI set: the semaphore is granted.
const GRANTED: u32 = 1 << 1;

/// The registers of the port: I2CCTL has the module at its lines, SWSM grants, every other one reads 0.
struct Host {
    wired: Wired,
    accesses: u32,
    waited: usize,
}

impl Registers for Host {
    type Error = Infallible;

    fn read(&mut self, register: u32) -> Result<u32, Infallible> {
        self.accesses += 1;
        Ok(match register {
            SWSM => GRANTED,
            _ if register == self.wired.layout.register => self.wired.read(),
            _ => 0,
        })
    }

    fn write(&mut self, register: u32, value: u32) -> Result<(), Infallible> {
        self.accesses += 1;
        if register == self.wired.layout.register {
            self.wired.write(value);
        }
        Ok(())
    }

    fn delay_us(&mut self, micros: usize) {
        self.accesses += 1;
        self.waited += micros;
    }
}

/// 10GBASE-SR and 1000BASE-SX, acknowledging a byte that was written to it; the next one would go to byte 20.
fn made() -> Module {
    let mut a0 = [0; 256];
    (a0[0], a0[3], a0[6]) = (0x03, 0x10, 0x01);
    let receiver = Receiver { stage: Stage::AckWrite, bits: 0, page: 0, offset_next: false, noted: true };
    Module { pages: [a0, [0; 256]], offsets: [0x20, 0], receiver }
}

fn main() {
    let port = Port { family: Family::F82599, device: 0x10fb, lan: 0 };
    let mut host = Host { wired: Wired::new(port, 0xa, 0, made()), accesses: 0, waited: 0 };
    let Metered { result, transfers, slowest } = sfp::identify_metered(&mut host, port, None);
    let record = match result {
        Ok(record) => record,
        Err(e) => return println!("failed: {e:?}"),
    };
    println!("kind        {:?}", record.kind);
    println!("multispeed  {}", if record.multispeed { "yes" } else { "no" });
    println!("identifier  {:02x}", record.identifier);
    println!("comp_10g    {:02x}", record.comp_10g);
    println!("comp_1g     {:02x}", record.comp_1g);
    println!("cable       {:02x}", record.cable);
    println!("transfers   {transfers}");
    println!("slowest     sample {slowest} of 10");
    println!("accesses    {}, waits of {} us", host.accesses, host.waited);
    let Wired { module, .. } = host.wired;
    let idle = if module.receiver.stage == Stage::Idle { "idle" } else { "not idle" };
    println!("module      {idle}, bytes {}", if module.pages == made().pages { "same" } else { "changed" });
}
