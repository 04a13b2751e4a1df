//! `measure CALL FAMILY WHO` records the answers of a bench module to the original's call, replays them to one of the two, and
//! fails where that makes another access or gives another result. WHO is `original` or `port`; the call stands in a function
//! `measured_original` or `measured_port`, inside which a counter of instructions is switched on. It prints how many accesses
//! were made, and how many microseconds they wait.

mod bench;
#[rustfmt::skip]
#[path = "../../compare/src/driver.rs"]
mod driver;
#[allow(dead_code)]
#[rustfmt::skip]
#[path = "../../../oracle/src/bench/module.rs"]
mod module;

use bench::{Bench, Replay, Step};
use driver::{Family, Port, original};
use module::{Module, Receiver, Stage, Wired};
use sulfryk::{Error, Registers, Sequence, i2c, sfp, sync};

#[derive(Clone, Copy)]
enum Call {
    Identify,
    ReadByte,
    WriteByte,
    SoftRateSelect,
    Acquire,
}

/// A record's fields, a byte, whether both bytes were written, or nothing.
type Said = Result<[u8; 6], Error<()>>;

fn byte(b: u8) -> [u8; 6] {
    [b, 0, 0, 0, 0, 0]
}

/// The original's call.
fn of_original<Io: Registers<Error = ()>>(io: &mut Io, call: Call, port: Port) -> Said {
    match call {
        Call::Identify => original::sfp::identify(io, port)
            .map(|m| [m.kind as u8, m.multispeed.into(), m.identifier, m.comp_10g, m.comp_1g, m.cable]),
        Call::ReadByte => original::i2c::read_byte(io, port, 0xa0, 12, 1, true).map(byte),
        Call::WriteByte => original::i2c::write_byte(io, port, 0xa2, 0x6e, 8, true).map(|()| byte(0)),
        Call::SoftRateSelect => original::sfp::soft_rate_select(io, port, true).map(|ok| byte(ok.into())),
        Call::Acquire => original::sync::acquire(io, port, original::sync::I2C0).map(|()| byte(0)),
    }
}

/// The port's, with the original's sequence.
fn of_port<Io: Registers<Error = ()>>(io: &mut Io, call: Call, port: Port) -> Said {
    let pulses = Sequence::Pulses;
    match call {
        Call::Identify => sfp::identify_with(io, port, pulses)
            .map(|m| [m.kind as u8, m.multispeed.into(), m.identifier, m.comp_10g, m.comp_1g, m.cable]),
        Call::ReadByte => i2c::read_byte_with(io, port, 0xa0, 12, 1, true, pulses).map(byte),
        Call::WriteByte => i2c::write_byte_with(io, port, 0xa2, 0x6e, 8, true, pulses).map(|()| byte(0)),
        Call::SoftRateSelect => sfp::soft_rate_select_with(io, port, true, pulses).map(|ok| byte(ok.into())),
        Call::Acquire => sync::acquire(io, port, sync::I2C0).map(|()| byte(0)),
    }
}

/// An idle module, 10GBASE-SR and 1000BASE-SX, both lines released.
fn idle(port: Port) -> Wired {
    let mut a0 = [0; 256];
    (a0[0], a0[3], a0[6]) = (0x03, 0x10, 0x01);
    let receiver = Receiver { stage: Stage::Idle, bits: 0, page: 0, offset_next: false, noted: true };
    let word = module::layout(port.family).released(0);
    Wired::new(port, word, 0, Module { pages: [a0, [0; 256]], offsets: [0; 2], receiver })
}

#[inline(never)]
#[unsafe(no_mangle)]
fn measured_original(io: &mut Replay, call: Call, port: Port) -> Said {
    of_original(io, call, port)
}

#[inline(never)]
#[unsafe(no_mangle)]
fn measured_port(io: &mut Replay, call: Call, port: Port) -> Said {
    of_port(io, call, port)
}

fn main() {
    let words: Vec<String> = std::env::args().skip(1).collect();
    let words: Vec<&str> = words.iter().map(String::as_str).collect();
    let [call, family, who] = words[..] else { panic!("measure CALL FAMILY WHO") };
    let call = match call {
        "identify" => Call::Identify,
        "read_byte" => Call::ReadByte,
        "write_byte" => Call::WriteByte,
        "soft_rate_select" => Call::SoftRateSelect,
        "acquire" => Call::Acquire,
        _ => panic!("identify, read_byte, write_byte, soft_rate_select or acquire"),
    };
    let family = match family {
        "82599" => Family::F82599,
        "X552" => Family::X552,
        _ => panic!("82599 or X552"),
    };
    let port = Port { family, device: 0x10fb, lan: 0 };
    let mut bench = Bench { wired: idle(port), trace: Vec::new() };
    let recorded = of_original(&mut bench, call, port);
    let trace = bench.trace;
    let mut io = Replay { trace: &trace, at: 0 };
    let said = match who {
        "original" => measured_original(&mut io, call, port),
        "port" => measured_port(&mut io, call, port),
        _ => panic!("original or port"),
    };
    assert!(said == recorded && io.at == trace.len(), "another result or other accesses than recorded");
    let waits: usize = trace.iter().map(|s| if let Step::Wait(n) = s { *n } else { 0 }).sum();
    println!("{} {waits}", trace.len());
}
