//! The calls in the original, as it is and as changed.

use sulfryk::light::NotFinite;
use sulfryk::pages::WrongSum;
use sulfryk::{R, Registers, Sequence};

use crate::case::{Call, Came, Case, Value, buffer};
use crate::driver;

/// The sums of a page.
fn judged(page: &[u8]) -> Result<(), WrongSum> {
    let sum = |bytes: &[u8]| bytes.iter().fold(0u8, |sum, b| sum.wrapping_add(*b));
    if sum(&page[..63]) != page[63] {
        return Err(WrongSum::First);
    }
    if sum(&page[64..95]) != page[95] {
        return Err(WrongSum::Second);
    }
    Ok(())
}

/// Light and temperature by a function that reads a byte of a device.
fn light<E>(mut byte: impl FnMut(u8, u8) -> R<u8, E>) -> R<Result<[u32; 6], NotFinite>, E> {
    let kind = byte(0xa0, 92)?;
    if kind & 0x40 == 0 {
        return Ok(Ok([0, 0, 0, 0, 2, 0]));
    }
    let mut words = [0; 5];
    for (word, offset) in words.iter_mut().zip((96..).step_by(2)) {
        *word = u16::from_be_bytes([byte(0xa2, offset)?, byte(0xa2, offset + 1)?]);
    }
    let [temperature, voltage, bias, sent, received] = words;
    let measures =
        |kind, value| [temperature as i16 as u32, voltage.into(), bias.into(), sent.into(), kind, value];
    if kind & 0x10 == 0 {
        return Ok(Ok(if kind & 0x20 == 0 { measures(2, 0) } else { measures(0, received.into()) }));
    }
    let mut patterns = [0; 5];
    for (pattern, first) in patterns.iter_mut().zip((56..).step_by(4)) {
        let mut four = [0; 4];
        for (place, offset) in four.iter_mut().zip(first..) {
            *place = byte(0xa2, offset)?;
        }
        *pattern = u32::from_be_bytes(four);
    }
    Ok(power(patterns, received).map(|power| measures(1, power.to_bits())))
}

/// Horner's rule from the first coefficient on. One that is not finite is told by its bits.
fn power(patterns: [u32; 5], count: u16) -> Result<f32, NotFinite> {
    if patterns.iter().any(|pattern| pattern >> 23 & 0xff == 0xff) {
        return Err(NotFinite::Coefficient);
    }
    let [mut power, rest @ ..] = patterns.map(f32::from_bits);
    for coefficient in rest {
        let product = power * f32::from(count);
        power = product + coefficient;
    }
    if power.is_finite() { Ok(power) } else { Err(NotFinite::Power) }
}

macro_rules! calls {
    ($name:ident) => {
        fn $name<Io: Registers<Error = u32>>(io: &mut Io, case: &Case) -> Came {
            use driver::$name::{hostif, i2c, sfp, sync};
            let record = |m: sfp::Module| {
                let multispeed = m.multispeed.into();
                Value::Module([m.kind as u8, multispeed, m.identifier, m.comp_10g, m.comp_1g, m.cable])
            };
            let port = case.port;
            let (mut words, mut bytes) = (Vec::new(), Vec::new());
            let result = match &case.call {
                &Call::ReadByte { device, offset, attempts, lock } => {
                    i2c::read_byte(io, port, device, offset, attempts, lock).map(Value::Byte)
                }
                &Call::WriteByte { device, offset, value, lock } => {
                    i2c::write_byte(io, port, device, offset, value, lock).map(|()| Value::Done)
                }
                &Call::ReadCombined { device, reg, lock } => {
                    i2c::read_combined(io, port, device, reg, lock).map(Value::Word)
                }
                &Call::WriteCombined { device, reg, value, lock } => {
                    i2c::write_combined(io, port, device, reg, value, lock).map(|()| Value::Done)
                }
                Call::QsfpSetup => i2c::qsfp_setup(io).map(|()| Value::Done),
                Call::Identify => sfp::identify(io, port).map(record),
                Call::IdentifyQsfp => sfp::identify_qsfp(io, port).map(record),
                &Call::SoftRateSelect { ten } => sfp::soft_rate_select(io, port, ten).map(Value::Flag),
                &Call::Acquire { mask } => sync::acquire(io, port, mask).map(|()| Value::Done),
                &Call::Release { mask } => sync::release(io, port, mask).map(|()| Value::Done),
                &Call::Locked { mask, body } => {
                    sync::locked(io, port, mask, |io| body.run(io)).map(Value::Byte)
                }
                Call::Command { block } => {
                    words = block.clone();
                    hostif::command(io, port, &mut words).map(Value::Byte)
                }
                &Call::Token { take } => hostif::token(io, port, take).map(Value::Flag),
                &(Call::Page { attempts } | Call::QsfpPage { attempts }) => {
                    bytes = buffer();
                    let first = if matches!(case.call, Call::Page { .. }) { 0 } else { 128 };
                    let mut read = || {
                        for (place, byte) in (first..).zip(&mut bytes[..96]) {
                            *byte = i2c::read_byte(io, port, 0xa0, place, attempts, true)?;
                        }
                        Ok(Value::Sums(judged(&bytes)))
                    };
                    read()
                }
                &Call::Light { attempts } => {
                    let byte = |device, offset| i2c::read_byte(io, port, device, offset, attempts, true);
                    light(byte).map(Value::Light)
                }
                Call::Script { script } => {
                    driver::changed::i2c::probe_script(io, port, script, &mut bytes).map(|()| Value::Done)
                }
            };
            Came { result, meter: None, words, bytes }
        }
    };
}

calls!(original);
calls!(changed);

/// The original as it is: its own sequence, and no meter.
pub fn unchanged<Io: Registers<Error = u32>>(io: &mut Io, case: &Case) -> Came {
    original(io, case)
}

/// The changed copy, metered.
pub fn metered<Io: Registers<Error = u32>>(io: &mut Io, case: &Case) -> Came {
    use driver::changed::i2c;
    // The default of the port is that of S-2.
    let sequence = match case.sequence {
        Some(Sequence::Pulses) => i2c::Sequence::Pulses,
        None if !case.call.clears() => i2c::Sequence::Pulses,
        Some(Sequence::Rounds) | None => i2c::Sequence::Rounds,
    };
    i2c::probe_meter();
    let came = i2c::probe_with(sequence, || changed(io, case));
    let i2c::Meter { transfers, slowest } = i2c::probe_meter();
    Came { meter: Some((transfers, slowest)), ..came }
}
