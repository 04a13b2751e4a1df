//! The calls in the port, by the crate's functions, in the form that the case names.

use sulfryk::call::Value as Gives;
use sulfryk::light::{Measures, NotFinite, Reading};
use sulfryk::sfp::Module;
use sulfryk::{Access, Answer, Error, Metered, Next, R, Registers};
use sulfryk::{hostif, i2c, light, pages, script, sfp, sync};

use crate::case::{Call, Came, Case, Form, Value, buffer};

fn record(m: Module) -> Value {
    Value::Module([m.kind as u8, m.multispeed.into(), m.identifier, m.comp_10g, m.comp_1g, m.cable])
}

fn measures(m: Result<Measures, NotFinite>) -> Value {
    Value::Light(m.map(|m| {
        let (kind, value) = match m.reading {
            Reading::Internal(count) => (0, count.into()),
            Reading::Calibrated(power) => (1, power.to_bits()),
            Reading::Absent => (2, 0),
        };
        [m.temperature as u32, m.voltage.into(), m.bias.into(), m.sent.into(), kind, value]
    }))
}

type Ended = (R<Value, u32>, Option<(u32, u32)>);

fn plain<T>(result: R<T, u32>, value: impl FnOnce(T) -> Value) -> Ended {
    (result.map(value), None)
}

fn metered<T>(m: Metered<R<T, u32>>, value: impl FnOnce(T) -> Value) -> Ended {
    (m.result.map(value), Some((m.transfers, m.slowest)))
}

/// A host's own loop over the stepwise form. `next` says what is next, and `step` makes the step; where `odd`, each access is
/// first answered by an answer of another kind, which must be refused with 12.
fn stepped<C: Copy, T: Gives, Io: Registers<Error = u32>>(
    io: &mut Io,
    odd: bool,
    mut call: C,
    next: impl Fn(&C) -> (Next<T>, bool),
    mut step: impl FnMut(C, Answer) -> C,
) -> Metered<R<T, u32>> {
    let mut failure = None;
    loop {
        let access = match next(&call).0 {
            Next::Ask(access) => access,
            Next::End(end) => {
                let result = end.result.map_err(|e| match e {
                    Error::Io(()) => Error::Io(failure.expect("an access failed")),
                    Error::Removed => Error::Removed,
                    Error::Semaphore { held } => Error::Semaphore { held },
                    Error::I2c { device } => Error::I2c { device },
                    Error::HostInterface { hicr } => Error::HostInterface { hicr },
                    Error::Firmware { command, status } => Error::Firmware { command, status },
                    other => panic!("no call gives {other:?}"),
                });
                return Metered { result, transfers: end.transfers, slowest: end.slowest };
            }
            Next::Refused(number) => panic!("refused with {number}"),
        };
        if odd {
            let other = match access {
                Access::Read { .. } => Answer::Done,
                Access::Write { .. } => Answer::Value(0),
                Access::Wait { .. } => Answer::Failed,
            };
            let refused = step(call, other);
            assert!(matches!(next(&refused).0, Next::Refused(12)), "another answer is refused");
        }
        let answer = match access.make(io) {
            Ok(answer) => answer,
            Err(e) => {
                if !next(&call).1 {
                    failure = Some(e);
                }
                Answer::Failed
            }
        };
        call = step(call, answer);
    }
}

macro_rules! stepping {
    ($io:ident, $odd:ident, $call:expr $(, $lent:expr)?) => {
        stepped($io, $odd, $call, |c| (c.next(), c.keeps_failure()), |c, a| c.step($($lent,)? a))
    };
}

/// A call of the original's that takes a sequence: in each form, and without a sequence where none is named.
macro_rules! sequenced {
    ($io:ident $odd:ident $case:ident: $of:ident::[$name:ident $with:ident $metered:ident $open:ident]($($a:expr),*) => $value:expr) => {
        match ($case.form, $case.sequence) {
            (Form::Plain, None) => plain($of::$name($io, $($a),*), $value),
            (Form::Plain, Some(sequence)) => plain($of::$with($io, $($a,)* sequence), $value),
            (Form::Metered, sequence) => metered($of::$metered($io, $($a,)* sequence), $value),
            (Form::Stepped, sequence) => metered(stepping!($io, $odd, $of::$open($($a,)* sequence)), $value),
        }
    };
}

/// A call that makes no transfers: by the original's signature or stepped.
macro_rules! unmetered {
    ($io:ident $odd:ident $case:ident: $of:ident::[$name:ident $open:ident]($($a:expr),*) => $value:expr) => {
        match $case.form {
            Form::Stepped => plain(stepping!($io, $odd, $of::$open($($a),*)).result, $value),
            _ => plain($of::$name($io, $($a),*), $value),
        }
    };
}

/// A call that the original has not, lent a buffer or nothing.
macro_rules! added {
    ($io:ident $odd:ident $case:ident: $of:ident::[$name:ident $with:ident $open:ident]($($a:expr),*; $($lent:expr)?) => $value:expr) => {
        metered(
            match ($case.form, $case.sequence) {
                (Form::Stepped, s) => stepping!($io, $odd, $of::$open($($a,)* $(&$lent,)? s) $(, &mut $lent)?),
                (_, None) => $of::$name($io, $($a,)* $(&mut $lent)?),
                (_, Some(s)) => $of::$with($io, $($a,)* $(&mut $lent,)? s),
            },
            $value,
        )
    };
}

pub fn call<Io: Registers<Error = u32>>(io: &mut Io, case: &Case, odd: bool) -> Came {
    let p = case.port;
    let done = |()| Value::Done;
    let (mut words, mut bytes) = (Vec::new(), Vec::new());
    let (result, meter) = match &case.call {
        &Call::ReadByte { device: d, offset: o, attempts: n, lock: l } => sequenced!(io odd case:
            i2c::[read_byte read_byte_with read_byte_metered read_byte_open](p, d, o, n, l) => Value::Byte),
        &Call::WriteByte { device: d, offset: o, value: v, lock: l } => sequenced!(io odd case:
            i2c::[write_byte write_byte_with write_byte_metered write_byte_open](p, d, o, v, l) => done),
        &Call::ReadCombined { device: d, reg: r, lock: l } => sequenced!(io odd case:
            i2c::[read_combined read_combined_with read_combined_metered read_combined_open](p, d, r, l) => Value::Word),
        &Call::WriteCombined { device: d, reg: r, value: v, lock: l } => sequenced!(io odd case:
            i2c::[write_combined write_combined_with write_combined_metered write_combined_open](p, d, r, v, l) => done),
        Call::Identify => sequenced!(io odd case:
            sfp::[identify identify_with identify_metered identify_open](p) => record),
        Call::IdentifyQsfp => sequenced!(io odd case:
            sfp::[identify_qsfp identify_qsfp_with identify_qsfp_metered identify_qsfp_open](p) => record),
        &Call::SoftRateSelect { ten } => sequenced!(io odd case:
            sfp::[soft_rate_select soft_rate_select_with soft_rate_select_metered soft_rate_select_open](p, ten) => Value::Flag),
        Call::QsfpSetup => unmetered!(io odd case: i2c::[qsfp_setup qsfp_setup_open]() => done),
        &Call::Acquire { mask } => unmetered!(io odd case: sync::[acquire acquire_open](p, mask) => done),
        &Call::Release { mask } => unmetered!(io odd case: sync::[release release_open](p, mask) => done),
        &Call::Token { take } => unmetered!(io odd case: hostif::[token token_open](p, take) => Value::Flag),
        &Call::Locked { mask, body } => plain(sync::locked(io, p, mask, |io| body.run(io)), Value::Byte),
        Call::Command { block } => {
            words = block.clone();
            let status = match case.form {
                Form::Stepped => stepping!(io, odd, hostif::command_open(p, &words), &mut words).result,
                _ => hostif::command(io, p, &mut words),
            };
            plain(status, Value::Byte)
        }
        &Call::Page { attempts: n } => {
            bytes = buffer();
            added!(io odd case: pages::[page page_with page_open](p, n; bytes) => Value::Sums)
        }
        &Call::QsfpPage { attempts: n } => {
            bytes = buffer();
            added!(io odd case: pages::[qsfp_page qsfp_page_with qsfp_page_open](p, n; bytes) => Value::Sums)
        }
        &Call::Light { attempts: n } => {
            added!(io odd case: light::[light light_with light_open](p, n;) => measures)
        }
        Call::Script { script: s } => {
            let end = match case.form {
                Form::Stepped => {
                    let step = |c: sulfryk::Call<(), sulfryk::call::Script>, a| {
                        let c = c.step(s, a);
                        bytes.extend(c.byte());
                        c
                    };
                    stepped(io, odd, script::open(p, s), |c| (c.next(), c.keeps_failure()), step)
                }
                _ => script::run(io, p, s, |byte| bytes.push(byte)),
            };
            metered(end, done)
        }
    };
    Came { result, meter, words, bytes }
}
