//! The functions that make no access, over all their arguments, and the refusals, which the original has not.

use std::fmt::Debug;

use sulfryk::sfp::{Kind, Module};
use sulfryk::{Error, Family, Metered, Port, R, Registers};
use sulfryk::{hostif, i2c, light, pages, script, sfp, sync};

use crate::case::FAMILIES;
use crate::driver::original;
use crate::trace::Replay;

type OriginalKind = original::sfp::Kind;

/// The kinds of both sides.
const KINDS: [(Kind, OriginalKind); 10] = [
    (Kind::DaCu, OriginalKind::DaCu),
    (Kind::DaActiveLimiting, OriginalKind::DaActiveLimiting),
    (Kind::SrLr, OriginalKind::SrLr),
    (Kind::Cu1g, OriginalKind::Cu1g),
    (Kind::Sx1g, OriginalKind::Sx1g),
    (Kind::Lx1g, OriginalKind::Lx1g),
    (Kind::Bx10g, OriginalKind::Bx10g),
    (Kind::Bx1g, OriginalKind::Bx1g),
    (Kind::Unknown, OriginalKind::Unknown),
    (Kind::NotPresent, OriginalKind::NotPresent),
];

#[derive(Default)]
struct Held {
    values: u64,
    differences: u64,
}

impl Held {
    fn to<T: PartialEq + Debug>(&mut self, what: &str, one: T, two: T) {
        self.values += 1;
        if one != two {
            self.differences += 1;
            println!("{what}: {one:?} in the original, {two:?} in the port");
        }
    }

    fn methods(&mut self) {
        for (kind, theirs) in KINDS {
            for bits in 0..=u8::MAX {
                let multispeed = bits & 1 == 1;
                let [identifier, comp_10g, comp_1g, cable] = [bits, bits ^ 0x55, !bits, bits.rotate_left(3)];
                let m = Module { kind, multispeed, identifier, comp_10g, comp_1g, cable };
                let o =
                    original::sfp::Module { kind: theirs, multispeed, identifier, comp_10g, comp_1g, cable };
                self.to("kind", o.kind as u32, m.kind as u32);
                self.to("present", o.present(), m.present());
                self.to("one_gig", o.one_gig(), m.one_gig());
                self.to("linear", o.linear(), m.linear());
                for family in FAMILIES {
                    self.to("supported", o.supported(family), m.supported(family));
                }
                for lan in 0..=u8::MAX {
                    self.to("nvm_key", o.nvm_key(lan), m.nvm_key(lan));
                }
            }
        }
    }

    fn functions(&mut self) {
        for lan in 0..=u8::MAX {
            self.to("phy", original::sync::phy(lan), sync::phy(lan));
            for family in FAMILIES {
                for device in [0, 0x10fb, 0x1558, 0xffff] {
                    let port = Port { family, device, lan };
                    self.to("attempts", original::i2c::attempts(port), i2c::attempts(port));
                }
            }
        }
    }

    /// By a logarithm; the oracle and the port's own tests have the definition with whole numbers.
    fn levels(&mut self) {
        for count in 0..=u16::MAX {
            let tenths = (100.0 * f64::from(count).log10()).floor() - 400.0;
            let level = (count > 0).then_some(tenths as i16);
            self.to("a level", level, light::level(count));
        }
    }

    fn constants(&mut self) {
        use original::hostif as oh;
        use original::sync as os;
        let theirs = [
            os::EEP,
            os::PHY0,
            os::PHY1,
            os::MAC_CSR,
            os::SW_MNG,
            os::I2C0,
            os::I2C1,
            os::SHARED_I2C,
            os::TOKEN,
        ];
        let ours = [
            sync::EEP,
            sync::PHY0,
            sync::PHY1,
            sync::MAC_CSR,
            sync::SW_MNG,
            sync::I2C0,
            sync::I2C1,
            sync::SHARED_I2C,
            sync::TOKEN,
        ];
        self.to("the masks", theirs, ours);
        self.to("the token's command", oh::TOKEN_COMMAND, hostif::TOKEN_COMMAND);
        self.to("its busy status", oh::TOKEN_BUSY, hostif::TOKEN_BUSY);
    }

    /// A call that is refused with this number makes no access.
    fn refused<T: Debug>(&mut self, number: u32, call: impl FnOnce(&mut Replay) -> R<T, u32>) {
        let mut io = Replay::new(&[]);
        let result = call(&mut io).map(|value| format!("{value:?}"));
        let expected = if number == 2 { Error::InvalidPort } else { Error::Refused { number } };
        self.to("a refusal", (Err(expected), 0), (result, io.made));
    }

    fn refusals(&mut self) {
        let good = Port { family: Family::X552, device: 0x15ac, lan: 1 };
        let mut buffer = [0; 96];
        for lan in 2..=u8::MAX {
            let bad = Port { lan, ..good };
            self.refused(2, |io| i2c::read_byte(io, bad, 0xa1, 0, 999, true));
            self.refused(2, |io| i2c::write_byte(io, bad, 0xa1, 0, 0, true));
            self.refused(2, |io| i2c::read_combined(io, bad, 0xa1, 0, true));
            self.refused(2, |io| i2c::write_combined(io, bad, 0xa1, 0, 0, true));
            self.refused(2, |io| sfp::identify(io, bad));
            self.refused(2, |io| sfp::identify_qsfp(io, bad));
            self.refused(2, |io| sfp::soft_rate_select(io, bad, true));
            self.refused(2, |io| sync::acquire(io, bad, sync::PHY0));
            self.refused(2, |io| sync::release(io, bad, sync::PHY0));
            self.refused(2, |io| sync::locked(io, bad, sync::PHY0, |_| Ok(())));
            self.refused(2, |io| hostif::command(io, bad, &mut []));
            self.refused(2, |io| hostif::token(io, bad, true));
            self.refused(2, |io| pages::page(io, bad, 999, &mut []).result);
            self.refused(2, |io| pages::qsfp_page(io, bad, 999, &mut []).result);
            self.refused(2, |io| light::light(io, bad, 999).result);
            self.refused(2, |io| script::run(io, bad, &[], |_| ()).result);
        }
        for device in (1..=u8::MAX).step_by(2) {
            self.refused(3, |io| i2c::read_byte(io, good, device, 0, 999, true));
            self.refused(3, |io| i2c::write_byte(io, good, device, 0, 0, true));
            self.refused(3, |io| i2c::read_combined(io, good, device, 0, true));
            self.refused(3, |io| i2c::write_combined(io, good, device, 0, 0, true));
        }
        for attempts in [256, 257, u32::MAX as usize, 1 << 32, usize::MAX] {
            self.refused(4, |io| i2c::read_byte(io, good, 0xa0, 0, attempts, true));
            self.refused(4, |io| pages::page(io, good, attempts, &mut []).result);
            self.refused(4, |io| pages::qsfp_page(io, good, attempts, &mut []).result);
            self.refused(4, |io| light::light(io, good, attempts).result);
        }
        for (number, bad) in [
            (5, vec![]),
            (5, vec![0x40; 65]),
            (6, vec![0x11]),
            (6, vec![0x10, 0x20]),
            (7, vec![0x40]),
            (7, vec![0x10, 0x20, 0xa0]),
            (7, vec![0x10, 0x20, 0xa1, 0x40]),
        ] {
            self.refused(number, |io| script::run(io, good, &bad, |_| ()).result);
        }
        for words in [0, 65, 1000] {
            self.refused(8, |io| hostif::command(io, good, &mut vec![0; words]));
        }
        for bytes in [0, 95] {
            self.refused(9, |io| pages::page(io, good, 1, &mut buffer[..bytes]).result);
            self.refused(9, |io| pages::qsfp_page(io, good, 1, &mut buffer[..bytes]).result);
        }
        let Metered { transfers, slowest, .. } = pages::page(&mut Replay::new(&[]), good, 256, &mut buffer);
        self.to("the meter of a refusal", (0, 0), (transfers, slowest));
    }
}

/// The signatures are the original's, but that each side has its own `Module`: this compiles.
#[allow(clippy::type_complexity)]
fn signatures<Io: Registers<Error = u32>>() {
    use original as o;
    type Body<Io> = fn(&mut Io) -> R<u8, u32>;
    let _: [fn(Port) -> usize; 2] = [o::i2c::attempts, i2c::attempts];
    let _: [fn(&mut Io, Port, u8, u8, usize, bool) -> R<u8, u32>; 2] = [o::i2c::read_byte, i2c::read_byte];
    let _: [fn(&mut Io, Port, u8, u8, u8, bool) -> R<(), u32>; 2] = [o::i2c::write_byte, i2c::write_byte];
    let _: [fn(&mut Io, Port, u8, u16, bool) -> R<u16, u32>; 2] = [o::i2c::read_combined, i2c::read_combined];
    let _: [fn(&mut Io, Port, u8, u16, u16, bool) -> R<(), u32>; 2] =
        [o::i2c::write_combined, i2c::write_combined];
    let _: [fn(&mut Io) -> R<(), u32>; 2] = [o::i2c::qsfp_setup, i2c::qsfp_setup];
    let _: [fn(&mut Io, Port) -> R<o::sfp::Module, u32>; 2] = [o::sfp::identify, o::sfp::identify_qsfp];
    let _: [fn(&mut Io, Port) -> R<Module, u32>; 2] = [sfp::identify, sfp::identify_qsfp];
    let _: [fn(&mut Io, Port, bool) -> R<bool, u32>; 2] = [o::sfp::soft_rate_select, sfp::soft_rate_select];
    let _: [fn(u8) -> u32; 2] = [o::sync::phy, sync::phy];
    let _: [fn(&mut Io, Port, u32) -> R<(), u32>; 4] =
        [o::sync::acquire, sync::acquire, o::sync::release, sync::release];
    let _: [fn(&mut Io, Port, u32, Body<Io>) -> R<u8, u32>; 2] = [o::sync::locked, sync::locked];
    let _: [fn(&mut Io, Port, &mut [u32]) -> R<u8, u32>; 2] = [o::hostif::command, hostif::command];
    let _: [fn(&mut Io, Port, bool) -> R<bool, u32>; 2] = [o::hostif::token, hostif::token];
}

/// The number of differences.
pub fn compared() -> u64 {
    signatures::<Replay>();
    let mut held = Held::default();
    held.methods();
    held.functions();
    held.levels();
    held.constants();
    held.refusals();
    println!(
        "methods, attempts, phy, levels, constants and refusals: {} values, {} differences",
        held.values, held.differences
    );
    held.differences
}
