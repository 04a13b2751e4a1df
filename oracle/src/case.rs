//! A case: one call of the original with its arguments and answers, its
//! outcome as numbers, and the line that holds both.

use crate::answers::{Failed, Fnv, Player, Rule, Stream};
use crate::driver::i2c::{self, Sequence};
use crate::driver::sfp::{self, Kind, Module};
use crate::driver::{hostif, sync, Error, Family, Port};
use crate::level::{self, Levels};
use crate::light;
use crate::lines::{Lines, MARK};
use crate::page;
use crate::script::script;

// Function numbers. 10 and up are `i2c`'s, 20 and up `sfp`'s; the original has no function from 24 on.
pub const LOCK: u32 = 0;
pub const UNLOCK: u32 = 1;
pub const ACQUIRE: u32 = 2;
pub const RELEASE: u32 = 3;
pub const COMMAND: u32 = 4;
pub const TOKEN: u32 = 5;
pub const REGS: u32 = 6;
pub const BITS: u32 = 7;
pub const PHY: u32 = 8;
pub const QSFP_SETUP: u32 = 10;
pub const READ_BYTE: u32 = 11;
pub const WRITE_BYTE: u32 = 12;
pub const READ_COMBINED: u32 = 13;
pub const WRITE_COMBINED: u32 = 14;
pub const SCRIPT: u32 = 15;
pub const ONES_ADD: u32 = 16;
pub const PLAIN: u32 = 17;
pub const IDENTIFY: u32 = 20;
pub const IDENTIFY_QSFP: u32 = 21;
pub const RATE_SELECT: u32 = 22;
pub const METHOD: u32 = 23;
pub const PAGE: u32 = 24;
pub const QSFP_PAGE: u32 = 25;
pub const LIGHT: u32 = 26;
pub const LEVEL: u32 = 27;

/// Added to a function's number on the line where the sequence is S-2's.
pub const WITH_ROUNDS: u32 = 100;

/// The functions that `PLAIN` chooses from.
pub const X550EM: u32 = 0;
pub const MASK: u32 = 1;
pub const ATTEMPTS: u32 = 2;
pub const QSFP: u32 = 3;

/// The methods of `Module` that `METHOD` chooses from.
pub const PRESENT: u32 = 0;
pub const ONE_GIG: u32 = 1;
pub const LINEAR: u32 = 2;
pub const SUPPORTED: u32 = 3;
pub const NVM_KEY: u32 = 4;

/// In the order of the original.
pub const KINDS: [Kind; 10] = [
    Kind::DaCu,
    Kind::DaActiveLimiting,
    Kind::SrLr,
    Kind::Cu1g,
    Kind::Sx1g,
    Kind::Lx1g,
    Kind::Bx10g,
    Kind::Bx1g,
    Kind::Unknown,
    Kind::NotPresent,
];

pub const FAMILIES: [Family; 5] = [Family::F82599, Family::X540, Family::X550, Family::X552, Family::X553];
pub const BLOCK_WORDS: u32 = 64;
/// The flag beside a kind's number.
pub const MULTISPEED: u32 = 256;
pub const MAX_RULES: usize = 4;

#[derive(Clone, Debug, PartialEq, Eq)]
pub struct Case {
    pub function: u32,
    pub sequence: Sequence,
    pub family: u32,
    pub device: u32,
    pub lan: u32,
    pub args: [u32; 3],
    pub seed: u32,
    pub fail_at: u32,
    pub ones_at: u32,
    pub rules: Vec<Rule>,
    /// Stands after the other rules on the line and counts as one of them.
    pub lines: Option<Lines>,
}

/// What a run did: the count and sum of its accesses, and its result as a
/// code with three values.
#[derive(Clone, Copy, Debug, PartialEq, Eq)]
pub struct Outcome {
    pub accesses: u32,
    pub checksum: u32,
    pub result: [u32; 4],
}

impl Case {
    pub fn family(&self) -> Family {
        FAMILIES[self.family as usize]
    }

    fn port(&self) -> Port {
        Port { family: self.family(), device: self.device as u16, lan: self.lan as u8 }
    }

    pub fn player(&self) -> Player {
        Player::new(self.seed, &self.rules, self.fail_at, self.ones_at).with_lines(self.lines, self.queue())
    }

    /// What the module on the lines sends first.
    fn queue(&self) -> Vec<u8> {
        let words = match self.function {
            PAGE | QSFP_PAGE => return page::bytes(self.args[1], self.args[2]),
            LIGHT => return light::bytes(self.args[1], self.args[2]),
            IDENTIFY | IDENTIFY_QSFP => &self.args[..],
            RATE_SELECT => &self.args[1..],
            _ => &[],
        };
        words.iter().flat_map(|w| w.to_le_bytes()).collect()
    }

    pub fn run(&self) -> Outcome {
        self.run_with(&mut self.player())
    }

    pub fn run_with(&self, player: &mut Player) -> Outcome {
        let result = i2c::probe_with(self.sequence, || self.call(player));
        Outcome { accesses: player.accesses(), checksum: player.checksum(), result }
    }

    fn call(&self, io: &mut Player) -> [u32; 4] {
        let [a1, a2, _] = self.args;
        match self.function {
            READ_BYTE | WRITE_BYTE | READ_COMBINED | WRITE_COMBINED => self.transfer(io),
            SCRIPT => self.script(io, a1, a2),
            IDENTIFY | IDENTIFY_QSFP | RATE_SELECT => self.module(io),
            PAGE => self.page(io, 0),
            QSFP_PAGE => self.page(io, 128),
            LIGHT => self.light(io),
            LOCK => numbers(sync::probe_lock(io, self.family()), |()| [0; 3]),
            UNLOCK => numbers(sync::probe_unlock(io, self.family()), |()| [0; 3]),
            ACQUIRE => numbers(sync::acquire(io, self.port(), a1), |()| [0; 3]),
            RELEASE => numbers(sync::release(io, self.port(), a1), |()| [0; 3]),
            COMMAND => self.command(io, a1, a2),
            TOKEN => numbers(hostif::token(io, self.port(), a1 == 1), |granted| [granted.into(), 0, 0]),
            REGS => {
                let (swsm, sw_fw_sync) = sync::probe_regs(self.family());
                [0, swsm, sw_fw_sync, 0]
            }
            BITS => {
                let (sw, fw, hw) = sync::probe_bits(self.family(), a1);
                [0, sw, fw, hw]
            }
            PHY => [0, sync::phy(self.lan as u8), 0, 0],
            QSFP_SETUP => numbers(i2c::qsfp_setup(io), |()| [0; 3]),
            ONES_ADD => [0, i2c::probe_ones_add(a1 as u8, a2 as u8).into(), 0, 0],
            PLAIN => [0, self.plain(a1), 0, 0],
            METHOD => self.method(a1),
            LEVEL => Levels::new().numbers(a1),
            other => panic!("no function {other}"),
        }
    }

    /// The block is `words` outputs of a stream of its own; the third value
    /// is the sum over the block as the call leaves it, failures included.
    fn command(&self, io: &mut Player, words: u32, seed: u32) -> [u32; 4] {
        let mut stream = Stream::new(seed);
        let mut block: Vec<u32> = (0..words).map(|_| stream.next()).collect();
        let status = hostif::command(io, self.port(), &mut block);
        let mut result = numbers(status, |status| [status.into(), 0, 0]);
        result[3] = Fnv::over(&block);
        result
    }

    /// The third value is the meter's word, failures included.
    fn transfer(&self, io: &mut Player) -> [u32; 4] {
        let port = self.port();
        let [a1, a2, a3] = self.args;
        let (device, low, high, lock) = (a1 as u8, a2 as u16, (a2 >> 16) as u16, a3 == 1);
        i2c::probe_meter();
        let mut result = match self.function {
            READ_BYTE => {
                let byte = i2c::read_byte(io, port, device, low as u8, high.into(), lock);
                numbers(byte, |byte| [byte.into(), 0, 0])
            }
            WRITE_BYTE => {
                let done = i2c::write_byte(io, port, device, low as u8, high as u8, lock);
                numbers(done, |()| [0; 3])
            }
            READ_COMBINED => {
                let value = i2c::read_combined(io, port, device, low, lock);
                numbers(value, |value| [value.into(), 0, 0])
            }
            _ => numbers(i2c::write_combined(io, port, device, low, high, lock), |()| [0; 3]),
        };
        result[3] = i2c::probe_meter().word();
        result
    }

    /// The second value is the sum over the bytes handed out, the third their
    /// number times 256 and the meter's word, failures included.
    fn script(&self, io: &mut Player, seed: u32, shape: u32) -> [u32; 4] {
        let script = script(seed, shape).expect("a shape of a script");
        let mut bytes = Vec::new();
        i2c::probe_meter();
        let done = i2c::probe_script(io, self.port(), &script, &mut bytes);
        let mut result = numbers(done, |()| [0; 3]);
        let words: Vec<u32> = bytes.into_iter().map(u32::from).collect();
        result[2] = Fnv::over(&words);
        result[3] = 256 * words.len() as u32 + i2c::probe_meter().word();
        result
    }

    /// The third value is the meter's word, failures included.
    fn module(&self, io: &mut Player) -> [u32; 4] {
        let port = self.port();
        i2c::probe_meter();
        let mut result = match self.function {
            IDENTIFY => numbers(sfp::identify(io, port), record),
            IDENTIFY_QSFP => numbers(sfp::identify_qsfp(io, port), record),
            _ => {
                let both = sfp::soft_rate_select(io, port, self.args[0] == 1);
                numbers(both, |both| [both.into(), 0, 0])
            }
        };
        result[3] = i2c::probe_meter().word();
        result
    }

    /// The second value is the sum over the buffer, the third the meter's word,
    /// failures included.
    fn page(&self, io: &mut Player, first: u8) -> [u32; 4] {
        let mut buffer: Vec<u8> = (0..page::BUFFER).map(|i| 255 - i).collect();
        i2c::probe_meter();
        let read = page::read(io, self.port(), first, self.args[0] as usize, &mut buffer);
        let mut result = match read {
            Ok(()) => [page::judged(&buffer), 0, 0, 0],
            failure => numbers(failure, |()| [0; 3]),
        };
        let words: Vec<u32> = buffer.into_iter().map(u32::from).collect();
        result[2] = Fnv::over(&words);
        result[3] = i2c::probe_meter().word();
        result
    }

    /// The third value is the meter's word, failures included.
    fn light(&self, io: &mut Player) -> [u32; 4] {
        i2c::probe_meter();
        let mut result = match light::read(io, self.port(), self.args[0] as usize) {
            Ok(Err(code)) => [code, 0, 0, 0],
            Ok(Ok(measures)) => numbers(Ok(measures), |m| m.values()),
            Err(failure) => numbers(Err::<(), _>(failure), |()| [0; 3]),
        };
        result[3] = i2c::probe_meter().word();
        result
    }

    fn plain(&self, function: u32) -> u32 {
        match function {
            X550EM => i2c::probe_x550em(self.family()).into(),
            MASK => i2c::probe_mask(self.port()),
            ATTEMPTS => i2c::attempts(self.port()) as u32,
            _ => i2c::probe_qsfp(self.port()).into(),
        }
    }

    /// The second value says that there is a key.
    fn method(&self, method: u32) -> [u32; 4] {
        let m = recorded(self.args[1], self.args[2]);
        match method {
            PRESENT => [0, m.present().into(), 0, 0],
            ONE_GIG => [0, m.one_gig().into(), 0, 0],
            LINEAR => [0, m.linear().into(), 0, 0],
            SUPPORTED => [0, m.supported(self.family()).into(), 0, 0],
            _ => m.nvm_key(self.lan as u8).map_or([0; 4], |key| [0, key.into(), 1, 0]),
        }
    }

    /// The function as the line has it.
    pub fn number(&self) -> u32 {
        match self.sequence {
            Sequence::Pulses => self.function,
            Sequence::Rounds => self.function + WITH_ROUNDS,
        }
    }

    /// The part of the line that says what to run.
    pub fn input(&self) -> Vec<u32> {
        let mut out = vec![self.number(), self.family, self.device, self.lan];
        out.extend(self.args);
        let count = self.rules.len() + self.lines.iter().count();
        out.extend([self.seed, self.fail_at, self.ones_at, count as u32]);
        for r in &self.rules {
            out.extend([r.register, r.period, r.hold, r.first.0, r.first.1, r.then.0, r.then.1]);
        }
        out.extend(self.lines.iter().flat_map(Lines::words));
        out
    }

    pub fn line(&self, outcome: &Outcome) -> String {
        let mut all = self.input();
        all.extend([outcome.accesses, outcome.checksum]);
        all.extend(outcome.result);
        let words: Vec<String> = all.iter().map(u32::to_string).collect();
        words.join(" ")
    }

    /// Reads a line; refuses one that the functions do not take.
    pub fn parse(line: &str) -> Result<(Case, Outcome), String> {
        let numbers: Result<Vec<u32>, _> = line.split(' ').map(str::parse).collect();
        let mut left = Numbers(numbers.map_err(|e| e.to_string())?.into_iter());
        let case = left.case()?;
        let outcome = left.outcome()?;
        if left.0.next().is_some() {
            return Err("too many numbers".into());
        }
        case.check()?;
        Ok((case, outcome))
    }

    fn check(&self) -> Result<(), String> {
        let [a1, a2, a3] = self.args;
        let (low, high) = (a2 & 0xffff, a2 >> 16);
        let known = match self.function {
            COMMAND => (1..=BLOCK_WORDS).contains(&a1),
            TOKEN => a1 <= 1,
            READ_BYTE | WRITE_BYTE => device(a1) && low <= 0xff && high <= 0xff && a3 <= 1,
            READ_COMBINED => device(a1) && high == 0 && a3 <= 1,
            WRITE_COMBINED => device(a1) && a3 <= 1,
            SCRIPT => script(a1, a2).is_some(),
            ONES_ADD => a1 <= 0xff && a2 <= 0xff,
            PLAIN => a1 <= QSFP,
            IDENTIFY | IDENTIFY_QSFP => true,
            RATE_SELECT => a1 <= 1,
            METHOD => a1 <= NVM_KEY && a2 & !MULTISPEED < KINDS.len() as u32,
            PAGE | QSFP_PAGE => a1 <= 0xff && a3 <= 3,
            LIGHT => a1 <= 0xff,
            LEVEL => a1 <= level::LAST,
            _ => self.function <= PHY || self.function == QSFP_SETUP,
        };
        if !known {
            return Err(format!("function {} does not take {a1} {a2} {a3}", self.function));
        }
        if self.sequence == Sequence::Rounds && !sequenced(self.function) {
            return Err(format!("function {} takes no sequence", self.function));
        }
        if self.family >= FAMILIES.len() as u32 || self.lan > 1 || self.device > 0xffff {
            return Err("not a port".into());
        }
        Ok(())
    }
}

/// The function takes a clearing sequence by name.
pub fn sequenced(function: u32) -> bool {
    matches!(function, READ_BYTE..=WRITE_COMBINED | IDENTIFY..=RATE_SELECT | PAGE..=LIGHT)
}

/// The arguments of a transfer: the offset or register is `low`, the
/// attempts or the value `high`.
pub fn packed(device: u32, low: u32, high: u32, lock: bool) -> [u32; 3] {
    [device, low | high << 16, lock.into()]
}

/// The kind, by its place in the original's list, with the multispeed flag;
/// then the bytes, in the order of the original's record, lowest first.
fn record(m: Module) -> [u32; 3] {
    let bytes = [m.identifier, m.comp_10g, m.comp_1g, m.cable];
    [m.kind as u32 + MULTISPEED * u32::from(m.multispeed), u32::from_le_bytes(bytes), 0]
}

/// The module of which `record` gives these numbers.
fn recorded(class: u32, bytes: u32) -> Module {
    let [identifier, comp_10g, comp_1g, cable] = bytes.to_le_bytes();
    let kind = KINDS[(class & !MULTISPEED) as usize];
    Module { kind, multispeed: class >= MULTISPEED, identifier, comp_10g, comp_1g, cable }
}

/// An address of the I2C bus.
fn device(number: u32) -> bool {
    number <= 0xff && number & 1 == 0
}

/// The numbers of a line that are still to be read.
struct Numbers(std::vec::IntoIter<u32>);

impl Numbers {
    fn word(&mut self) -> Result<u32, String> {
        self.0.next().ok_or_else(|| "too few numbers".into())
    }

    /// A rule of either kind; that of the lines must be the last.
    fn rule(&mut self, case: &mut Case) -> Result<(), String> {
        let mut words = [0; 7];
        for word in &mut words {
            *word = self.word()?;
        }
        if case.lines.is_some() {
            return Err("a rule after that of the lines".into());
        }
        if words[0] >= MARK {
            case.lines = Some(Lines::from_words(words).ok_or("no lines at this register")?);
            return Ok(());
        }
        let [register, period, hold, and1, or1, and2, or2] = words;
        case.rules.push(Rule { register, period, hold, first: (and1, or1), then: (and2, or2) });
        Ok(())
    }

    fn case(&mut self) -> Result<Case, String> {
        let number = self.word()?;
        let sequence = if number < WITH_ROUNDS { Sequence::Pulses } else { Sequence::Rounds };
        let mut case = Case {
            function: if number < WITH_ROUNDS { number } else { number - WITH_ROUNDS },
            sequence,
            family: self.word()?,
            device: self.word()?,
            lan: self.word()?,
            args: [self.word()?, self.word()?, self.word()?],
            seed: self.word()?,
            fail_at: self.word()?,
            ones_at: self.word()?,
            rules: Vec::new(),
            lines: None,
        };
        let count = self.word()? as usize;
        if count > MAX_RULES {
            return Err(format!("{count} rules"));
        }
        for _ in 0..count {
            self.rule(&mut case)?;
        }
        Ok(case)
    }

    fn outcome(&mut self) -> Result<Outcome, String> {
        Ok(Outcome {
            accesses: self.word()?,
            checksum: self.word()?,
            result: [self.word()?, self.word()?, self.word()?, self.word()?],
        })
    }
}

/// A result as code and values: 0 for success, 20 to 25 for the failures.
fn numbers<T>(result: Result<T, Error<Failed>>, values: impl Fn(T) -> [u32; 3]) -> [u32; 4] {
    let (code, [v1, v2, v3]) = match result {
        Ok(value) => (0, values(value)),
        Err(Error::Io(Failed)) => (20, [0; 3]),
        Err(Error::Removed) => (21, [0; 3]),
        Err(Error::Semaphore { held }) => (22, [held, 0, 0]),
        Err(Error::I2c { device }) => (23, [device.into(), 0, 0]),
        Err(Error::HostInterface { hicr }) => (24, [hicr, 0, 0]),
        Err(Error::Firmware { command, status }) => (25, [command.into(), status.into(), 0]),
    };
    [code, v1, v2, v3]
}
