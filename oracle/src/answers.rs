//! The answers of a case: a `Registers` that plays a pseudo-random stream,
//! changed by rules, and sums up every access in order.

use std::fmt;

use crate::driver::Registers;
use crate::lines::{Lines, Playing};

/// `fail_at` and `ones_at` of a case without such an access; no run gets so far.
pub const NEVER: u32 = u32::MAX;

/// 32-bit linear congruential generator; its halves are swapped on output
/// because its low bits have short periods.
#[derive(Clone)]
pub struct Stream(u32);

impl Stream {
    pub fn new(seed: u32) -> Self {
        Stream(seed)
    }

    pub fn next(&mut self) -> u32 {
        self.0 = self.0.wrapping_mul(1664525).wrapping_add(1013904223);
        self.0.rotate_left(16)
    }
}

/// FNV-1a, 32 bits, taken over words instead of bytes.
#[derive(Clone, Copy)]
pub struct Fnv(u32);

impl Fnv {
    pub fn new() -> Self {
        Fnv(2166136261)
    }

    pub fn word(&mut self, w: u32) {
        self.0 = (self.0 ^ w).wrapping_mul(16777619);
    }

    pub fn over(words: &[u32]) -> u32 {
        let mut sum = Fnv::new();
        words.iter().for_each(|w| sum.word(*w));
        sum.0
    }

    pub fn value(self) -> u32 {
        self.0
    }
}

/// Bends the reads of one register: `first` (and, or) while the count of its
/// earlier reads, modulo `period` if that is not 0, is below `hold`; else `then`.
#[derive(Clone, Copy, Debug, PartialEq, Eq)]
pub struct Rule {
    pub register: u32,
    pub period: u32,
    pub hold: u32,
    pub first: (u32, u32),
    pub then: (u32, u32),
}

impl Rule {
    fn bend(&self, count: u32, value: u32) -> u32 {
        let k = if self.period == 0 { count } else { count % self.period };
        let (and, or) = if k < self.hold { self.first } else { self.then };
        value & and | or
    }
}

/// An access with its answer; a wait, in microseconds, does not fail.
pub enum Access {
    Read(u32, Result<u32, Failed>),
    Write(u32, u32, Result<(), Failed>),
    Wait(u32),
}

impl fmt::Display for Access {
    fn fmt(&self, f: &mut fmt::Formatter) -> fmt::Result {
        match self {
            Access::Read(register, Ok(value)) => write!(f, "read {register:05x} gives {value:08x}"),
            Access::Read(register, Err(Failed)) => write!(f, "read {register:05x} fails"),
            Access::Write(register, value, Ok(())) => write!(f, "write {register:05x} {value:08x}"),
            Access::Write(register, value, Err(Failed)) => {
                write!(f, "write {register:05x} {value:08x} fails")
            }
            Access::Wait(micros) => write!(f, "wait {micros}"),
        }
    }
}

/// A failed access.
#[derive(Clone, Copy, Debug)]
pub struct Failed;

/// Plays the answers. Past `limit` accesses every read and write fails, so
/// that a run too long for its purpose ends (`overrun` then holds).
pub struct Player {
    stream: Stream,
    rules: Vec<(Rule, u32)>,
    lines: Option<Playing>,
    fail_at: u32,
    ones_at: u32,
    limit: u32,
    accesses: u32,
    sum: Fnv,
    log: Option<Vec<Access>>,
}

impl Player {
    pub fn new(seed: u32, rules: &[Rule], fail_at: u32, ones_at: u32) -> Self {
        Player {
            stream: Stream::new(seed),
            rules: rules.iter().map(|r| (*r, 0)).collect(),
            lines: None,
            fail_at,
            ones_at,
            limit: u32::MAX,
            accesses: 0,
            sum: Fnv::new(),
            log: None,
        }
    }

    /// After the other rules, so that one of them for the register goes
    /// before. The module on the lines sends `queue` first.
    pub fn with_lines(mut self, lines: Option<Lines>, queue: Vec<u8>) -> Self {
        self.lines = lines.map(|lines| Playing::new(lines, queue));
        self
    }

    pub fn limited(mut self, limit: u32) -> Self {
        self.limit = limit;
        self
    }

    /// Keep every access with its answer.
    pub fn logged(mut self) -> Self {
        self.log = Some(Vec::new());
        self
    }

    pub fn accesses(&self) -> u32 {
        self.accesses
    }

    pub fn checksum(&self) -> u32 {
        self.sum.value()
    }

    pub fn overrun(&self) -> bool {
        self.accesses > self.limit
    }

    pub fn log(self) -> Vec<Access> {
        self.log.unwrap_or_default()
    }

    /// Counts an access into the sum and gives its number.
    fn count(&mut self, words: &[u32]) -> u32 {
        words.iter().for_each(|w| self.sum.word(*w));
        let number = self.accesses;
        self.accesses += 1;
        number
    }

    fn fails(&self, number: u32) -> bool {
        number == self.fail_at || number >= self.limit
    }

    /// The stream and the rule's count go on whatever becomes of the read.
    fn value(&mut self, register: u32) -> u32 {
        let value = self.stream.next();
        if let Some((rule, count)) = self.rules.iter_mut().find(|(rule, _)| rule.register == register) {
            let bent = rule.bend(*count, value);
            *count += 1;
            return bent;
        }
        match self.lines_of(register) {
            None => value,
            Some(lines) => lines.read(value),
        }
    }

    fn lines_of(&mut self, register: u32) -> Option<&mut Playing> {
        self.lines.as_mut().filter(|playing| playing.lines.layout.register == register)
    }

    fn note(&mut self, access: Access) {
        if let Some(log) = &mut self.log {
            log.push(access);
        }
    }
}

impl Registers for Player {
    type Error = Failed;

    fn read(&mut self, offset: u32) -> Result<u32, Failed> {
        let number = self.count(&[1, offset]);
        let value = self.value(offset);
        let value = if number == self.ones_at { u32::MAX } else { value };
        let answer = if self.fails(number) { Err(Failed) } else { Ok(value) };
        self.note(Access::Read(offset, answer));
        answer
    }

    fn write(&mut self, offset: u32, value: u32) -> Result<(), Failed> {
        let number = self.count(&[2, offset, value]);
        if let Some(lines) = self.lines_of(offset) {
            lines.written(value);
        }
        let answer = if self.fails(number) { Err(Failed) } else { Ok(()) };
        self.note(Access::Write(offset, value, answer));
        answer
    }

    fn delay_us(&mut self, micros: usize) {
        let micros = u32::try_from(micros).expect("waits are below 2^32 µs");
        self.count(&[3, micros]);
        self.note(Access::Wait(micros));
    }
}
