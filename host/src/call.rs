//! A call, one access at a time, and the loop that runs it over [`Registers`].

use core::marker::PhantomData;

use crate::abi;
use crate::{Error, R, Registers};

/// An access that the host is to make.
#[derive(Clone, Copy, Debug, PartialEq, Eq)]
pub enum Access {
    /// Read the register; the answer is [`Answer::Value`] or [`Answer::Failed`].
    Read {
        /// Its offset.
        register: u32,
    },
    /// Write the register; the answer is [`Answer::Done`] or [`Answer::Failed`].
    Write {
        /// Its offset.
        register: u32,
        /// The value to write.
        value: u32,
    },
    /// Wait; the answer is [`Answer::Done`].
    Wait {
        /// So many microseconds.
        micros: u32,
    },
}

impl Access {
    /// Makes the access.
    pub fn make<Io: Registers>(self, io: &mut Io) -> Result<Answer, Io::Error> {
        match self {
            Access::Read { register } => io.read(register).map(Answer::Value),
            Access::Write { register, value } => io.write(register, value).map(|()| Answer::Done),
            Access::Wait { micros } => {
                io.delay_us(micros as usize);
                Ok(Answer::Done)
            }
        }
    }
}

/// The answer to an access.
#[derive(Clone, Copy, Debug, PartialEq, Eq)]
pub enum Answer {
    /// The register's value.
    Value(u32),
    /// The register is written, or the time has passed.
    Done,
    /// The access failed.
    Failed,
}

impl Answer {
    /// Kind and value.
    fn numbers(self) -> (u32, u32) {
        match self {
            Answer::Value(value) => (0, value),
            Answer::Done => (1, 0),
            Answer::Failed => (2, 0),
        }
    }
}

/// How the bus is cleared after a failed attempt. Where none is named, a call takes the port's default, which is `Rounds`.
#[derive(Clone, Copy, Debug, PartialEq, Eq)]
pub enum Sequence {
    /// The original's. It can write to a module that a reset stopped while it acknowledged a write.
    Pulses,
    /// Harms no module.
    Rounds,
}

/// The number of a sequence; 0 is the default.
pub(crate) fn number(sequence: Option<Sequence>) -> u32 {
    match sequence {
        None => 0,
        Some(Sequence::Pulses) => 1,
        Some(Sequence::Rounds) => 2,
    }
}

/// What a call came to, with what was metered on the way. Calls that make no transfers have 0 and 0.
#[derive(Clone, Copy, Debug, PartialEq, Eq)]
pub struct Metered<T> {
    /// The call's result.
    pub result: T,
    /// Transfers made on the module's bus, repeated ones included.
    pub transfers: u32,
    /// The slowest acknowledgement of a byte: the greatest sample, 1 to 10, that first read SDA low; 0 where there was none.
    pub slowest: u32,
}

/// What a call wants next, or what came of it.
#[derive(Clone, Copy, Debug, PartialEq)]
pub enum Next<T> {
    /// Make this access, and step the call with its answer.
    Ask(Access),
    /// The call is over.
    End(Metered<R<T, ()>>),
    /// The opening or the step was refused with this number. A refused step altered nothing: the call that was stepped can
    /// be stepped again.
    ///
    /// | number | what is asked |
    /// |---|---|
    /// | 2 | the port number is 0 or 1 |
    /// | 3 | the I2C device is even |
    /// | 4 | there are at most 255 attempts |
    /// | 5, 6, 7 | the length of the script (1 to 64 bytes), its commands, its grammar |
    /// | 8 | the block has 1 to 64 words |
    /// | 9 | the buffer has at least 96 bytes |
    /// | 10 | the call is one that an opening or a step gave, and what is lent is what was lent then |
    /// | 11 | the call is not over |
    /// | 12 | the answer is of the kind that is awaited |
    Refused(u32),
}

/// What a call gives where it succeeds.
pub trait Value: Sized {
    /// Of an end, kind 3.
    #[doc(hidden)]
    fn of(next: &abi::Next) -> Self;

    /// Of a failure, kind 4, whose number is of this call alone.
    #[doc(hidden)]
    fn failed(_number: u32) -> Option<Self> {
        None
    }
}

impl Value for () {
    fn of(_: &abi::Next) {}
}

impl Value for bool {
    fn of(next: &abi::Next) -> bool {
        next.first != 0
    }
}

impl Value for u8 {
    fn of(next: &abi::Next) -> u8 {
        next.first as u8
    }
}

impl Value for u16 {
    fn of(next: &abi::Next) -> u16 {
        next.first as u16
    }
}

/// Of a [`Call`] that is lent nothing.
#[derive(Clone, Copy, Debug)]
pub enum Nothing {}

/// Of a [`Call`] that is lent the block of a firmware command.
#[derive(Clone, Copy, Debug)]
pub enum Block {}

/// Of a [`Call`] that is lent a script.
#[derive(Clone, Copy, Debug)]
pub enum Script {}

/// Of a [`Call`] that is lent the buffer for a page.
#[derive(Clone, Copy, Debug)]
pub enum Page {}

/// A call under way, for hosts that must not block: what is next, and the state that awaits the answer. It is opened by a
/// function whose name ends with `_open`, gives a `T`, and is lent an `L` at each step.
///
/// ```
/// use sulfryk::{Access, Answer, Family, Next, Port, i2c};
///
/// let port = Port { family: Family::F82599, device: 0x10fb, lan: 0 };
/// let mut call = i2c::read_byte_open(port, 0xa0, 0, 1, false, None);
/// let end = loop {
///     match call.next() {
///         // A host may do something else here and come back with the answer.
///         Next::Ask(Access::Read { register: _ }) => call = call.step(Answer::Value(0)),
///         Next::Ask(_) => call = call.step(Answer::Done),
///         Next::End(end) => break end,
///         Next::Refused(number) => panic!("refused with {number}"),
///     }
/// };
/// // SDA reads low for ever: the one transfer fails.
/// assert_eq!(end.result, Err(sulfryk::Error::I2c { device: 0xa0 }));
/// assert_eq!(end.transfers, 1);
/// ```
#[derive(Debug)]
pub struct Call<T, L = Nothing> {
    block: abi::Block,
    of: PhantomData<fn() -> (T, L)>,
}

impl<T, L> Clone for Call<T, L> {
    fn clone(&self) -> Self {
        *self
    }
}

impl<T, L> Copy for Call<T, L> {}

impl<T: Value, L> Call<T, L> {
    pub(crate) fn of(block: abi::Block) -> Self {
        Call { block, of: PhantomData }
    }

    /// What the call wants next, or what came of it.
    pub fn next(&self) -> Next<T> {
        let next = &self.block.next;
        match next.kind {
            0 => Next::Ask(Access::Read { register: next.first }),
            1 => Next::Ask(Access::Write { register: next.first, value: next.second }),
            2 => Next::Ask(Access::Wait { micros: next.first }),
            5 => Next::Refused(next.first),
            // 3 and 4.
            _ => Next::End(self.end(Some(()))),
        }
    }

    /// What came of a call that is over; `io` is the error of the access by which it failed.
    fn end<E>(&self, io: Option<E>) -> Metered<R<T, E>> {
        let next = &self.block.next;
        let unknown = Error::Refused { number: next.first };
        let result = match (next.kind, next.first) {
            (3, _) => Ok(T::of(next)),
            // There is an error: 20 comes only where an access failed.
            (4, 20) => Err(io.map_or(unknown, Error::Io)),
            (4, 21) => Err(Error::Removed),
            (4, 22) => Err(Error::Semaphore { held: next.second }),
            (4, 23) => Err(Error::I2c { device: next.second as u8 }),
            (4, 24) => Err(Error::HostInterface { hicr: next.second }),
            (4, 25) => Err(Error::Firmware { command: next.second as u8, status: next.third as u8 }),
            (4, number) => T::failed(number).ok_or(unknown),
            // No kind of this crate's archive.
            _ => Err(unknown),
        };
        Metered { result, transfers: next.transfers, slowest: next.slowest }
    }

    /// Where the access that is next fails, its error is not the one that the result carries: the body of a firmware command
    /// has failed, and its lock is being given back.
    pub fn keeps_failure(&self) -> bool {
        abi::sulfryk_failure_kept(self.block.state)
    }

    /// Drives the call from its opening to its end.
    fn drive<Io: Registers>(
        mut self,
        io: &mut Io,
        mut step: impl FnMut(Self, Answer) -> Self,
    ) -> Metered<R<T, Io::Error>> {
        let mut failure = None;
        loop {
            let access = match self.next() {
                Next::Ask(access) => access,
                Next::End(_) => return self.end(failure),
                Next::Refused(number) => {
                    return Metered { result: Err(refused(number)), transfers: 0, slowest: 0 };
                }
            };
            let answer = access.make(io).unwrap_or_else(|e| {
                if !self.keeps_failure() {
                    failure = Some(e);
                }
                Answer::Failed
            });
            self = step(self, answer);
        }
    }
}

impl<T: Value> Call<T> {
    /// The call after this answer.
    pub fn step(self, answer: Answer) -> Self {
        let (kind, value) = answer.numbers();
        Call::of(abi::sulfryk_step(self.block.state, kind, value))
    }

    pub(crate) fn run<Io: Registers>(self, io: &mut Io) -> Metered<R<T, Io::Error>> {
        self.drive(io, Self::step)
    }
}

impl<T: Value> Call<T, Block> {
    /// The call after this answer. `block` is the one that was lent before; the response is read back into it.
    pub fn step(self, block: &mut [u32], answer: Answer) -> Self {
        let (kind, value) = answer.numbers();
        // SAFETY: the words are lent for this step alone.
        Call::of(unsafe {
            abi::sulfryk_command_step(self.block.state, block.as_mut_ptr(), block.len(), kind, value)
        })
    }

    pub(crate) fn run<Io: Registers>(self, io: &mut Io, block: &mut [u32]) -> Metered<R<T, Io::Error>> {
        self.drive(io, |call, answer| call.step(block, answer))
    }
}

impl<T: Value> Call<T, Script> {
    /// The call after this answer. `script` is the one that was lent before.
    pub fn step(self, script: &[u8], answer: Answer) -> Self {
        let (kind, value) = answer.numbers();
        // SAFETY: the bytes are lent for this step alone, and only read.
        Call::of(unsafe {
            abi::sulfryk_script_step(self.block.state, script.as_ptr(), script.len(), kind, value)
        })
    }

    /// The byte that the script has read, where the last step was the end of one.
    pub fn byte(&self) -> Option<u8> {
        // 256 and the byte; an end has other values there.
        let next = &self.block.next;
        (next.kind <= 2 && next.third >= 256).then_some(next.third as u8)
    }

    pub(crate) fn run<Io: Registers>(
        self,
        io: &mut Io,
        script: &[u8],
        mut read: impl FnMut(u8),
    ) -> Metered<R<T, Io::Error>> {
        self.drive(io, |call, answer| {
            let call = call.step(script, answer);
            call.byte().into_iter().for_each(&mut read);
            call
        })
    }
}

impl<T: Value> Call<T, Page> {
    /// The call after this answer. `buffer` is the one that was lent before; each byte is stored in it once it is read.
    pub fn step(self, buffer: &mut [u8], answer: Answer) -> Self {
        let (kind, value) = answer.numbers();
        // SAFETY: the bytes are lent for this step alone.
        Call::of(unsafe {
            abi::sulfryk_page_step(self.block.state, buffer.as_mut_ptr(), buffer.len(), kind, value)
        })
    }

    pub(crate) fn run<Io: Registers>(self, io: &mut Io, buffer: &mut [u8]) -> Metered<R<T, Io::Error>> {
        self.drive(io, |call, answer| call.step(buffer, answer))
    }
}

fn refused<E>(number: u32) -> Error<E> {
    match number {
        2 => Error::InvalidPort,
        number => Error::Refused { number },
    }
}
