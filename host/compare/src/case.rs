//! The calls that are compared, with their arguments, and what comes of one.

use sulfryk::light::NotFinite;
use sulfryk::pages::WrongSum;
use sulfryk::{Error, Family, Port, R, Registers, Sequence, sync};

use crate::choice::Choice;

/// A call with its arguments. `attempts` are those of each byte.
#[derive(Clone, Debug)]
pub enum Call {
    ReadByte { device: u8, offset: u8, attempts: usize, lock: bool },
    WriteByte { device: u8, offset: u8, value: u8, lock: bool },
    ReadCombined { device: u8, reg: u16, lock: bool },
    WriteCombined { device: u8, reg: u16, value: u16, lock: bool },
    QsfpSetup,
    Identify,
    IdentifyQsfp,
    SoftRateSelect { ten: bool },
    Acquire { mask: u32 },
    Release { mask: u32 },
    Locked { mask: u32, body: Body },
    Command { block: Vec<u32> },
    Token { take: bool },
    Page { attempts: usize },
    QsfpPage { attempts: usize },
    Light { attempts: usize },
    Script { script: Vec<u8> },
}

/// What is done under `locked`.
#[derive(Clone, Copy, Debug)]
pub enum Body {
    Nothing,
    Read,
    WriteAndRead,
    ReadAndFail,
    Fail,
}

impl Body {
    pub fn run<Io: Registers>(self, io: &mut Io) -> R<u8, Io::Error> {
        const REGISTER: u32 = 0x042a4;
        match self {
            Body::Nothing => Ok(7),
            Body::Read => Ok(io.read(REGISTER).map_err(Error::Io)? as u8),
            Body::WriteAndRead => {
                io.write(REGISTER, 5).map_err(Error::Io)?;
                Ok(io.read(REGISTER).map_err(Error::Io)? as u8)
            }
            Body::ReadAndFail => {
                io.read(REGISTER).map_err(Error::Io)?;
                Err(Error::NoPhy)
            }
            Body::Fail => Err(Error::PipelineReset),
        }
    }
}

/// How the port's call is made.
#[derive(Clone, Copy, Debug, PartialEq, Eq)]
pub enum Form {
    /// By the original's signature, or that with a sequence.
    Plain,
    Metered,
    /// One access at a time, now and then with an answer of another kind first.
    Stepped,
}

#[derive(Clone, Debug)]
pub struct Case {
    pub call: Call,
    pub port: Port,
    /// `None` is the default.
    pub sequence: Option<Sequence>,
    pub form: Form,
}

/// What a call gives where it succeeds.
#[derive(Clone, Copy, Debug, PartialEq, Eq)]
pub enum Value {
    Done,
    Byte(u8),
    Word(u16),
    Flag(bool),
    /// The kind by its place in the list, multispeed, identifier, comp_10g, comp_1g, cable.
    Module([u8; 6]),
    Sums(Result<(), WrongSum>),
    /// Temperature, voltage, bias, power sent, the reading's kind and its count or pattern.
    Light(Result<[u32; 6], NotFinite>),
}

/// What came of a call, and what is in the block or buffer after it, or was read by the script.
#[derive(Clone, Debug, PartialEq, Eq)]
pub struct Came {
    pub result: R<Value, u32>,
    /// Transfers and slowest sample, where they are known.
    pub meter: Option<(u32, u32)>,
    pub words: Vec<u32>,
    pub bytes: Vec<u8>,
}

/// Bytes of the buffer for a page; byte i begins as 255 - i.
pub const BUFFER: u8 = 100;

pub fn buffer() -> Vec<u8> {
    (0..BUFFER).map(|i| 255 - i).collect()
}

pub const NAMES: [&str; 17] = [
    "read_byte",
    "write_byte",
    "read_combined",
    "write_combined",
    "qsfp_setup",
    "identify",
    "identify_qsfp",
    "soft_rate_select",
    "acquire",
    "release",
    "locked",
    "command",
    "token",
    "page",
    "qsfp_page",
    "light",
    "script",
];

/// How often each of `NAMES` is drawn beside the others. Pages and light take long.
const WEIGHTS: [u32; 17] = [130, 90, 70, 70, 20, 80, 40, 40, 140, 90, 50, 110, 60, 8, 8, 25, 60];

pub const FAMILIES: [Family; 5] = [Family::F82599, Family::X540, Family::X550, Family::X552, Family::X553];

impl Case {
    pub fn draw(choice: &mut Choice) -> Self {
        let call = Call::draw(choice);
        let device = choice.one(&[0x1558, 0x1558, 0x10fb, 0x15ac, 0]);
        let port = Port { family: choice.one(&FAMILIES), device, lan: choice.below(2) as u8 };
        let sequence = match choice.below(20) {
            0..=9 => Some(Sequence::Pulses),
            10..=16 => None,
            _ => Some(Sequence::Rounds),
        };
        let sequence = if call.clears() { sequence } else { None };
        let form = choice.one(&[Form::Plain, Form::Plain, Form::Metered, Form::Metered, Form::Stepped]);
        Case { call, port, sequence, form }
    }

    /// The port is to do what the original does unchanged.
    pub fn as_original(&self) -> bool {
        !self.call.clears() || self.sequence == Some(Sequence::Pulses)
    }
}

impl Call {
    /// Its place in `NAMES`.
    pub fn place(&self) -> usize {
        match self {
            Call::ReadByte { .. } => 0,
            Call::WriteByte { .. } => 1,
            Call::ReadCombined { .. } => 2,
            Call::WriteCombined { .. } => 3,
            Call::QsfpSetup => 4,
            Call::Identify => 5,
            Call::IdentifyQsfp => 6,
            Call::SoftRateSelect { .. } => 7,
            Call::Acquire { .. } => 8,
            Call::Release { .. } => 9,
            Call::Locked { .. } => 10,
            Call::Command { .. } => 11,
            Call::Token { .. } => 12,
            Call::Page { .. } => 13,
            Call::QsfpPage { .. } => 14,
            Call::Light { .. } => 15,
            Call::Script { .. } => 16,
        }
    }

    /// It takes a clearing sequence by name.
    pub fn clears(&self) -> bool {
        matches!(self.place(), 0..=3 | 5..=7 | 13..=15)
    }

    /// It makes transfers.
    pub fn transfers(&self) -> bool {
        self.clears() || matches!(self, Call::Script { .. })
    }

    /// About as many binary digits as its accesses have where all goes well.
    pub fn digits(&self) -> u32 {
        match self.place() {
            0..=3 | 16 => 10,
            5..=7 => 12,
            13 | 14 => 16,
            15 => 14,
            11 => 7,
            _ => 6,
        }
    }

    fn draw(choice: &mut Choice) -> Self {
        let device = choice.one(&[0xa0, 0xa0, 0xa2, 0xbe, 0x7c, 0x00, 0xfe]);
        let lock = choice.flip();
        match choice.weighted(&WEIGHTS) {
            0 => Call::ReadByte { device, offset: choice.byte(), attempts: attempts(choice), lock },
            1 => Call::WriteByte { device, offset: choice.byte(), value: choice.byte(), lock },
            2 => Call::ReadCombined { device, reg: choice.word() as u16, lock },
            3 => Call::WriteCombined { device, reg: choice.word() as u16, value: choice.word() as u16, lock },
            4 => Call::QsfpSetup,
            5 => Call::Identify,
            6 => Call::IdentifyQsfp,
            7 => Call::SoftRateSelect { ten: choice.flip() },
            8 => Call::Acquire { mask: mask(choice) },
            9 => Call::Release { mask: mask(choice) },
            10 => Call::Locked { mask: mask(choice), body: body(choice) },
            11 => Call::Command { block: block(choice) },
            12 => Call::Token { take: choice.flip() },
            13 => Call::Page { attempts: attempts(choice) },
            14 => Call::QsfpPage { attempts: attempts(choice) },
            15 => Call::Light { attempts: attempts(choice) },
            _ => Call::Script { script: script(choice) },
        }
    }
}

/// Mostly few, now and then none or as many as are allowed.
fn attempts(choice: &mut Choice) -> usize {
    match choice.below(100) {
        0..=2 => 0,
        3 => choice.below(256) as usize,
        4 => 255,
        _ => choice.one(&[1, 1, 2, 3, 4, 11]),
    }
}

fn mask(choice: &mut Choice) -> u32 {
    let named =
        [sync::PHY0, sync::PHY1, sync::EEP, sync::SW_MNG, sync::MAC_CSR, sync::I2C0, sync::SHARED_I2C, 0];
    let mask = match choice.below(10) {
        0..=6 => choice.one(&named),
        7..=8 => choice.word() & choice.word() & 0x7fff,
        _ => choice.word(),
    };
    // With SW_MNG taken, the command that asks for the token waits in vain.
    match choice.below(100) {
        0..=27 => mask & !sync::SW_MNG | sync::TOKEN,
        28..=29 => mask | sync::TOKEN,
        _ => mask,
    }
}

fn body(choice: &mut Choice) -> Body {
    choice.one(&[Body::Nothing, Body::Read, Body::WriteAndRead, Body::ReadAndFail, Body::Fail])
}

fn block(choice: &mut Choice) -> Vec<u32> {
    let words = 1 + if choice.percent(70) { choice.below(7) } else { choice.below(64) };
    (0..words).map(|_| choice.word()).collect()
}

/// One to four phrases and a stop, at most 64 bytes.
fn script(choice: &mut Choice) -> Vec<u8> {
    let mut script = Vec::new();
    for _ in 0..=choice.below(4) {
        let address = choice.mostly(60, &[0xa0, 0xa1, 0xa2, 0xa3]);
        let more = choice.spread(4) as usize;
        let mut phrase = vec![0x10, 0x20, address];
        if address & 1 == 0 {
            (0..more).for_each(|_| phrase.extend([0x20, choice.byte()]));
        } else {
            phrase.extend(vec![0x30; more]);
            phrase.push(0x31);
        }
        if script.len() + phrase.len() < 64 {
            script.extend(phrase);
        }
    }
    script.push(0x40);
    script
}
