//! The record that the main job prints of an image, by the original's
//! `identify` and then its `read_byte` for a page, with the bench module. A
//! case is the words of the command line.

use std::fmt::Write;

use super::host::Host;
use super::module::{has_mux, layout, Module, Receiver, Stage, Wired, MUX_ON};
use super::start::Start;
use super::{run, End};
use crate::case::FAMILIES;
use crate::driver::i2c::{self, Sequence};
use crate::driver::{Error, Family, Port};
use crate::fresh::Choice;
use crate::page;

const NAMES: [&str; 5] = ["82599", "X540", "X550", "X552", "X553"];
const PAGES: [&str; 2] = ["A0", "A2"];
/// In the order of `Sequence`.
const SEQUENCES: [&str; 2] = ["pulses", "rounds"];
const STAGES: [(&str, u8); 7] =
    [("idle", 0), ("address", 9), ("receive", 9), ("ackread", 0), ("ackwrite", 0), ("send", 8), ("listen", 0)];

fn place(of: &[&str], value: &str) -> Result<usize, String> {
    of.iter().position(|x| *x == value).ok_or(format!("'{value}' is none of {of:?}"))
}

fn hex(value: &str) -> Result<u32, String> {
    u32::from_str_radix(value, 16).map_err(|e| format!("'{value}': {e}"))
}

fn stage(value: &str) -> Result<Stage, String> {
    let (name, n) = value.split_once(':').unwrap_or((value, "0"));
    let n = n.parse().map_err(|e| format!("'{value}': {e}"))?;
    Ok(match name {
        "idle" => Stage::Idle,
        "address" => Stage::Address(n),
        "receive" => Stage::Receive(n),
        "ackread" => Stage::AckRead,
        "ackwrite" => Stage::AckWrite,
        "send" => Stage::Send(n),
        "listen" => Stage::Listen,
        _ => return Err(format!("'{value}' is no stage")),
    })
}

fn name(stage: Stage) -> String {
    match stage {
        Stage::Idle => "idle".into(),
        Stage::Address(n) => format!("address:{n}"),
        Stage::Receive(n) => format!("receive:{n}"),
        Stage::AckRead => "ackread".into(),
        Stage::AckWrite => "ackwrite".into(),
        Stage::Send(n) => format!("send:{n}"),
        Stage::Listen => "listen".into(),
    }
}

/// The image's name, and the start that the words give.
fn start(words: &str, folder: &str) -> Result<(String, Start), String> {
    let mut image = String::new();
    let mut sequence = Sequence::Rounds;
    let mut port = Port { family: Family::F82599, device: 0x10fb, lan: 0 };
    let mut receiver =
        Receiver { stage: Stage::Idle, bits: 0, page: 0, offset_next: false, noted: true };
    let (mut offsets, mut word, mut esdp) = ([0, 0], None, 0);
    for w in words.split(' ') {
        let Some((name, value)) = w.split_once('=') else {
            image = w.into();
            continue;
        };
        match name {
            "family" => port.family = FAMILIES[place(&NAMES, value)?],
            "port" => port.lan = place(&["0", "1"], value)? as u8,
            "device" => port.device = hex(value)? as u16,
            "stage" => receiver.stage = stage(value)?,
            "taken" => receiver.bits = hex(value)? as u8,
            "page" => receiver.page = place(&PAGES, value)?,
            "next" => receiver.offset_next = place(&["data", "offset"], value)? == 1,
            "sda" => receiver.noted = place(&["low", "high"], value)? == 1,
            "a0" => offsets[0] = hex(value)? as u8,
            "a2" => offsets[1] = hex(value)? as u8,
            "control" => word = Some(hex(value)?),
            "esdp" => esdp = hex(value)?,
            "sequence" => {
                sequence = [Sequence::Pulses, Sequence::Rounds][place(&SEQUENCES, value)?];
            }
            _ => return Err(format!("'{w}' has no such name")),
        }
    }
    let path = format!("{folder}/{image}");
    let bytes = std::fs::read(&path).map_err(|e| format!("{path}: {e}"))?;
    let page = |at: usize| bytes.get(at..at + 256).and_then(|b| b.try_into().ok()).ok_or(path.clone());
    let module = Module { pages: [page(0)?, page(256)?], offsets, receiver };
    let default = match port.family {
        Family::X552 | Family::X553 => 0x2800,
        _ => 0x000a,
    };
    Ok((image, Start { sequence, port, word: word.unwrap_or(default), esdp, module, answers: 0 }))
}

fn text(bytes: &[u8]) -> String {
    let shown: String =
        bytes.iter().map(|b| if (0x20..=0x7e).contains(b) { *b as char } else { '?' }).collect();
    shown.trim_end_matches(' ').into()
}

fn or(yes: bool, one: &'static str, other: &'static str) -> &'static str {
    if yes { one } else { other }
}

/// ESDP, where the port has a mux.
fn mux(out: &mut String, name: &str, port: Port, esdp: u32) -> std::fmt::Result {
    if has_mux(port) {
        writeln!(out, "{name:12}{esdp:08x}; the mux is {}", or(esdp & MUX_ON == 0, "off", "on"))?;
    }
    Ok(())
}

/// The number of a failure that a start can have.
fn number<E: std::fmt::Debug>(error: &Error<E>) -> u32 {
    match error {
        Error::Removed => 21,
        Error::I2c { .. } => 23,
        e => panic!("from no start a call ends with {e:?}"),
    }
}

fn record(image: &str, start: &Start, end: &End) -> Result<String, std::fmt::Error> {
    let Start { sequence, port, word, esdp, module, .. } = start;
    let mut out = String::new();
    writeln!(out, "image       {image}")?;
    let family = NAMES[FAMILIES.iter().position(|f| *f == port.family).unwrap_or(0)];
    writeln!(out, "port        {family}, port number {}, PCI device {:04x}", port.lan, port.device)?;
    let r = &module.receiver;
    let kept = format!("taken {:02x}, page {}", r.bits, PAGES[r.page]);
    let next = or(r.offset_next, "offset", "data");
    let [o0, o2] = module.offsets;
    let sda = or(r.noted, "high", "low");
    writeln!(out, "start       {}, {kept}, next {next}, sda {sda}, a0 {o0:02x}, a2 {o2:02x}", name(r.stage))?;
    let pulls = or(module.pulls_sda(), "pulls", "does not pull");
    writeln!(out, "control     {word:08x}; the module {pulls} SDA")?;
    mux(&mut out, "esdp", *port, *esdp)?;
    writeln!(out, "sequence    {}", SEQUENCES[*sequence as usize])?;
    match &end.result {
        Ok(m) => {
            writeln!(out, "kind        {:?}", m.kind)?;
            writeln!(out, "multispeed  {}", or(m.multispeed, "yes", "no"))?;
            writeln!(out, "identifier  {:02x}", m.identifier)?;
            writeln!(out, "comp_10g    {:02x}", m.comp_10g)?;
            writeln!(out, "comp_1g     {:02x}", m.comp_1g)?;
            writeln!(out, "cable       {:02x}", m.cable)?;
            writeln!(out, "supported   {}", or(m.supported(port.family), "yes", "no"))?;
        }
        Err(e) => writeln!(out, "failed      {}", number(e))?,
    }
    writeln!(out, "transfers   {}", end.meter.transfers)?;
    match end.meter.slowest {
        0 => writeln!(out, "slowest acknowledgement: none")?,
        sample => writeln!(out, "slowest acknowledgement: sample {sample} of 10")?,
    }
    let Wired { module: after, .. } = &end.wired;
    let released = or(end.wired.released(), "both lines released", "a line held low");
    let bytes = or(after.pages == module.pages, "same", "changed");
    let [o0, o2] = after.offsets;
    let stage = name(after.receiver.stage);
    writeln!(out, "module      {stage}, {released}, bytes {bytes}, a0 {o0:02x}, a2 {o2:02x}")?;
    mux(&mut out, "esdp after", *port, end.wired.esdp)?;
    texts(&mut out, start, end)?;
    Ok(out)
}

/// The page read after the identification, on a copy of the module: its texts,
/// or the number of the failure.
fn texts(out: &mut String, start: &Start, end: &End) -> std::fmt::Result {
    let mut host = Host::at(start, end.wired.clone());
    let mut buffer = [0; page::BYTES];
    i2c::probe_meter();
    let attempts = i2c::attempts(start.port);
    let read =
        i2c::probe_with(start.sequence, || page::read(&mut host, start.port, 0, attempts, &mut buffer));
    let number = match read {
        Ok(()) => page::judged(&buffer),
        Err(e) => number(&e),
    };
    let transfers = i2c::probe_meter().transfers;
    if number != 0 {
        return writeln!(out, "page        failed {number} after {transfers} transfers");
    }
    writeln!(out, "page        {transfers} transfers, both sums right")?;
    writeln!(out, "vendor      {}", text(&buffer[20..36]))?;
    writeln!(out, "part        {}", text(&buffer[40..56]))?;
    writeln!(out, "serial      {}", text(&buffer[68..84]))
}

/// Each case of a list, a line that begins with `$ `, and its record.
pub fn records(list: &str, folder: &str) -> Result<(), String> {
    for words in list.lines().filter_map(|line| line.strip_prefix("$ ")) {
        let (image, start) = start(words, folder)?;
        let record = record(&image, &start, &run(&start)).map_err(|e| e.to_string())?;
        println!("$ {words}\n{record}");
    }
    Ok(())
}

impl Choice {
    /// Any word, or one with which ESDP comes to read FFFFFFFF on the port with a mux.
    fn any_esdp(&mut self) -> u32 {
        let word = self.word();
        self.one(&[word & !MUX_ON, word | MUX_ON, word, MUX_ON, !MUX_ON, u32::MAX])
    }

    /// The words of a case: an image and any of the settings.
    fn words(&mut self, images: &[String]) -> String {
        let at = self.below(images.len() as u32) as usize;
        let mut words = images[at].clone();
        let family = self.below(5) as usize;
        let mut set = |name: &str, value: String| words += &format!(" {name}={value}");
        set("family", NAMES[family].into());
        let (stage, counts) = STAGES[self.below(7) as usize];
        set("stage", if counts == 0 { stage.into() } else { format!("{stage}:{}", self.below(counts.into())) });
        let all = [
            ("port", self.below(2).to_string()),
            ("device", format!("{:x}", self.one(&[0x1558, 0x1558, 0x10fb, 0xffff]))),
            ("taken", format!("{:x}", self.below(256))),
            ("page", PAGES[self.below(2) as usize].into()),
            ("next", self.one(&["data", "offset"]).into()),
            ("sda", self.one(&["low", "high"]).into()),
            ("a0", format!("{:02x}", self.below(256))),
            ("a2", format!("{:x}", self.below(256))),
            ("esdp", format!("{:x}", self.any_esdp())),
            ("sequence", self.one(&SEQUENCES).into()),
        ];
        for (name, value) in all {
            if self.percent(60) {
                set(name, value);
            }
        }
        if self.percent(60) {
            let l = layout(FAMILIES[family]);
            let word = self.word();
            let word = if word & l.bb_en == 0 { word | l.scl_off | l.sda_off } else { word };
            set("control", format!("{word:x}"));
        }
        words
    }
}

/// Fresh cases over the images of a folder.
pub fn words(seed: u64, count: usize, folder: &str) -> Result<(), String> {
    let entries = std::fs::read_dir(folder).map_err(|e| format!("{folder}: {e}"))?;
    let mut images: Vec<String> =
        entries.filter_map(|e| e.ok()?.file_name().into_string().ok()).filter(|n| n.ends_with(".bin")).collect();
    images.sort();
    let mut choice = Choice::new(seed);
    for _ in 0..count {
        println!("$ {}", choice.words(&images));
    }
    Ok(())
}
