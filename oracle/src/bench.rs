//! Runs the original's `identify` with the bench module from random starts and
//! with either clearing sequence, and compares the result and the state at the
//! end with what is claimed of a whole identification.

use std::collections::BTreeMap;
use std::convert::Infallible;
use std::fmt;

use crate::driver::i2c::{self, Meter, Sequence};
use crate::driver::{sfp, Error, Port};
use crate::fresh::Choice;
use host::Host;
use module::{has_mux, Stage, Wired, MUX_ON};
use start::Start;

mod host;
mod module;
pub mod record;
mod start;
mod words;

/// Disagreeing starts that are shown.
const SHOWN: u32 = 10;
/// Transfers of a call by the original's sequence whose module started in AckWrite.
const ABSENT: u32 = 11;

type Identified = Result<sfp::Module, Error<Infallible>>;

struct End {
    result: Identified,
    wired: Wired,
    /// The runs of `attempt`, and the slowest acknowledgement.
    meter: i2c::Meter,
    /// The same as the accesses show it: each attempt has its own lock, so
    /// that accesses to other registers part it from the next.
    runs: u32,
}

fn run(start: &Start) -> End {
    let mut host = Host::new(start);
    i2c::probe_meter();
    let result = i2c::probe_with(start.sequence, || sfp::identify(&mut host, start.port));
    End { result, meter: i2c::probe_meter(), runs: host.runs, wired: host.wired }
}

/// The four facts: class, bytes, lines, transfers, each byte of which was
/// acknowledged in the first sample.
fn facts(start: &Start, end: &End) -> [bool; 4] {
    let a0 = &start.module.pages[0];
    let class = match &end.result {
        Ok(m) => m.kind == words::kind(a0) && m.multispeed == words::multispeed(a0),
        Err(_) => false,
    };
    let module = &end.wired.module;
    let idle = module.receiver.stage == Stage::Idle;
    [
        class,
        module.pages == start.module.pages,
        idle && end.wired.released(),
        end.meter == Meter { transfers: words::requests(a0) + words::extra(&start.module), slowest: 1 },
    ]
}

fn absent(end: &End) -> bool {
    matches!(&end.result, Ok(m) if m.kind == sfp::Kind::NotPresent)
        && end.meter == Meter { transfers: ABSENT, slowest: 0 }
}

/// The four facts from every start; with the original's sequence not from AckWrite.
fn as_claimed(start: &Start, end: &End) -> bool {
    let all = facts(start, end) == [true; 4];
    let stuck = start.sequence == Sequence::Pulses && start.module.receiver.stage == Stage::AckWrite;
    let switched = end.wired.moved == 0 && (start.sequence == Sequence::Pulses || end.wired.unsettled == 0);
    let off = !end.wired.mux || end.wired.esdp & MUX_ON == 0;
    all != stuck && (!stuck || absent(end)) && end.runs == end.meter.transfers && end.wired.both == 0 && switched && off
}

type Counts = BTreeMap<String, u32>;

/// What the starts with each sequence were, and what became of them.
#[derive(Default)]
pub struct Tally {
    pub disagree: u32,
    pulses: Figures,
    rounds: Figures,
}

#[derive(Default)]
struct Figures {
    starts: usize,
    /// Those in which the module pulled SDA.
    pulled: u32,
    /// Those with a mux, off and on.
    mux: [u32; 2],
    stages: Counts,
    /// The stages with their bits, Send with the bit sent, Listen with the SDA noted.
    states: Counts,
    ports: Counts,
    results: Counts,
    transfers: Counts,
}

fn add(counts: &mut Counts, name: String) {
    *counts.entry(name).or_default() += 1;
}

/// The stage, and the state.
fn names(start: &Start) -> (&'static str, String) {
    let receiver = &start.module.receiver;
    let bit = u8::from(!start.module.pulls_sda());
    match receiver.stage {
        Stage::Idle => ("Idle", "Idle".into()),
        Stage::Address(n) => ("Address", format!("Address {n}")),
        Stage::Receive(n) => ("Receive", format!("Receive {n}")),
        Stage::AckRead => ("AckRead", "AckRead".into()),
        Stage::AckWrite => ("AckWrite", "AckWrite".into()),
        Stage::Send(n) => ("Send", format!("Send {n}, bit {bit}")),
        Stage::Listen => ("Listen", format!("Listen, {} noted", u8::from(receiver.noted))),
    }
}

impl Figures {
    fn count(&mut self, start: &Start, end: &End) {
        let (stage, state) = names(start);
        let Port { family, device, lan } = start.port;
        let qsfp = if i2c::probe_qsfp(start.port) { format!(", {device:x}") } else { String::new() };
        let result = match &end.result {
            Ok(module) => {
                format!("{:?}{}", module.kind, if module.multispeed { " multispeed" } else { "" })
            }
            Err(e) => format!("{e:?}"),
        };
        self.starts += 1;
        self.pulled += words::extra(&start.module);
        if has_mux(start.port) {
            self.mux[usize::from(start.esdp & MUX_ON != 0)] += 1;
        }
        add(&mut self.stages, stage.into());
        add(&mut self.states, state);
        add(&mut self.ports, format!("{family:?} {lan}{qsfp}"));
        add(&mut self.results, result);
        add(&mut self.transfers, format!("{:2}", end.meter.transfers));
    }
}

impl Tally {
    fn count(&mut self, start: &Start, end: &End) {
        match start.sequence {
            Sequence::Pulses => self.pulses.count(start, end),
            Sequence::Rounds => self.rounds.count(start, end),
        }
    }

    fn disagreed(&mut self, start: &Start, end: &End) {
        self.disagree += 1;
        if self.disagree <= SHOWN {
            let Start { sequence, port, word, esdp, module, .. } = start;
            let End { result, wired, meter, runs } = end;
            let Wired { both, moved, unsettled, .. } = wired;
            eprintln!("{sequence:?}, {port:?}, I2CCTL {word:08x}, ESDP {esdp:08x}, {:?}:", module.receiver);
            eprintln!("  {result:?}, {meter:?} ({runs} transfers seen), {:?}", wired.module.receiver);
            eprintln!("  class, bytes, lines, transfers: {:?}; {both} moved both", facts(start, end));
            eprintln!("  of ESDP {moved} moved a line, {unsettled} were unsettled");
        }
    }
}

impl fmt::Display for Figures {
    fn fmt(&self, f: &mut fmt::Formatter) -> fmt::Result {
        let tables = [
            ("stages", &self.stages),
            ("ports", &self.ports),
            ("results", &self.results),
            ("transfers", &self.transfers),
        ];
        for (name, counts) in tables {
            let counts: Vec<String> =
                counts.iter().map(|(of, count)| format!("{}: {count}", of.trim())).collect();
            writeln!(f, "{name}: {}", counts.join("; "))?;
        }
        let fewest = self.states.values().min().unwrap_or(&0);
        writeln!(f, "states: {}, each in at least {fewest} starts", self.states.len())?;
        let [off, on] = self.mux;
        writeln!(f, "pulled SDA at the start: {}; with a mux, off: {off}, on: {on}", self.pulled)
    }
}

impl fmt::Display for Tally {
    fn fmt(&self, f: &mut fmt::Formatter) -> fmt::Result {
        let Tally { disagree, pulses, rounds } = self;
        for (name, figures) in [("the original's sequence", pulses), ("the sequence of rounds", rounds)] {
            write!(f, "{name}: {} starts\n{figures}", figures.starts)?;
        }
        write!(f, "{} starts, {disagree} disagree", pulses.starts + rounds.starts)
    }
}

pub fn starts(seed: u64, count: usize) -> Tally {
    let mut choice = Choice::new(seed);
    let mut tally = Tally::default();
    for _ in 0..count {
        let start = choice.start();
        let end = run(&start);
        tally.count(&start, &end);
        if !as_claimed(&start, &end) {
            tally.disagreed(&start, &end);
        }
    }
    tally
}
