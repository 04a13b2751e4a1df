//! Random calls: the original records its accesses with their answers, and the port replays them.

use std::collections::BTreeMap;
use std::time::Instant;

use sulfryk::light::NotFinite;
use sulfryk::pages::WrongSum;
use sulfryk::{Error, R};

use crate::answers::Answers;
use crate::bus::STATES;
use crate::case::{Call, Came, Case, Form, NAMES, Value};
use crate::choice::Choice;
use crate::trace::{Replay, Step};
use crate::{port, reference};

/// Differing runs that are shown.
const SHOWN: u64 = 10;

/// From so many runs on, every case that is named by `missing` must come up.
const ENOUGH: u64 = 20_000;

const KINDS: [&str; 10] =
    ["DaCu", "DaActiveLimiting", "SrLr", "Cu1g", "Sx1g", "Lx1g", "Bx10g", "Bx1g", "Unknown", "NotPresent"];

/// The ends besides the kinds: the errors of the calls, that of a body under `locked`, and the values.
const ENDS: [&str; 18] = [
    "Io",
    "Removed",
    "Semaphore",
    "I2c",
    "HostInterface",
    "Firmware",
    "the body's",
    "ok",
    "false",
    "true",
    "right sums",
    "wrong first sum",
    "wrong second sum",
    "coefficient not finite",
    "power not finite",
    "internal",
    "calibrated",
    "absent",
];

/// The kind of an end.
fn end(result: &R<Value, u32>) -> &'static str {
    match result {
        Ok(Value::Module([kind, ..])) => KINDS[usize::from(*kind)],
        Ok(Value::Flag(flag)) => ["false", "true"][usize::from(*flag)],
        Ok(Value::Sums(Ok(()))) => "right sums",
        Ok(Value::Sums(Err(WrongSum::First))) => "wrong first sum",
        Ok(Value::Sums(Err(WrongSum::Second))) => "wrong second sum",
        Ok(Value::Light(Err(NotFinite::Coefficient))) => "coefficient not finite",
        Ok(Value::Light(Err(NotFinite::Power))) => "power not finite",
        Ok(Value::Light(Ok([_, _, _, _, kind, _]))) => ["internal", "calibrated", "absent"][*kind as usize],
        Ok(_) => "ok",
        Err(Error::Io(_)) => "Io",
        Err(Error::Removed) => "Removed",
        Err(Error::Semaphore { .. }) => "Semaphore",
        Err(Error::I2c { .. }) => "I2c",
        Err(Error::HostInterface { .. }) => "HostInterface",
        Err(Error::Firmware { .. }) => "Firmware",
        Err(Error::NoPhy | Error::PipelineReset) => "the body's",
        Err(other) => panic!("no call gives {other:?}"),
    }
}

#[derive(Default)]
struct Figures {
    runs: u64,
    accesses: u64,
    ends: BTreeMap<&'static str, u64>,
}

struct Tally {
    differences: u64,
    figures: [Figures; NAMES.len()],
    /// Runs from each state of the bench module.
    states: [u64; STATES],
    /// Runs by family, by the sequence's name and by form.
    families: BTreeMap<String, u64>,
    sequences: BTreeMap<String, u64>,
    forms: BTreeMap<String, u64>,
    /// An `Io` whose error is not that of the last failed access.
    kept: u64,
    blocks: [bool; 65],
    slowest: [u64; 11],
}

impl Tally {
    fn new() -> Self {
        Tally {
            differences: 0,
            figures: std::array::from_fn(|_| Figures::default()),
            states: [0; STATES],
            families: BTreeMap::new(),
            sequences: BTreeMap::new(),
            forms: BTreeMap::new(),
            kept: 0,
            blocks: [false; 65],
            slowest: [0; 11],
        }
    }

    fn count(&mut self, case: &Case, state: Option<usize>, trace: &[Step], came: &Came) {
        let figures = &mut self.figures[case.call.place()];
        figures.runs += 1;
        figures.accesses += trace.len() as u64;
        *figures.ends.entry(end(&came.result)).or_default() += 1;
        if let Some(state) = state {
            self.states[state] += 1;
        }
        let qsfp = if case.port.device == 0x1558 { ", 1558" } else { "" };
        let family = format!("{:?} {}{qsfp}", case.port.family, case.port.lan);
        *self.families.entry(family).or_default() += 1;
        if case.call.clears() {
            let name = case.sequence.map_or("default".to_string(), |s| format!("{s:?}"));
            *self.sequences.entry(name).or_default() += 1;
        }
        *self.forms.entry(format!("{:?}", case.form)).or_default() += 1;
        if let Err(Error::Io(e)) = came.result {
            let last = trace.iter().rposition(|step| step.failed).expect("an access failed");
            self.kept += u64::from(e as usize != last);
        }
        if let Call::Command { block } = &case.call {
            self.blocks[block.len()] = true;
        }
        if let (true, Some((_, slowest))) = (case.call.transfers(), came.meter) {
            self.slowest[slowest as usize] += 1;
        }
    }

    fn differs(&mut self, number: u64, case: &Case, trace: &[Step], replay: &Replay, one: &Came, two: &Came) {
        self.differences += 1;
        if self.differences > SHOWN {
            return;
        }
        println!("run {number}: {case:?}");
        println!("  original: {} accesses, {one:?}", trace.len());
        println!("  port:     {} accesses, {two:?}", replay.made);
        if let Some((at, access)) = replay.other {
            println!("  access {at}: {:?} in the original, {access:?} in the port", trace.get(at));
        }
    }

    fn runs(&self) -> u64 {
        self.figures.iter().map(|f| f.runs).sum()
    }

    /// The cases that no run met: calls, ends, states of the bench module, slowest samples, an error that was kept.
    fn missing(&self) -> Vec<String> {
        let calls =
            NAMES.iter().zip(&self.figures).filter(|(_, f)| f.runs == 0).map(|(name, _)| name.to_string());
        let met = |end: &str| self.figures.iter().any(|f| f.ends.contains_key(end));
        let ends = KINDS.iter().chain(&ENDS).filter(|end| !met(end)).map(|end| format!("the end {end}"));
        let states = (0..STATES).filter(|n| self.states[*n] == 0).map(|n| format!("bench state {n}"));
        let slowest = (0..=10).filter(|n| self.slowest[*n] == 0).map(|n| format!("slowest sample {n}"));
        let kept = (self.kept == 0).then(|| "an error of a body kept over its release's".to_string());
        calls.chain(ends).chain(states).chain(slowest).chain(kept).collect()
    }

    fn print(&self) {
        let listed = |counts: &BTreeMap<String, u64>| {
            counts.iter().map(|(of, count)| format!("{of} {count}")).collect::<Vec<_>>().join(", ")
        };
        for (name, Figures { runs, accesses, ends }) in NAMES.iter().zip(&self.figures) {
            let ends: Vec<String> = ends.iter().map(|(end, count)| format!("{end} {count}")).collect();
            println!("{name}: {runs} runs, {accesses} accesses; {}", ends.join(", "));
        }
        println!("ports: {}", listed(&self.families));
        println!("sequences: {}", listed(&self.sequences));
        println!("forms: {}", listed(&self.forms));
        let states = self.states.iter().filter(|count| **count > 0).count();
        let fewest = self.states.iter().min().expect("there are states");
        println!("bench module: from {states} of {STATES} states, from each in at least {fewest} runs");
        let lengths = self.blocks.iter().filter(|met| **met).count();
        println!(
            "command: blocks of {lengths} lengths; an error of a body kept over its release's: {}",
            self.kept
        );
        println!("slowest sample, 0 to 10: {:?}", self.slowest);
    }
}

/// The meter is compared where both sides have one; scripts and transfers do.
fn same(one: &Came, two: &Came) -> bool {
    let metered = match (one.meter, two.meter) {
        (Some(one), Some(two)) => one == two,
        _ => true,
    };
    metered && one.result == two.result && one.words == two.words && one.bytes == two.bytes
}

/// The original's run, recorded, with the meter of the changed copy.
fn recorded(case: &Case, answers: &mut Answers) -> Came {
    if !case.as_original() {
        return reference::metered(answers, case);
    }
    let came = reference::unchanged(answers, case);
    let mut replay = Replay::new(&answers.trace);
    let copy = reference::metered(&mut replay, case);
    assert!(
        replay.whole() && same(&came, &copy),
        "the changed copy does the same with the original's sequence"
    );
    copy
}

/// The number of differing runs, and of cases that enough runs did not meet.
pub fn compared(seed: u64, count: u64) -> u64 {
    let began = Instant::now();
    let mut choice = Choice::new(seed);
    let mut tally = Tally::new();
    let mut trace = Vec::new();
    for number in 0..count {
        let case = Case::draw(&mut choice);
        let mut answers = Answers::new(&mut choice, &case, trace);
        let state = answers.bus.state();
        let one = recorded(&case, &mut answers);
        trace = answers.trace;
        let odd = case.form == Form::Stepped && choice.percent(20);
        let mut replay = Replay::new(&trace);
        let two = port::call(&mut replay, &case, odd);
        if !replay.whole() || !same(&one, &two) {
            tally.differs(number, &case, &trace, &replay, &one, &two);
        }
        tally.count(&case, state, &trace, &one);
    }
    tally.print();
    let accesses: u64 = tally.figures.iter().map(|f| f.accesses).sum();
    let seconds = began.elapsed().as_secs_f64();
    let missing = if count < ENOUGH { Vec::new() } else { tally.missing() };
    if !missing.is_empty() {
        println!("seed {seed}: no run met {}", missing.join(", "));
    }
    println!(
        "seed {seed}: {} runs, {accesses} accesses, {:.2} million a second, {} differences",
        tally.runs(),
        accesses as f64 / seconds / 1e6,
        tally.differences
    );
    tally.differences + missing.len() as u64
}
