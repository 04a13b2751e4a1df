//! The groups of late acknowledgements, of every call that sends bytes.

use super::light::{shape, INSIDE, STRAIGHT};
use super::pages::{port, FORMS};
use super::rounds::rounds;
use super::sfp::*;
use super::transfers::*;
use super::*;
use crate::script::Phrase::{Read, Send};

pub fn add(list: &mut List) {
    slow_bytes(list);
    slow_failures(list);
    slow_clears(list);
    slow_refusals(list);
}

/// Each call going well, at a port by its number.
fn sent(list: &mut List, number: usize) -> Vec<Case> {
    let (family, lan, device) = port(number);
    let script = list.script(&[Send(1), Read(1), Send(2)]);
    let mut all = Vec::new();
    for call in list.calls(4, number.is_multiple_of(2)).into_iter().chain([script]) {
        all.push(list.good(call, family, lan, device));
    }
    for plan in plans() {
        all.push(list.planned(&plan, family, lan, device));
    }
    for function in FORMS {
        all.push(list.page(function, (family, lan, device), 4, 0));
    }
    all.push(list.light((family, lan, device), 4, 0, shape(INSIDE, STRAIGHT)));
    all
}

/// Each call once, the sequences in turn: for runs in which no bus is cleared,
/// so that the sequence makes no difference. A script has the original's.
fn in_turn(list: &mut List, number: usize) -> Vec<Case> {
    let named = |(i, case): (usize, Case)| {
        if case.function != SCRIPT && (number / 2 + i) % 2 == 1 {
            rounds(case)
        } else {
            case
        }
    };
    sent(list, number).into_iter().enumerate().map(named).collect()
}

/// Each call with each sequence, at two ports: the halves differ in how the
/// bus is cleared, in the port, the lock and the seed.
fn in_both(list: &mut List, number: usize) -> Vec<Case> {
    let mut all = sent(list, number);
    let others = sent(list, number + 1).into_iter().filter(|case| case.function != SCRIPT);
    all.extend(others.map(rounds));
    all
}

/// One byte acknowledged at this sample, and every other at the first: the
/// byte is the first where that would not tell.
fn slow(list: &mut List, case: &Case, sample: u32) -> (Case, u32) {
    let acks = numbers_of(case, |s| s.sample(1));
    let ack = if sample == 1 { acks[0] } else { list.drawn(&acks) };
    (sda_high(case, ack, sample - 1), ack + sample - 1)
}

/// One byte acknowledged at each sample, 1 to 10, and every other at the first.
fn slow_bytes(list: &mut List) {
    for sample in 1..=SAMPLES {
        for case in in_turn(list, sample as usize) {
            let (case, _) = slow(list, &case, sample);
            list.push(case);
        }
    }
}

/// The same, and an access right behind that acknowledgement failing.
fn slow_failures(list: &mut List) {
    for sample in 1..=SAMPLES {
        for case in in_turn(list, 3 + sample as usize) {
            let (case, heard) = slow(list, &case, sample);
            let at = seen(&case)[heard as usize].at;
            list.push(failing(&case, at + 1 + sample as usize % 2));
        }
    }
}

/// The case with every rise of SCL stretched by the reads that come before
/// this sample, and its acknowledgements by request: the number of the first
/// sample of each. All are at the first sample.
fn waiting(case: &Case, sample: u32) -> (Case, Vec<Vec<u32>>) {
    let case = stretched(case, sample - 1);
    let acks: Vec<Seen> = seen(&case).into_iter().filter(|s| s.sample(sample)).collect();
    let within =
        |r: Request| acks.iter().filter(|s| r.first < s.at && s.at < r.last).map(|s| s.number).collect();
    let all = requests(&case).into_iter().map(within).collect();
    (case, all)
}

/// SCL reads high at once before this acknowledgement of a `waiting` case, so
/// that it comes at the sample, and the others at the first.
fn hurried(case: &Case, ack: u32, sample: u32) -> Case {
    ones(case, seen(case)[(ack - sample) as usize].at)
}

impl List {
    /// The places of two of so many, the earlier first.
    fn two(&mut self, of: usize) -> (usize, usize) {
        let later = 1 + self.word() as usize % (of - 1);
        (self.word() as usize % later, later)
    }
}

/// One byte acknowledged at each sample, every other at the first, and a later
/// one of the same attempt not at all, once: the bus is cleared, and the next
/// attempt goes well where the call has one.
fn slow_clears(list: &mut List) {
    for sample in 1..=SAMPLES {
        for case in in_both(list, 5 + sample as usize) {
            let (case, requests) = waiting(&case, sample);
            let acks = &requests[list.word() as usize % requests.len()];
            let (slow, missing) = list.two(acks.len());
            list.push(sda_high(&hurried(&case, acks[slow], sample), acks[missing], SAMPLES));
        }
    }
}

/// One byte acknowledged at each sample, every other before a later one at the
/// first, and none from that on: I2c, by which an identification finds no
/// module, and a rate select has not written both bytes.
fn slow_refusals(list: &mut List) {
    for sample in 1..=SAMPLES {
        for case in in_both(list, 7 + sample as usize) {
            let (case, requests) = waiting(&case, sample);
            let acks = requests.concat();
            let (slow, missing) = list.two(acks.len());
            list.push(sda_high(&hurried(&case, acks[slow], sample), acks[missing], NEVER));
        }
    }
}
