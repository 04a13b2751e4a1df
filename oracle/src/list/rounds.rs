//! The groups of the sequence of rounds, which follow the pages. Here every
//! case has it, save two of `longest`.

use super::pages::*;
use super::sfp::*;
use super::transfers::*;
use super::*;

/// Rounds of the sequence.
const ROUNDS: u32 = 10;
/// The read of I2CCTL that is the first look at SDA; the attempt's and the
/// start's come before it.
const LOOK: u32 = 2;

pub fn add(list: &mut List) {
    low_rounds(list);
    low_stops(list);
    stretched_rounds(list);
    longest(list);
    round_sweeps(list);
    locked_rounds(list);
    default_transfers(list);
    default_modules(list);
    default_pages(list);
    lost_acks(list);
    low_looks(list);
    random_rounds(list);
}

pub fn rounds(case: Case) -> Case {
    Case { sequence: Sequence::Rounds, ..case }
}

/// The first look at SDA finds it low, and so do this many rounds. A round
/// has two reads: the try at SCL and the look at SDA.
pub fn low_at_first(case: &Case, low: u32) -> Case {
    sda_low(case, LOOK, 1 + 2 * low)
}

/// The last sample of a byte that is not acknowledged.
fn last_sample(case: &Case) -> Seen {
    seen(case).into_iter().find(|s| s.sample(SAMPLES)).expect("not acknowledged")
}

/// The answer to the read of I2CCTL with this number.
fn answer(case: &Case, number: u32) -> u32 {
    let at = seen(case)[number as usize].at;
    match log(case)[at] {
        Access::Read(_, Ok(value)) => value,
        _ => panic!("a read that goes well"),
    }
}

impl List {
    /// The four calls, with lock where `lock` is odd.
    fn round_calls(&mut self, attempts: u32, lock: usize) -> [Call; 4] {
        self.calls(attempts, lock % 2 == 1)
    }

    fn round_case(&mut self, call: Call, family: Family, lan: usize) -> Case {
        rounds(self.good(call, family, lan as u32 % 2, usual(family)))
    }

    /// No byte is acknowledged, and after the first SDA is low in this many
    /// rounds; the seed is one with which the next round reads it high.
    fn low_after_byte(&mut self, case: &Case, low: u32) -> Case {
        let never = late(case, SAMPLES + 1);
        let first = last_sample(&never).number + 1;
        let sda_in = case.lines.expect("lines").layout.sda_in;
        loop {
            let held = sda_low(&Case { seed: self.word(), ..never.clone() }, first, 2 * low);
            if low == ROUNDS || answer(&held, first + 2 * low + 1) & sda_in != 0 {
                return held;
            }
        }
    }

    /// Each access from `from` on failing, each read all ones.
    fn swept_from(&mut self, case: &Case, from: usize) {
        let log = log(case);
        let fails = |at: &usize| !matches!(log[*at], Access::Wait(_));
        self.push(case.clone());
        self.faults(case, (from..log.len()).filter(fails));
    }
}

/// SDA low in 0 to 10 rounds, after a first look that found it low and after a
/// byte that was not acknowledged; and low for ever.
fn low_rounds(list: &mut List) {
    for (f, family) in LAYOUTS.into_iter().enumerate() {
        for low in 0..=ROUNDS {
            for (i, call) in list.round_calls(2, f + low as usize).into_iter().enumerate() {
                let case = list.round_case(call, family, i);
                list.push(low_at_first(&case, low));
                let after = list.low_after_byte(&case, low);
                list.push(after);
            }
        }
        for call in list.round_calls(3, f) {
            let case = list.round_case(call, family, f);
            list.push(sda_low(&case, LOOK, NEVER));
            let never = late(&case, SAMPLES + 1);
            list.push(sda_low(&never, last_sample(&never).number + 1, NEVER));
        }
    }
}

/// The look at SDA inside the stop finds it low, after 0 to 9 rounds that read
/// it low and after a byte that was not acknowledged.
fn low_stops(list: &mut List) {
    for (f, family) in LAYOUTS.into_iter().enumerate() {
        let layout = layout(family);
        for low in 0..ROUNDS {
            for call in [list.read_byte(1, false), list.write_byte(false)] {
                let case = list.round_case(call, family, f + low as usize);
                // Low up to these rounds, then high in three reads: the round's two and the stop's try at SCL.
                let held = LOOK + 1 + 2 * low;
                let both = layout.scl_in | layout.sda_in;
                let rule = cycle(layout.register, held + 3, held, (layout.sda_in, layout.scl_in), (0, both));
                list.push(Case { lines: None, rules: vec![rule], ..case });
            }
        }
        for call in list.round_calls(2, f) {
            let case = list.round_case(call, family, f);
            let never = late(&case, SAMPLES + 1);
            let last = last_sample(&never).number;
            let looks = seen(&never).into_iter().filter(|s| s.number > last && s.quiet());
            list.push(sda_low(&never, looks.map(|s| s.number).next().expect("a stop"), 1));
        }
    }
}

/// SCL stretched in the sequence: for 499 and 500 tries at each of its rises,
/// for some tries at every rise, and never high.
fn stretched_rounds(list: &mut List) {
    for (f, family) in LAYOUTS.into_iter().enumerate() {
        for call in [list.read_byte(1, f == 1), list.write_byte(f == 0)] {
            let case = list.round_case(call, family, f);
            let (case, last) = many_rounds(list, &late(&case, SAMPLES + 1));
            let end = numbers_of(&case, |s| s.number > last && s.quiet())[0];
            for number in numbers_of(&case, |s| s.rise() && s.number > last && s.number < end) {
                list.push(scl_low(&case, number, STRETCH - 1));
                list.push(scl_low(&case, number, STRETCH));
            }
        }
        for tries in [1, 2, 3, 17, STRETCH - 1, STRETCH] {
            let call = list.read_byte(1, false);
            let case = stretched(&list.round_case(call, family, f), tries);
            list.push(late(&case, tries.min(STRETCH - 1) + 1 + SAMPLES));
            for low in [0, 1, 5, 9, 10].into_iter().filter(|low| tries < 17 || *low == 1) {
                list.push(sda_low(&case, LOOK, 1 + low * (tries.min(STRETCH - 1) + 2)));
            }
        }
        for low in [0, 1, 10] {
            let call = list.read_byte(1, false);
            let case = list.round_case(call, family, f);
            list.push(never_high(case, LOOK + 1 + low * (STRETCH + 1)));
        }
    }
}

/// The case with another seed, so that at least four rounds read SDA low, and
/// the number of the last sample before them.
fn many_rounds(list: &mut List, never: &Case) -> (Case, u32) {
    let last = last_sample(never).number;
    let sda_in = never.lines.expect("lines").layout.sda_in;
    loop {
        let case = Case { seed: list.word(), ..never.clone() };
        if (1..=4).all(|round| answer(&case, last + 2 * round) & sda_in == 0) {
            return (case, last);
        }
    }
}

/// SCL never reads high, and SDA reads low in the first `low` reads.
fn never_high(case: Case, low: u32) -> Case {
    let layout = layout(case.family());
    let rule =
        until(layout.register, low, (layout.scl_in | layout.sda_in, 0), (layout.scl_in, layout.sda_in));
    Case { lines: None, rules: vec![rule], ..case }
}

/// The longest attempt that fails at its first look, with each sequence: SCL
/// never reads high, and only the tenth round, or all after the first look,
/// reads SDA high.
fn longest(list: &mut List) {
    for (f, (family, accesses)) in LAYOUTS.into_iter().zip([[22_082, 24_091], [22_088, 24_101]]).enumerate() {
        let call = list.read_byte(1, false);
        let case = list.round_case(call, family, f);
        let tenth = never_high(case.clone(), LOOK + 1 + (ROUNDS - 1) * (STRETCH + 1) + STRETCH);
        let old = Case { sequence: Sequence::Pulses, ..never_high(case, LOOK + 1) };
        assert_eq!([tenth.run().accesses, old.run().accesses], accesses, "the longest attempts");
        list.push(tenth);
        list.push(old);
    }
}

/// Each access of the sequence failing and each read all ones: with no round
/// that reads SDA low, with nine, with ten, and with two after a byte that was
/// not acknowledged.
fn round_sweeps(list: &mut List) {
    for (f, family) in LAYOUTS.into_iter().enumerate() {
        let call = list.read_byte(1, false);
        let case = list.round_case(call, family, f);
        for low in [0, ROUNDS - 1, ROUNDS] {
            let held = low_at_first(&case, low);
            list.swept_from(&held, seen(&held)[LOOK as usize].at + 1);
        }
        let after = list.low_after_byte(&case, 2);
        list.swept_from(&after, last_sample(&after).at + 1);
    }
}

/// Each call with lock at each family, SDA low in one round: accesses of the
/// sequence, of the locks after it and of a second attempt failing.
fn locked_rounds(list: &mut List) {
    for (f, family) in FAMILIES.into_iter().enumerate() {
        for (i, call) in list.calls(2, true).into_iter().enumerate() {
            let case = low_at_first(&list.round_case(call, family, f + i), 1);
            let log = log(&case);
            let from = seen(&case)[LOOK as usize].at + 1;
            let fails = |at: &usize| !matches!(log[*at], Access::Wait(_));
            let places: Vec<usize> = (from..log.len()).filter(fails).take(70).collect();
            list.faults(&case, places.into_iter().skip((f + i) % 9).step_by(9));
        }
    }
}

/// Each call in every setting: going well, failing at its first look, and with
/// a byte that is not acknowledged once.
fn default_transfers(list: &mut List) {
    for (family, lan, device, lock) in settings() {
        for call in list.calls(4, lock) {
            let case = rounds(list.good(call, family, lan, device));
            list.push(case.clone());
            let low = list.word() % (ROUNDS + 1);
            list.push(low_at_first(&case, low));
            let once = list.once(&case);
            list.push(once);
        }
    }
}

impl List {
    /// One of the bytes not acknowledged, once.
    fn once(&mut self, case: &Case) -> Case {
        let acks = numbers_of(case, |s| s.sample(1));
        sda_high(case, acks[self.word() as usize % acks.len()], SAMPLES)
    }

    /// One of the next twenty accesses after the first look failing.
    fn broken(&mut self, case: &Case) -> Case {
        let log = log(case);
        let from = seen(case)[LOOK as usize].at + 1 + self.word() as usize % 20;
        let at = (from..log.len()).find(|at| !matches!(log[*at], Access::Wait(_)));
        failing(case, at.expect("an access"))
    }
}

/// The identifications and the rate select at every port: going well, failing
/// at the first look, a byte not acknowledged once; at every family no byte
/// acknowledged, SDA low for ever, and an access of the sequence failing.
fn default_modules(list: &mut List) {
    for (p, plan) in plans().iter().enumerate() {
        for (family, lan, device) in ports() {
            let case = rounds(list.planned(plan, family, lan, device));
            list.push(case.clone());
            let low = list.word() % (ROUNDS + 1);
            list.push(low_at_first(&case, low));
            let once = list.once(&case);
            list.push(once);
        }
        for (f, family) in FAMILIES.into_iter().enumerate() {
            let case = rounds(list.planned(plan, family, (f + p) as u32 % 2, usual(family)));
            list.push(late(&case, SAMPLES + 1));
            list.push(sda_low(&case, LOOK, NEVER));
            let broken = list.broken(&low_at_first(&case, f as u32));
            list.push(broken);
        }
    }
}

/// Pages at every port: going well and a byte not acknowledged once; at every
/// family a byte that is never acknowledged, and an access of the sequence
/// failing.
fn default_pages(list: &mut List) {
    for function in FORMS {
        for port in ports() {
            let case = rounds(list.page(function, port, attempts(port.0), 0));
            list.push(case.clone());
            let once = list.once(&case);
            list.push(once);
        }
        for (f, family) in FAMILIES.into_iter().enumerate() {
            let port = (family, f as u32 % 2, usual(family));
            let shape = list.word() % 4;
            let case = rounds(list.page(function, port, 2, shape));
            let request = &requests(&case)[19 * f + 1];
            list.push(sda_high(&case, request.number, NEVER));
            let broken = list.broken(&low_at_first(&case, f as u32));
            list.push(broken);
        }
    }
}

/// Each byte of each transfer not acknowledged: once, so that the next attempt
/// goes well, and from then on.
fn lost_acks(list: &mut List) {
    for (f, family) in FAMILIES.into_iter().enumerate() {
        for (i, call) in list.round_calls(3, f).into_iter().enumerate() {
            let case = list.round_case(call, family, f / 2 + i);
            for number in numbers_of(&case, |s| s.sample(1)) {
                list.push(sda_high(&case, number, SAMPLES));
                list.push(sda_high(&case, number, NEVER));
            }
        }
    }
}

/// SDA low at a look at it after it was raised, once, and from a rise of SCL
/// on: every sixth of these in each layout.
fn low_looks(list: &mut List) {
    for (f, family) in LAYOUTS.into_iter().enumerate() {
        for (i, call) in list.round_calls(2, f).into_iter().enumerate() {
            let case = list.round_case(call, family, i);
            for number in numbers_of(&case, Seen::quiet).into_iter().skip(i).step_by(6) {
                list.push(sda_low(&case, number, 1));
            }
            for number in numbers_of(&case, Seen::rise).into_iter().skip(i).step_by(6) {
                list.push(sda_low(&case, number, NEVER));
            }
        }
    }
}

/// Answers without the module: none bent, or I2CCTL's input bits high up to
/// some read and SDA low after it; with a fault in every third.
fn random_rounds(list: &mut List) {
    for (family, lan) in every_port() {
        let layout = layout(family);
        let released = (0, layout.scl_in | layout.sda_in);
        for i in 0..3 {
            for call in list.calls(2, false) {
                let mut case = list.round_case(call, family, lan as usize);
                let hold = list.word() % 40;
                let bent = until(layout.register, hold, released, (layout.sda_in, 0));
                case.lines = None;
                case.rules = if i == 0 { vec![] } else { vec![bent] };
                let at = list.word() % log(&case).len() as u32;
                case.fail_at = if i == 1 { at } else { NEVER };
                case.ones_at = if i == 2 { at } else { NEVER };
                list.push(case);
            }
        }
    }
}
