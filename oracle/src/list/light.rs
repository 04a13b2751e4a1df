//! The groups of light and temperature, with either sequence.

use super::pages::{port, ports};
use super::rounds::low_at_first;
use super::sfp::*;
use super::transfers::*;
use super::*;
use crate::driver::STATUS;
use crate::light::*;

const SEQUENCES: [Sequence; 2] = [Sequence::Pulses, Sequence::Rounds];
/// Byte 92 of an internally and of an externally calibrated module.
pub const INSIDE: u8 = MONITORED | INTERNAL;
const OUTSIDE: u8 = MONITORED | EXTERNAL;
/// Rx_PWR(1) is 1, the others are +0.
pub const STRAIGHT: [u32; 5] = [ZERO, ZERO, ZERO, ONE, ZERO];
/// The number of choices for the temperature and for the count.
const WORDS: u32 = 4;

pub fn add(list: &mut List) {
    lights(list);
    byte_92(list);
    sensed_words(list);
    coefficients(list);
    mixed_coefficients(list);
    polynomials(list);
    lines_and_zeros(list);
    overflows(list);
    not_finite(list);
    light_attempts(list);
    light_faults(list);
    refused_lights(list);
    unanswered(list);
    lost_lights(list);
    unread_coefficients(list);
    cleared_lights(list);
}

pub fn shape(kind: u8, coefficients: [u32; 5]) -> Shape {
    Shape { kind, temperature: 0, count: 0, coefficients }
}

impl List {
    /// The call going well.
    pub fn light(&mut self, port: (Family, u32, u32), attempts: u32, sequence: usize, shape: Shape) -> Case {
        let (family, lan, device) = port;
        let call = Call { function: LIGHT, args: [attempts, self.word(), shape.number()] };
        let case = self.over(call, family, lan, device, locks(family, lan));
        Case { sequence: SEQUENCES[sequence % 2], ..case }
    }

    /// At a port and with a sequence, others for each number.
    fn shaped(&mut self, number: usize, shape: Shape) -> Case {
        let port = port(number);
        self.light(port, attempts(port.0), number / 12, shape)
    }

    pub fn drawn(&mut self, of: &[u32]) -> u32 {
        of[self.word() as usize % of.len()]
    }

    fn push_shaped(&mut self, shape: Shape) {
        let number = self.cases.len();
        let case = self.shaped(number, shape);
        self.push(case);
    }
}

/// Every kind of calibration at every port with each sequence.
fn lights(list: &mut List) {
    for port in ports() {
        for sequence in 0..2 {
            for kind in [0, !MONITORED, MONITORED, INSIDE, OUTSIDE, INSIDE | OUTSIDE] {
                let case = list.light(port, attempts(port.0), sequence, shape(kind, [NEAR_ONE; 5]));
                list.push(case);
            }
        }
    }
}

/// Every value of byte 92.
fn byte_92(list: &mut List) {
    for kind in 0..=0xff {
        list.push_shaped(shape(kind, [SMALL; 5]));
    }
}

/// Chosen temperatures and counts of each calibration.
fn sensed_words(list: &mut List) {
    for kind in [INSIDE, OUTSIDE, MONITORED] {
        for temperature in 0..WORDS {
            for count in 0..WORDS {
                list.push_shaped(Shape { temperature, count, ..shape(kind, STRAIGHT) });
            }
        }
    }
}

/// Each choice at each place beside others near 1, with two counts of four.
fn coefficients(list: &mut List) {
    for choice in 0..CHOICES.len() as u32 {
        for place in 0..5 {
            for count in [place as u32 + choice & 1, 2 + (place as u32 + choice & 1)] {
                let mut coefficients = [NEAR_ONE; 5];
                coefficients[place] = choice;
                list.push_shaped(Shape { count, ..shape(OUTSIDE, coefficients) });
            }
        }
    }
}

/// Choices drawn for each place, half of them among the finite ones.
fn mixed_coefficients(list: &mut List) {
    const ALL_FINITE: [u32; 12] =
        [ZERO, MINUS_ZERO, ONE, 4, SUBNORMAL, 6, LARGEST, MINUS_LARGEST, FINITE, NEAR_ONE, SMALL, 15];
    for i in 0..200 {
        let coefficients = [(); 5].map(|()| {
            let any = list.word() % CHOICES.len() as u32;
            if i % 2 == 0 {
                any
            } else {
                ALL_FINITE[any as usize % ALL_FINITE.len()]
            }
        });
        let count = list.word() % WORDS;
        list.push_shaped(Shape { count, ..shape(OUTSIDE, coefficients) });
    }
}

/// Random coefficients, most with a finite result: alike in size, falling with
/// the power so that each product counts, of any size.
fn polynomials(list: &mut List) {
    for coefficients in
        [[NEAR_ONE; 5], [SMALL; 5], [SMALL, SMALL, SMALL, NEAR_ONE, NEAR_ONE], [FINITE; 5], [SUBNORMAL; 5]]
    {
        for i in 0..40 {
            let count = if i % 10 == 9 { 1 + i / 10 % 3 } else { 0 };
            list.push_shaped(Shape { count, ..shape(OUTSIDE, coefficients) });
        }
    }
}

/// The straight line, with bits 4 and 5 set too; all -0, all +0, a sign of zero
/// at one place only, with every choice of count.
fn lines_and_zeros(list: &mut List) {
    for i in 0..48 {
        let kind = if i % 2 == 0 { OUTSIDE } else { INSIDE | OUTSIDE };
        list.push_shaped(Shape { count: if i < 12 { i % WORDS } else { 0 }, ..shape(kind, STRAIGHT) });
    }
    for signs in 0..32 {
        let coefficients =
            [0, 1, 2, 3, 4].map(|place| if signs >> place & 1 == 1 { MINUS_ZERO } else { ZERO });
        for count in if signs == 0 || signs == 31 { 0..WORDS } else { signs % WORDS..signs % WORDS + 1 } {
            list.push_shaped(Shape { count, ..shape(OUTSIDE, coefficients) });
        }
    }
}

/// Results at the limit: a product that overflows at each place, a sum that
/// does, and one that the other sign keeps finite.
fn overflows(list: &mut List) {
    for large in [LARGE, LARGEST, MINUS_LARGEST] {
        for place in 0..5 {
            for count in 0..WORDS {
                let mut coefficients = [SMALL; 5];
                coefficients[place] = large;
                list.push_shaped(Shape { count, ..shape(OUTSIDE, coefficients) });
            }
        }
    }
    for [c1, c0] in
        [[LARGEST, LARGEST], [LARGEST, MINUS_LARGEST], [MINUS_LARGEST, LARGEST], [NEAR_ONE, LARGEST]]
    {
        for count in 1..WORDS {
            list.push_shaped(Shape { count, ..shape(OUTSIDE, [ZERO, ZERO, ZERO, c1, c0]) });
        }
    }
}

/// Every choice of places with an infinity or a NaN; the others are such that
/// the result would overflow too.
fn not_finite(list: &mut List) {
    for places in 1..32 {
        for choice in [INFINITE, NAN] {
            let coefficients =
                [0, 1, 2, 3, 4].map(|place| if places >> place & 1 == 1 { choice } else { LARGE });
            list.push_shaped(Shape { count: places % WORDS, ..shape(OUTSIDE, coefficients) });
        }
    }
}

/// The request that begins at this read of I2CCTL acknowledged at its last
/// attempt. The reads of an attempt that is not are those that one more makes.
fn at_last(case: &Case, number: u32) -> Case {
    let [attempts, seed, shape] = case.args;
    let reads = |attempts| {
        let refused = sda_high(&Case { args: [attempts, seed, shape], ..case.clone() }, number, NEVER);
        seen(&refused).len() as u32
    };
    let last = sda_high(case, number, (attempts - 1) * (reads(2) - reads(1)));
    assert_eq!(last.run().result[3], case.run().result[3] + attempts - 1, "acknowledged at the last attempt");
    last
}

/// The numbers of attempts at every port with each sequence: going well; one
/// byte acknowledged at the last attempt only.
fn light_attempts(list: &mut List) {
    for (i, port) in ports().into_iter().enumerate() {
        for (j, attempts) in [0, 1, 4, 11, 255].into_iter().enumerate() {
            for sequence in 0..2 {
                let kind = if (i + j) % 3 == 0 { OUTSIDE } else { INSIDE };
                let case = list.light(port, attempts, sequence, shape(kind, STRAIGHT));
                list.push(case.clone());
                if attempts > 1 {
                    let all = requests(&case);
                    let request = &all[(7 * i + 3 * j + sequence) % all.len()];
                    list.push(at_last(&case, request.number));
                }
            }
        }
    }
}

/// Each byte of each calibration, with each sequence: an access of its locks
/// failing, one of its transfer, and a read of its locks all ones.
fn light_faults(list: &mut List) {
    for (kind, bytes) in [(0, 1), (INSIDE, 11), (OUTSIDE, BYTES)] {
        for byte in 0..bytes {
            let case = list.shaped(5 * byte + 12 * (byte % 2), shape(kind, STRAIGHT));
            let log = log(&case);
            let all = requests(&case);
            assert_eq!(all.len(), bytes, "one request for each byte");
            let from = if byte == 0 { 0 } else { all[byte - 1].last + 1 };
            let fails = |at: &usize| !matches!(log[*at], Access::Wait(_));
            let reads = |at: &usize| matches!(log[*at], Access::Read(r, _) if r != STATUS);
            let before: Vec<usize> = (from..all[byte].first).collect();
            let Request { first, last, .. } = all[byte];
            for part in [0, 2, 4] {
                let within = first + (last - first) * part / 5 + list.word() as usize % 5;
                list.push(failing(&case, (within..=last).find(fails).expect("an access")));
            }
            for number in [list.word() as usize % 4, 4] {
                let locks: Vec<usize> = before.iter().copied().filter(fails).collect();
                list.push(failing(&case, locks[number % locks.len()]));
            }
            if let Some(at) = before.iter().copied().rev().find(reads) {
                list.push(ones(&case, at));
            }
        }
    }
}

/// Each byte never acknowledged, with one attempt and with four, and with four
/// acknowledged at the last; with each sequence.
fn refused_lights(list: &mut List) {
    for byte in 0..BYTES {
        for sequence in 0..2 {
            for (i, attempts) in [1, 4, 4].into_iter().enumerate() {
                let kind = if byte < 11 && i % 2 == 0 { INSIDE } else { OUTSIDE };
                let port = port(7 * byte + 5 * i + sequence);
                let case = list.light(port, attempts, sequence, shape(kind, STRAIGHT));
                let number = requests(&case)[byte].number;
                list.push(if i < 2 { sda_high(&case, number, NEVER) } else { at_last(&case, number) });
            }
        }
    }
}

/// No byte acknowledged; every byte at its last sample.
fn unanswered(list: &mut List) {
    for (i, port) in ports().into_iter().enumerate() {
        for attempts in [0, 1, 4, 11, 255] {
            let case = list.light(port, attempts, i + attempts as usize / 4, shape(INSIDE, STRAIGHT));
            list.push(late(&case, SAMPLES + 1));
        }
        let case = list.light(port, 1, i, shape(INSIDE, STRAIGHT));
        list.push(late(&case, SAMPLES));
    }
}

/// The resource lost after some bytes, in each family.
fn lost_lights(list: &mut List) {
    for (f, family) in FAMILIES.into_iter().enumerate() {
        for (i, k) in [0, 1, 5, 10, 11, 30].into_iter().enumerate() {
            let lan = (f + i) as u32 % 2;
            let port = (family, lan, usual(family));
            let mut case = list.light(port, attempts(family), f + k as usize, shape(OUTSIDE, STRAIGHT));
            let mask = transfer_mask(family, lan);
            let held = sync_held(family, mask, sync::phy(lan as u8));
            let reads = sync_reads(family) * 2 * k;
            case.rules = vec![
                always(swsm(family), swsm_granted(family)),
                until(sw_fw_sync(family), reads, sync_free(family, mask), held),
            ];
            list.push(case);
        }
    }
}

/// Coefficients that are not finite, or a result, and a byte behind the first
/// of them that is not read: never acknowledged, or an access failing.
fn unread_coefficients(list: &mut List) {
    for (i, byte) in [15, 16, 18, 22, 26, 29, 30].into_iter().enumerate() {
        for choice in [INFINITE, NAN, LARGEST] {
            let coefficients = [choice, NEAR_ONE, NEAR_ONE, NEAR_ONE, choice];
            let case =
                list.shaped(5 * i + choice as usize, Shape { count: 3, ..shape(OUTSIDE, coefficients) });
            let Request { first, number, .. } = requests(&case)[byte];
            list.push(sda_high(&case, number, NEVER));
            list.push(failing(&case, first));
        }
    }
}

/// At every port with each sequence: SDA low at the first look and in some
/// rounds, a byte not acknowledged once, SDA low once where it was raised.
fn cleared_lights(list: &mut List) {
    for port in ports() {
        for sequence in 0..2 {
            let case = list.light(port, 3, sequence, shape(INSIDE, STRAIGHT));
            let low = list.word() % 11;
            list.push(low_at_first(&case, low));
            let ack = list.drawn(&numbers_of(&case, |s| s.sample(1)));
            list.push(sda_high(&case, ack, SAMPLES));
            let quiet = list.drawn(&numbers_of(&case, Seen::quiet));
            list.push(sda_low(&case, quiet, 1));
        }
    }
}
