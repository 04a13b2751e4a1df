//! The groups of `sfp.rs`.

use super::transfers::*;
use super::*;
use crate::driver::{i2c, Port, ESDP, STATUS};
use crate::lines::Lines;

/// Attempts at a module's first byte and at a byte that is written.
const PROBES: u32 = 11;
const WRITES: u32 = 2;

pub fn add(list: &mut List) {
    kinds(list);
    classes(list);
    bx_tests(list);
    active_cables(list);
    identifiers(list);
    later_identifiers(list);
    qsfp_classes(list);
    qsfp_cables(list);
    rate_values(list);
    absent(list);
    last_attempts(list);
    later_requests(list);
    rate_failures(list);
    request_faults(list);
    request_sweeps(list);
    lost_modules(list);
    module_grants(list);
    random_modules(list);
    methods(list);
}

/// A call and the bytes that the module sends to it, in the order of their
/// requests; `ten` is an argument of the rate select only.
#[derive(Clone)]
pub struct Plan {
    pub function: u32,
    ten: u32,
    bytes: Vec<u8>,
}

impl Plan {
    /// The readings of byte 0 are among the bytes.
    fn identify(bytes: &[u8]) -> Self {
        Plan { function: IDENTIFY, ten: 0, bytes: bytes.to_vec() }
    }

    fn qsfp(bytes: &[u8]) -> Self {
        Plan { function: IDENTIFY_QSFP, ten: 0, bytes: bytes.to_vec() }
    }

    fn rate(ten: u32, bytes: [u8; 2]) -> Self {
        Plan { function: RATE_SELECT, ten, bytes: bytes.to_vec() }
    }

    /// The attempts that request `i` has.
    fn attempts(&self, family: Family, i: usize) -> u32 {
        let probes = match self.function {
            IDENTIFY => self.bytes.iter().position(|b| *b == 0x03).map_or(5, |at| at + 1),
            IDENTIFY_QSFP => 1,
            _ if i % 2 == 1 => return WRITES,
            _ => 0,
        };
        if i < probes {
            PROBES
        } else {
            attempts(family)
        }
    }
}

/// Attempts at any other byte that is read.
pub fn attempts(family: Family) -> u32 {
    i2c::attempts(Port { family, device: 0, lan: 0 }) as u32
}

/// An SFP: bytes 6, 3 and 8, and then those of the 10G-BX test or byte 60.
fn sfp(g1: u8, g10: u8, cable: u8, rest: &[u8]) -> Plan {
    Plan::identify(&[&[0x03, g1, g10, cable], rest].concat())
}

impl List {
    fn any_port(&mut self) -> (Family, u32) {
        let number = self.word() % 10;
        (FAMILIES[number as usize / 2], number % 2)
    }

    /// The plan going well. What it leaves of the queue is random.
    pub fn planned(&mut self, plan: &Plan, family: Family, lan: u32, device: u32) -> Case {
        self.planned_over(plan, family, lan, device, locks(family, lan))
    }

    /// As `planned`, with these locks.
    fn planned_over(&mut self, plan: &Plan, family: Family, lan: u32, device: u32, locks: Vec<Rule>) -> Case {
        let mut queue: Vec<u8> = (0..12).map(|_| self.word() as u8).collect();
        let from = if plan.function == RATE_SELECT { 4 } else { 0 };
        queue[from..from + plan.bytes.len()].copy_from_slice(&plan.bytes);
        let mut args: Vec<u32> =
            queue.chunks(4).map(|b| u32::from_le_bytes([b[0], b[1], b[2], b[3]])).collect();
        if plan.function == RATE_SELECT {
            args[0] = plan.ten;
        }
        let call = Call { function: plan.function, args: [args[0], args[1], args[2]] };
        self.over(call, family, lan, device, locks)
    }

    /// The plan at a port and a PCI device drawn for it.
    fn somewhere(&mut self, plan: &Plan) {
        let (family, lan) = self.any_port();
        let device = self.any_device(family);
        let case = self.planned(plan, family, lan, device);
        self.push(case);
    }

    /// One of the family's two; the second of the 82599 is that of the QSFP.
    fn any_device(&mut self, family: Family) -> u32 {
        let number = FAMILIES.iter().position(|f| *f == family).expect("one of the five");
        DEVICES[number][(self.word() % 2) as usize]
    }
}

/// A request of a call that goes well: its first and last access of I2CCTL,
/// and the number of the first among the reads of I2CCTL.
pub struct Request {
    pub first: usize,
    pub last: usize,
    pub number: u32,
}

/// A request has its own locks, so that other registers are accessed between.
pub fn requests(case: &Case) -> Vec<Request> {
    let mut all: Vec<Request> = Vec::new();
    let (mut apart, mut reads) = (true, 0);
    for (at, access) in log(case).iter().enumerate() {
        if touches(access, case) {
            if apart {
                all.push(Request { first: at, last: at, number: reads });
            }
            all.last_mut().expect("one").last = at;
            apart = false;
            reads += u32::from(matches!(access, Access::Read(..)));
        } else if matches!(access, Access::Read(r, _) | Access::Write(r, _, _) if *r != STATUS) {
            apart = true;
        }
    }
    all
}

/// The reads of I2CCTL in an attempt whose address is not acknowledged.
fn attempt_reads(case: &Case) -> u32 {
    let request = requests(case)[0].number;
    let sample = numbers_of(case, |s| s.sample(1))[0];
    let once = sda_high(case, request, sample + SAMPLES - request);
    (seen(&once).len() - seen(case).len()) as u32
}

/// All of `attempts` attempts from the read `number` on not acknowledged.
pub fn refused(case: &Case, number: u32, attempts: u32) -> Case {
    sda_high(case, number, attempts * attempt_reads(case))
}

/// The calls that get faults: `identify` through the 10G-BX test, of an active
/// cable, and with 03 at the fifth reading; an `identify_qsfp` with all its
/// requests; the rate select in both directions.
pub fn plans() -> Vec<Plan> {
    vec![
        sfp(0x40, 0, 0, &[0x67, 0, 10]),
        sfp(0, 0, 0x08, &[0x04]),
        Plan::identify(&[0, 0xff, 0x0d, 0x11, 0x03, 0x01, 0x10, 0]),
        Plan::qsfp(&[0x0d, 0, 0x01, 0x23, 1, 0x0f]),
        Plan::rate(0, [0xff, 0x08]),
        Plan::rate(1, [0xf7, 0]),
    ]
}

/// Every kind that each call can give, and the plans of the faults, at every
/// port, those of the 82599 with PCI device 1558 too.
fn kinds(list: &mut List) {
    let mut all = plans();
    all.extend([sfp(0, 0, 0x04, &[]), sfp(0, 0, 0x08, &[0]), sfp(0, 0x10, 0, &[]), sfp(0x02, 0x20, 0, &[])]);
    all.extend([sfp(0x08, 0, 0, &[]), sfp(0x01, 0, 0, &[]), sfp(0x02, 0, 0, &[])]);
    all.extend([sfp(0x40, 0, 0, &[0x0d]), sfp(0, 0, 0, &[0x67, 0, 9]), sfp(0, 0, 0, &[0x67, 1, 0])]);
    all.extend([0x08, 0x10, 0x01].map(|g10| Plan::qsfp(&[0x0d, g10, 0x02])));
    all.extend([Plan::qsfp(&[0x0d, 0, 0, 0]), Plan::qsfp(&[0x11])]);
    // The most requests: byte 0 five times, then all of the 10G-BX test.
    all.push(Plan::identify(&[1, 2, 4, 5, 0x03, 0, 0, 0, 0x67, 2, 0]));
    let usual_ports = every_port().map(|(family, lan)| (family, lan, usual(family)));
    let qsfp_ports = [0, 1].map(|lan| (Family::F82599, lan, QSFP_DEVICE));
    for (family, lan, device) in usual_ports.chain(qsfp_ports) {
        for plan in &all {
            let case = list.planned(plan, family, lan, device);
            list.push(case);
        }
    }
}

/// None, each single bit, and more than one.
fn bits_and(more: &[u8]) -> Vec<u8> {
    let mut all = vec![0];
    all.extend((0..8).map(|i| 1 << i));
    all.extend(more);
    all
}

/// Bytes 6, 3 and 8: none or one bit of each and some of several.
fn classes(list: &mut List) {
    for g1 in bits_and(&[0x03]) {
        for g10 in bits_and(&[0x30]) {
            for cable in [0, 0x04, 0x08] {
                let last = list.word() as u8;
                list.somewhere(&sfp(g1, g10, cable, &[last, 1, 0]));
            }
        }
    }
    for cable in bits_and(&[0x0c, 0xf3, 0xfb, 0xf7, 0xff]) {
        for (g1, g10) in [(0, 0), (0x01, 0x10), (0x02, 0x20), (0x40, 0x80), (0xff, 0xff)] {
            list.somewhere(&sfp(g1, g10, cable, &[0x67, 1, 0]));
        }
    }
}

/// The 10G-BX test: each bit of bytes 6, 3 and 8 that may stop it, byte 12
/// around 67, bytes 14 and 15 around their limits.
fn bx_tests(list: &mut List) {
    for g1 in bits_and(&[0x44, 0x0b, 0xf4, 0xff]) {
        list.somewhere(&sfp(g1, 0, 0, &[0x67, 1, 0]));
        list.somewhere(&sfp(g1, 0, 0x03, &[0x67, 0, 0]));
    }
    for g1 in [0, 0x40] {
        for rate in bits_and(&[0x66, 0x68, 0xff]).into_iter().chain((0..8).map(|i| 0x67 ^ 1 << i)) {
            list.somewhere(&sfp(g1, 0, 0, &[rate, 1, 10]));
        }
        for km in bits_and(&[0xff]) {
            for hm in bits_and(&[9, 10, 11, 0xff]) {
                if km == 0 || km == 1 || hm == 0 || hm == 9 {
                    list.somewhere(&sfp(g1, 0, 0, &[0x67, km, hm]));
                }
            }
        }
    }
}

/// Byte 60 of an active cable, with byte 8's other bits and other codes.
fn active_cables(list: &mut List) {
    for last in bits_and(&[0x0c, 0xfb, 0xff]) {
        for cable in [0x08, 0xfb] {
            for (g1, g10) in [(0, 0), (0x01, 0x10), (0x48, 0)] {
                list.somewhere(&sfp(g1, g10, cable, &[last]));
            }
        }
    }
}

/// Identifiers around 03 and 0D and of other forms, at every family; those
/// of `identify` come at each of the five readings.
fn identifiers(list: &mut List) {
    let mut all: Vec<u8> = bits_and(&[0x03, 0x0b, 0x0c, 0x0d, 0x0e, 0x11, 0x18, 0xff]);
    all.extend((0..8).map(|i| 0x03 ^ 1 << i).filter(|id: &u8| id.count_ones() == 3));
    all.extend((0..8).map(|i| 0x0d ^ 1 << i));
    all.sort();
    all.dedup();
    for family in FAMILIES {
        for id in &all {
            let (lan, device) = (list.word() % 2, list.any_device(family));
            let bytes = if *id == 0x03 { vec![0x03, 0x01, 0x10, 0] } else { vec![*id; 5] };
            let case = list.planned(&Plan::identify(&bytes), family, lan, device);
            list.push(case);
            let case = list.planned(&Plan::qsfp(&[*id, 0x20, 0x02]), family, lan, device);
            list.push(case);
        }
    }
}

/// 03 at the first to fifth reading of byte 0, and at none; at every port.
fn later_identifiers(list: &mut List) {
    for (family, lan) in every_port() {
        for before in 0..=5 {
            let mut bytes: Vec<u8> = (0..before).map(|_| list.word() as u8 & 0xfe).collect();
            bytes.extend([0x03, 0x02, 0x20, 0, 0]);
            let device = list.any_device(family);
            let case = list.planned(&Plan::identify(&bytes), family, lan, device);
            list.push(case);
        }
        // The identifier of a QSFP is read once.
        let case = list.planned(&Plan::qsfp(&[0x03, 0x0d, 0x0d]), family, lan, usual(family));
        list.push(case);
    }
}

/// Bytes 83 and 86 of a QSFP: none or one bit of each and some of several.
fn qsfp_classes(list: &mut List) {
    for g10 in bits_and(&[0x30, 0x09, 0x21, 0x18, 0xc6, 0xff]) {
        for g1 in bits_and(&[0x03, 0xff]) {
            let byte = list.word() as u8;
            list.somewhere(&Plan::qsfp(&[0x0d, g10, g1, byte]));
        }
    }
}

/// Bytes 82, 92 and 93 of a QSFP, each around its limits; byte 83 with bits
/// that name no class.
fn qsfp_cables(list: &mut List) {
    for connector in bits_and(&[0x22, 0x23, 0x24, 0xff]).into_iter().chain((0..8).map(|i| 0x23 ^ 1 << i)) {
        list.somewhere(&Plan::qsfp(&[0x0d, 0, 0x01, connector, 1, 0]));
    }
    for g10 in [0, 0xc6] {
        for length in bits_and(&[0xff]) {
            list.somewhere(&Plan::qsfp(&[0x0d, g10, 0, 0x23, length, 0]));
        }
        for last in bits_and(&[0x0f, 0x1f, 0xf0, 0xff]) {
            for length in [0, 1] {
                list.somewhere(&Plan::qsfp(&[0x0d, g10, 0, 0x23, length, last]));
            }
        }
    }
}

/// Both directions at every port, each bit of the bytes alone and missing.
fn rate_values(list: &mut List) {
    for (family, lan) in every_port() {
        for ten in [0, 1] {
            for bit in 0..8 {
                let device = list.any_device(family);
                let case = list.planned(&Plan::rate(ten, [1 << bit, !(1 << bit)]), family, lan, device);
                list.push(case);
            }
            let bytes = [list.word() as u8, list.word() as u8];
            for bytes in [[0, 0xff], [0xff, 0], bytes] {
                let case = list.planned(&Plan::rate(ten, bytes), family, lan, usual(family));
                list.push(case);
            }
        }
    }
}

/// Each request of each plan not acknowledged from one of its three bytes
/// on, in each layout from each of them.
fn absent(list: &mut List) {
    for (f, family) in FAMILIES.into_iter().enumerate() {
        for (p, plan) in plans().iter().enumerate() {
            let case = list.planned(plan, family, (f + p) as u32 % 2, usual(family));
            for (i, ack) in numbers_of(&case, |s| s.sample(1)).into_iter().enumerate() {
                if LAYOUTS.contains(&family) || i % 3 == (f + i / 3) % 3 {
                    list.push(sda_high(&case, ack, NEVER));
                }
            }
        }
    }
}

/// Each request of each identification acknowledged at its last attempt only.
fn last_attempts(list: &mut List) {
    for (f, family) in FAMILIES.into_iter().enumerate() {
        for (p, plan) in plans().iter().filter(|plan| plan.function != RATE_SELECT).enumerate() {
            let case = list.planned(plan, family, (f + p + 1) as u32 % 2, usual(family));
            for (i, request) in requests(&case).iter().enumerate() {
                list.push(refused(&case, request.number, plan.attempts(family, i) - 1));
            }
        }
    }
}

/// Each request of each plan going well at its second attempt, after one of
/// its bytes was not acknowledged and after SDA was low once at a look at it
/// (in the stop this ends an attempt whose byte the module has sent); then
/// every request refused once.
fn later_requests(list: &mut List) {
    for (f, family) in FAMILIES.into_iter().enumerate() {
        for (p, plan) in plans().iter().enumerate() {
            let case = list.planned(plan, family, (f + p / 2) as u32 % 2, usual(family));
            let acks = numbers_of(&case, |s| s.sample(1));
            let quiet = numbers_of(&case, Seen::quiet);
            let all = requests(&case);
            for (i, request) in all.iter().enumerate() {
                list.push(sda_high(&case, acks[3 * i + (f + i) % 3], SAMPLES));
                let end = all.get(i + 1).map_or(NEVER, |next| next.number);
                let mut looks = quiet.iter().rev().filter(|n| (request.number..end).contains(n));
                let back = [0, 1, list.word() as usize % 10][(f + p + i) % 3];
                list.push(sda_low(&case, *looks.nth(back).expect("10 looks in a request"), 1));
            }
            let period = all[1].number - all[0].number + attempt_reads(&case);
            let once = refused(&case, 0, 1);
            list.push(lined(&once, |lines| lines.period = period));
        }
    }
}

/// The rate select: each request refused alone, from each of its bytes once,
/// and two refused, in both directions at every family.
fn rate_failures(list: &mut List) {
    for (f, family) in FAMILIES.into_iter().enumerate() {
        for ten in [0, 1] {
            let plan = Plan::rate(ten, [0x55 << ten, 0xaa >> ten]);
            let case = list.planned(&plan, family, (f as u32 + ten) % 2, usual(family));
            let each = attempt_reads(&case);
            let starts: Vec<u32> = requests(&case).iter().map(|r| r.number).collect();
            for (i, start) in starts.iter().enumerate() {
                let attempts = plan.attempts(family, i);
                list.push(refused(&case, *start, attempts));
                list.push(refused(&case, *start, attempts - 1));
                list.push(sda_high(&case, *start, NEVER));
            }
            for ack in numbers_of(&case, |s| s.sample(1)) {
                list.push(sda_high(&case, ack, SAMPLES));
            }
            // Both writes; then the first read and the second write.
            let (read, write) = (starts[1], WRITES * each);
            let both = refused(&case, read, WRITES);
            list.push(lined(&both, |lines| lines.period = read + write));
            let short = attempts(family);
            let outer = refused(&case, 0, short);
            list.push(lined(&outer, |lines| lines.period = short * each + read));
            list.push(late(&case, SAMPLES + 1));
            list.push(late(&case, SAMPLES));
            list.push(stretched(&case, 3));
        }
    }
}

/// Each request of each plan failing in its locks, at its first or last
/// access of I2CCTL, and in between; a read of its locks and one of I2CCTL
/// all ones.
fn request_faults(list: &mut List) {
    for (f, family) in FAMILIES.into_iter().enumerate() {
        for (p, plan) in plans().iter().enumerate() {
            let case = list.planned(plan, family, (f + p) as u32 % 2, usual(family));
            let log = log(&case);
            let fails = |at: &&usize| !matches!(log[**at], Access::Wait(_));
            let reads = |at: &&usize| matches!(log[**at], Access::Read(r, _) if r != STATUS);
            for (i, Request { first, last, .. }) in requests(&case).into_iter().enumerate() {
                // By turns the locks before the transfer and those after it.
                let (locks, edge): (Vec<usize>, usize) = if (f + i) % 2 == 0 {
                    ((0..first).rev().collect(), last)
                } else {
                    ((last + 1..log.len()).collect(), first)
                };
                let other = list.word() as usize % 5;
                let within = first + 1 + list.word() as usize % (last - first - 1);
                let within: Vec<usize> = (within..=last).collect();
                for at in [locks.iter().filter(fails).nth(other), Some(&edge), within.iter().find(fails)] {
                    at.into_iter().for_each(|at| list.push(failing(&case, *at)));
                }
                for at in [locks.iter().find(reads), within.iter().find(reads)] {
                    at.into_iter().for_each(|at| list.push(ones(&case, *at)));
                }
            }
        }
    }
}

/// One case of each plan in each layout: every access between the first two
/// requests failing and all ones.
fn request_sweeps(list: &mut List) {
    for (f, family) in LAYOUTS.into_iter().enumerate() {
        for plan in plans() {
            let device = if f == 0 { QSFP_DEVICE } else { usual(family) };
            let case = list.planned(&plan, family, 1, device);
            let all = requests(&case);
            list.faults(&case, all[0].last + 1..=all[1].first);
        }
    }
}

/// Locks that never come, at first or after some takings; a resource free at
/// the last try and too late; one that is lost after the first request.
fn lost_modules(list: &mut List) {
    for (f, family) in FAMILIES.into_iter().enumerate() {
        for (p, plan) in plans().iter().enumerate() {
            let lan = (f + p) as u32 % 2;
            for k in [0, 1, 2 + p as u32] {
                for lost in [smbi_lost(family, k), second_lost(family, k)] {
                    let locks = lost(sync_free(family, u32::MAX));
                    let case = list.planned_over(plan, family, lan, usual(family), locks);
                    list.push(case);
                }
            }
            let mask = transfer_mask(family, lan);
            let held = sync_held(family, mask, sync::phy(lan as u8));
            let free = sync_free(family, mask);
            let last = (tries(family) - 1) * sync_reads(family);
            let register = sw_fw_sync(family);
            let late = [last, last + sync_reads(family)][(f + p / 2) % 2];
            for rule in
                [until(register, late, held, free), until(register, 2 * sync_reads(family), free, held)]
            {
                let locks = replaced(granting(family, mask), rule);
                let case = list.planned_over(plan, family, lan, usual(family), locks);
                list.push(case);
            }
        }
    }
}

/// PCI device 1558 on the 82599: the first grant at some tries, at the last,
/// one before, too late and never; each later request without a grant; ESDP
/// all ones at some reads.
fn module_grants(list: &mut List) {
    let family = Family::F82599;
    for (p, plan) in plans().iter().enumerate() {
        for lan in [0, 1] {
            let case = list.planned(plan, family, lan, QSFP_DEVICE);
            for tries in [2, 3, 50, GRANTS - 1, GRANTS, GRANTS + 1, NEVER] {
                list.push(granted_at(&case, tries));
            }
            // Three reads of ESDP in a request: before, the grant, after.
            for i in 0..requests(&case).len() as u32 {
                list.push(with_esdp(&case, until(ESDP, 3 * i, GRANT, (GRANT.1, 0))));
                let reads = 3 * i + (p as u32 + lan + i) % 3;
                list.push(with_esdp(&case, until(ESDP, reads, GRANT, (0, u32::MAX))));
            }
            // Every request's grant comes at its third try; every second has none.
            list.push(with_esdp(&case, cycle(ESDP, 5, 3, (GRANT.1, 0), GRANT)));
            list.push(with_esdp(&case, cycle(ESDP, GRANTS + 5, GRANTS + 2, (GRANT.1, 0), GRANT)));
        }
        for (family, lan) in every_port().skip(2) {
            let mut case = list.planned(plan, family, lan, QSFP_DEVICE);
            case.rules.push(always(ESDP, (GRANT.1, 0)));
            list.push(case);
        }
    }
}

fn with_esdp(case: &Case, rule: Rule) -> Case {
    Case { rules: replaced(case.rules.clone(), rule), ..case.clone() }
}

/// Random bytes, in two of three cases after a right identifier, with a fault
/// in every third; every fourth without the lines.
fn random_modules(list: &mut List) {
    for (family, lan) in every_port() {
        for i in 0..8 {
            for function in [IDENTIFY, IDENTIFY_QSFP, RATE_SELECT] {
                let mut bytes: Vec<u8> = (0..8).map(|_| list.word() as u8).collect();
                if i % 3 != 0 {
                    bytes[0] = if function == IDENTIFY { 0x03 } else { 0x0d };
                }
                let device = list.any_device(family);
                let plan = Plan { function, ten: i % 2, bytes };
                let mut case = list.planned(&plan, family, lan, device);
                if i % 4 == 3 {
                    case.lines = None;
                } else {
                    let lines = Lines::plain(layout(family));
                    case.lines = Some(Lines { late: 1 + list.word() % SAMPLES, ..lines });
                }
                let at = list.word() % log(&case).len().max(1) as u32;
                case.fail_at = if i % 3 == 1 { at } else { NEVER };
                case.ones_at = if i % 3 == 2 { at } else { NEVER };
                list.push(case);
            }
        }
    }
}

/// Each method for every kind at every port; the rest of the record, which
/// none of them looks at, is random.
fn methods(list: &mut List) {
    for (family, lan) in every_port() {
        for kind in KINDS {
            for method in [PRESENT, ONE_GIG, LINEAR, SUPPORTED, NVM_KEY] {
                let class = kind as u32 | list.word() & MULTISPEED;
                let args = [method, class, list.word()];
                let case = list.case(METHOD, family, lan, method, vec![]);
                list.push(Case { args, ..case });
            }
        }
    }
}
