//! The groups of `i2c.rs`, which follow the others.

use super::*;
use crate::driver::ESDP;
use crate::lines::{Lines, Wires};
use crate::script::{shape, Phrase};
use Phrase::{Read, Send};

pub const QSFP_DEVICE: u32 = 0x1558;
/// Tries of `scl_high`, samples of an acknowledgement, tries at the QSFP grant.
pub const STRETCH: u32 = 500;
pub const SAMPLES: u32 = 10;
pub const GRANTS: u32 = 200;
/// One family of each layout.
pub const LAYOUTS: [Family; 2] = [Family::F82599, Family::X552];

pub fn add(list: &mut List) {
    phys(list);
    numbers(list);
    setup(list);
    good_transfers(list);
    unacknowledged(list);
    later_attempts(list);
    missing_acks(list);
    late_acks(list);
    stuck_bits(list);
    stuck_first_byte(list);
    clearing(list);
    stretches(list);
    whole_sweeps(list);
    clear_sweeps(list);
    locked_sweeps(list);
    grants(list);
    grant_faults(list);
    fault_pairs(list);
    lost_transfers(list);
    scripts(list);
    script_faults(list);
    random_transfers(list);
}

#[derive(Clone, Copy)]
pub struct Call {
    pub function: u32,
    pub args: [u32; 3],
}

impl Call {
    fn locked(self) -> bool {
        self.function != SCRIPT && self.args[2] == 1
    }

    /// Asks for the QSFP grant where the port needs it.
    fn asks_grant(self) -> bool {
        matches!(self.function, READ_BYTE | WRITE_BYTE | IDENTIFY..=RATE_SELECT | PAGE..=LIGHT)
    }
}

fn read_byte(device: u32, offset: u32, attempts: u32, lock: bool) -> Call {
    Call { function: READ_BYTE, args: packed(device, offset, attempts, lock) }
}

fn script_of(seed: u32, phrases: &[Phrase]) -> Call {
    Call { function: SCRIPT, args: [seed, shape(phrases), 0] }
}

impl List {
    pub fn word(&mut self) -> u32 {
        self.seeds.next()
    }

    pub fn read_byte(&mut self, attempts: u32, lock: bool) -> Call {
        let (device, offset) = (self.word() & 0xfe, self.word() & 0xff);
        read_byte(device, offset, attempts, lock)
    }

    pub fn write_byte(&mut self, lock: bool) -> Call {
        let (device, offset, value) = (self.word() & 0xfe, self.word() & 0xff, self.word() & 0xff);
        Call { function: WRITE_BYTE, args: packed(device, offset, value, lock) }
    }

    fn read_combined(&mut self, lock: bool) -> Call {
        let (device, reg) = (self.word() & 0xfe, self.word() & 0xffff);
        Call { function: READ_COMBINED, args: packed(device, reg, 0, lock) }
    }

    fn write_combined(&mut self, lock: bool) -> Call {
        let (device, reg, value) = (self.word() & 0xfe, self.word() & 0xffff, self.word() & 0xffff);
        Call { function: WRITE_COMBINED, args: packed(device, reg, value, lock) }
    }

    pub fn script(&mut self, phrases: &[Phrase]) -> Call {
        let seed = self.word();
        script_of(seed, phrases)
    }

    /// The four calls with random devices, registers and values.
    pub fn calls(&mut self, attempts: u32, lock: bool) -> [Call; 4] {
        [
            self.read_byte(attempts, lock),
            self.write_byte(lock),
            self.read_combined(lock),
            self.write_combined(lock),
        ]
    }

    /// A call that goes well: the locks and the QSFP grant come at once, at
    /// port 1 as the hardware shows them, and every byte is acknowledged.
    pub fn good(&mut self, call: Call, family: Family, lan: u32, device: u32) -> Case {
        let locks = if call.locked() { locks(family, lan) } else { vec![] };
        self.over(call, family, lan, device, locks)
    }

    /// As `good`, with these locks.
    pub fn over(&mut self, call: Call, family: Family, lan: u32, device: u32, locks: Vec<Rule>) -> Case {
        let mut case = self.case(call.function, family, lan, 0, locks);
        case.args = call.args;
        case.device = device;
        case.lines = Some(Lines::plain(layout(family)));
        if family == Family::F82599 && device == QSFP_DEVICE && call.asks_grant() {
            case.rules.push(always(ESDP, GRANT));
        }
        case
    }

    /// The case and some of its positions with faults: all before its first
    /// and after its last access of I2CCTL, each `stride`-th in between.
    fn sampled(&mut self, case: Case, stride: usize) {
        let log = log(&case);
        let first = log.iter().position(|a| touches(a, &case)).expect("a transfer");
        let last = log.iter().rposition(|a| touches(a, &case)).expect("a transfer");
        self.push(case.clone());
        let within = |at: &usize| *at <= first || *at >= last || at.is_multiple_of(stride);
        self.faults(&case, (0..=log.len()).filter(within));
    }
}

pub fn locks(family: Family, lan: u32) -> Vec<Rule> {
    let mask = transfer_mask(family, lan);
    if lan == 0 {
        granting(family, mask)
    } else {
        showing(family, mask)
    }
}

/// The first PCI device of the family.
pub fn usual(family: Family) -> u32 {
    DEVICES[FAMILIES.iter().position(|f| *f == family).expect("one of the five")][0]
}

pub fn touches(access: &Access, case: &Case) -> bool {
    let register = case.lines.expect("lines").layout.register;
    matches!(access, Access::Read(r, _) | Access::Write(r, _, _) if *r == register)
}

/// A read of I2CCTL: its number among these reads, its number among all
/// accesses, and the lines before it.
pub struct Seen {
    pub number: u32,
    pub at: usize,
    wires: Wires,
}

impl Seen {
    /// The first look at SCL after its rise.
    pub fn rise(&self) -> bool {
        self.wires.scl && self.wires.since == 0
    }

    /// A sample of an acknowledgement, from 1; SCL is not stretched.
    pub fn sample(&self, number: u32) -> bool {
        self.wires.scl && self.wires.slot == 9 && self.wires.since == number
    }

    /// No module drives SDA: a look at it after it was raised, or a read that
    /// begins an attempt or a start.
    pub fn quiet(&self) -> bool {
        !self.wires.scl || self.wires.slot == 0
    }
}

pub fn seen(case: &Case) -> Vec<Seen> {
    let layout = case.lines.expect("lines").layout;
    let mut wires = Wires::new();
    let mut all = Vec::new();
    for (at, access) in log(case).iter().enumerate() {
        match access {
            Access::Read(r, _) if *r == layout.register => {
                all.push(Seen { number: all.len() as u32, at, wires });
                wires.since += 1;
            }
            Access::Write(r, value, _) if *r == layout.register => wires.written(&layout, *value),
            _ => {}
        }
    }
    all
}

pub fn numbers_of(case: &Case, which: impl Fn(&Seen) -> bool) -> Vec<u32> {
    seen(case).into_iter().filter(which).map(|s| s.number).collect()
}

pub fn lined(case: &Case, change: impl Fn(&mut Lines)) -> Case {
    let mut case = case.clone();
    change(case.lines.as_mut().expect("lines"));
    case
}

fn window(case: &Case, at: u32, run: u32, bend: (u32, u32)) -> Case {
    lined(case, |lines| (lines.at, lines.run, lines.bend) = (at, run, bend))
}

pub fn sda_high(case: &Case, at: u32, run: u32) -> Case {
    window(case, at, run, (u32::MAX, case.lines.expect("lines").layout.sda_in))
}

pub fn sda_low(case: &Case, at: u32, run: u32) -> Case {
    window(case, at, run, (!case.lines.expect("lines").layout.sda_in, 0))
}

pub fn scl_low(case: &Case, at: u32, run: u32) -> Case {
    window(case, at, run, (!case.lines.expect("lines").layout.scl_in, 0))
}

/// Acknowledgements first low at this sample; past 10, never.
pub fn late(case: &Case, sample: u32) -> Case {
    lined(case, |lines| lines.late = sample)
}

pub fn stretched(case: &Case, tries: u32) -> Case {
    lined(case, |lines| (lines.stretch, lines.late) = (tries, tries.min(STRETCH - 1) + 1))
}

/// `sync::phy` at every port.
fn phys(list: &mut List) {
    for (family, lan) in every_port() {
        list.add(PHY, family, lan, 0, vec![]);
    }
}

/// The functions without accesses.
fn numbers(list: &mut List) {
    for (family, lan) in every_port() {
        for device in [QSFP_DEVICE, usual(family)] {
            for function in [X550EM, MASK, ATTEMPTS, QSFP] {
                let case = list.case(PLAIN, family, lan, function, vec![]);
                list.push(Case { device, ..case });
            }
        }
    }
    const BYTES: [u32; 13] = [0, 1, 2, 0x24, 0x34, 0x59, 0x7f, 0x80, 0x81, 0xa6, 0xab, 0xfe, 0xff];
    let mut pairs: Vec<(u32, u32)> = BYTES.into_iter().flat_map(|a| BYTES.map(|b| (a, b))).collect();
    pairs.extend((0..64).map(|_| (list.word() & 0xff, list.word() & 0xff)));
    for (i, (a, b)) in pairs.into_iter().enumerate() {
        let case = list.case(ONES_ADD, FAMILIES[i % 5], i as u32 % 2, a, vec![]);
        list.push(Case { args: [a, b, 0], ..case });
    }
}

/// `qsfp_setup`, swept; the bits that it changes all set, all clear.
fn setup(list: &mut List) {
    const CHANGED: u32 = 1 << 8 | 1 << 9 | 1 | 1 << 16 | 1 << 17;
    for (family, lan) in every_port() {
        list.swept(QSFP_SETUP, family, lan, 0, vec![]);
        list.add(QSFP_SETUP, family, lan, 0, vec![always(ESDP, (0, CHANGED))]);
        list.add(QSFP_SETUP, family, lan, 0, vec![always(ESDP, (CHANGED, 0))]);
    }
    list.add(QSFP_SETUP, Family::F82599, 0, 0, vec![always(ESDP, (0, u32::MAX))]);
}

/// Every port with PCI device 1558 and another, with and without lock.
pub fn settings() -> Vec<(Family, u32, u32, bool)> {
    let mut all = Vec::new();
    for (family, lan) in every_port() {
        for device in [QSFP_DEVICE, usual(family)] {
            all.extend([false, true].map(|lock| (family, lan, device, lock)));
        }
    }
    all
}

const ATTEMPT_COUNTS: [u32; 5] = [0, 1, 4, 11, 255];

/// Each call going well in every setting.
fn good_transfers(list: &mut List) {
    for (family, lan, device, lock) in settings() {
        for call in list.calls(1, lock) {
            let case = list.good(call, family, lan, device);
            list.push(case);
        }
        for attempts in ATTEMPT_COUNTS {
            let call = list.read_byte(attempts, lock);
            let case = list.good(call, family, lan, device);
            list.push(case);
        }
    }
}

/// Each call never acknowledged in every setting.
fn unacknowledged(list: &mut List) {
    for (family, lan, device, lock) in settings() {
        for attempts in ATTEMPT_COUNTS {
            let call = list.read_byte(attempts, lock);
            let case = list.good(call, family, lan, device);
            list.push(late(&case, SAMPLES + 1));
        }
        for call in &list.calls(2, lock)[1..] {
            let case = list.good(*call, family, lan, device);
            list.push(late(&case, SAMPLES + 1));
        }
    }
}

/// The first acknowledged attempt is the second, one in the middle, the last.
fn later_attempts(list: &mut List) {
    for (f, family) in FAMILIES.into_iter().enumerate() {
        for lock in [false, true] {
            for attempts in [2, 4, 11, 255] {
                let call = list.read_byte(attempts, lock);
                let mut at = vec![2, attempts / 2 + 1, attempts];
                at.dedup();
                for attempt in at {
                    acknowledged_at(list, call, family, f as u32 % 2, attempts, attempt);
                }
            }
            let [_, write, read, combined] = list.calls(1, lock);
            for lan in [0, 1] {
                acknowledged_at(list, write, family, lan, 2, 2);
                acknowledged_at(list, combined, family, lan, 2, 2);
                for attempt in 2..=4 {
                    acknowledged_at(list, read, family, lan, 4, attempt);
                }
            }
        }
    }
}

fn acknowledged_at(list: &mut List, call: Call, family: Family, lan: u32, attempts: u32, attempt: u32) {
    let case = list.good(call, family, lan, usual(family));
    let reads = seen(&late(&case, SAMPLES + 1)).len() as u32;
    list.push(sda_high(&case, 0, reads / attempts * (attempt - 1)));
}

/// Each byte of each transfer not acknowledged: once, so that the next
/// attempt goes well; in every attempt; from then on; and acknowledged at
/// the last sample.
fn missing_acks(list: &mut List) {
    for (f, family) in FAMILIES.into_iter().enumerate() {
        let script = list.script(&[Send(1), Read(1), Send(2)]);
        let mut calls = list.calls(3, false).to_vec();
        calls.push(script);
        for (i, mut call) in calls.into_iter().enumerate() {
            if (f + i) % 2 == 1 && call.function != SCRIPT {
                call.args[2] = 1;
            }
            let case = list.good(call, family, (f / 2 + i) as u32 % 2, usual(family));
            let whole = seen(&case).len();
            for number in numbers_of(&case, |s| s.sample(1)) {
                let once = sda_high(&case, number, SAMPLES);
                list.push(once.clone());
                if call.function != SCRIPT {
                    let period = (seen(&once).len() - whole) as u32;
                    list.push(lined(&once, |lines| lines.period = period));
                }
                list.push(sda_high(&case, number, NEVER));
                list.push(sda_high(&case, number, SAMPLES - 1));
            }
        }
    }
}

/// Every byte acknowledged at sample 1 to 10, and at 11, which is none.
fn late_acks(list: &mut List) {
    for (f, family) in FAMILIES.into_iter().enumerate() {
        for sample in 0..=SAMPLES + 1 {
            let lan = (f as u32 + sample) % 2;
            let script = list.script(&[Send(0), Read(0)]);
            let mut calls = list.calls(2, sample % 4 == 0).to_vec();
            calls.push(script);
            for call in calls {
                let case = list.good(call, family, lan, usual(family));
                list.push(late(&case, sample));
            }
        }
    }
}

/// SDA low at each look at it after it was raised (each bit where a 1 is
/// sent, the starts, the stop), once; the next attempt goes well. In each
/// layout also low from each bit on, for ever.
fn stuck_bits(list: &mut List) {
    for (f, family) in FAMILIES.into_iter().enumerate() {
        let script = list.script(&[Read(1), Send(1)]);
        let mut calls = list.calls(2, f % 2 == 1).to_vec();
        calls.push(script);
        for call in calls {
            let case = list.good(call, family, f as u32 % 2, usual(family));
            let kept = if LAYOUTS.contains(&family) { 1 } else { 5 };
            for number in numbers_of(&case, Seen::quiet).into_iter().step_by(kept) {
                list.push(sda_low(&case, number, 1));
            }
            if LAYOUTS.contains(&family) {
                for number in numbers_of(&case, Seen::rise) {
                    list.push(sda_low(&case, number, NEVER));
                }
            }
        }
    }
}

/// SDA low from each read of the first byte on: for ever, or for so long
/// that the clearing sees it too.
fn stuck_first_byte(list: &mut List) {
    for (f, family) in FAMILIES.into_iter().enumerate() {
        for device in [0xfe, 0xa0, 0x54] {
            let offset = list.word() & 0xff;
            let write = Call { function: WRITE_BYTE, args: packed(device, offset, 0x5a, f % 2 == 0) };
            for call in [read_byte(device, offset, 3, f % 2 == 1), write] {
                let case = list.good(call, family, f as u32 % 2, usual(family));
                let end = numbers_of(&case, |s| s.sample(1))[0];
                let kept = if LAYOUTS.contains(&family) { 1 } else { 4 };
                for number in (0..=end).step_by(kept) {
                    list.push(sda_low(&case, number, NEVER));
                    list.push(sda_low(&case, number, 2 + number % 7));
                }
            }
        }
    }
}

/// An attempt that is not acknowledged, and its clearing with SDA low, once
/// or from then on, and with SCL stretched.
fn clearing(list: &mut List) {
    for (f, family) in LAYOUTS.into_iter().enumerate() {
        for call in [list.read_byte(1, false), list.write_byte(true), list.script(&[Send(1)])] {
            let case = list.good(call, family, 1 - f as u32, usual(family));
            let case = late(&case, SAMPLES + 1);
            let reads = seen(&case);
            let last = reads.iter().find(|s| s.sample(SAMPLES)).expect("not acknowledged").number;
            let once = reads.len() as u32 / if call.function == WRITE_BYTE { 2 } else { 1 };
            for number in last + 1..once {
                list.push(sda_low(&case, number, 1));
                list.push(sda_low(&case, number, NEVER));
            }
            for rise in reads.iter().filter(|s| s.rise() && s.number > last && s.number < once) {
                list.push(scl_low(&case, rise.number, STRETCH - 1));
                list.push(scl_low(&case, rise.number, STRETCH));
            }
        }
    }
}

/// SCL stretched for 499 and 500 tries, at one rise and at every rise, for
/// some tries at every rise, and for ever.
fn stretches(list: &mut List) {
    for (f, family) in LAYOUTS.into_iter().enumerate() {
        let lan = f as u32;
        let script = list.script(&[Send(1), Read(2)]);
        let mut calls = list.calls(1, false).to_vec();
        calls.push(script);
        for call in calls {
            let case = list.good(call, family, lan, usual(family));
            let kept = if call.function == READ_BYTE { 1 } else { 6 };
            for number in numbers_of(&case, Seen::rise).into_iter().step_by(kept) {
                list.push(scl_low(&case, number, STRETCH - 1));
                list.push(scl_low(&case, number, STRETCH));
            }
            for tries in [1, 2, 3, 17] {
                list.push(stretched(&case, tries));
            }
            for tries in [STRETCH - 1, STRETCH] {
                list.push(stretched(&case, tries));
            }
        }
        let call = list.read_byte(1, false);
        let case = list.good(call, family, lan, usual(family));
        list.push(stretched(&case, STRETCH - 2));
        list.push(stretched(&case, STRETCH + 1));
        list.push(scl_low(&case, 0, NEVER));
        // Stretched tries failing: the first, one in the middle, the last.
        let rise = seen(&case).into_iter().find(Seen::rise).expect("a rise");
        let case = scl_low(&case, rise.number, STRETCH);
        let tries = rise.at - 3..rise.at - 3 + 4 * STRETCH as usize;
        for start in [tries.start, tries.start + 1000, tries.end - 4] {
            list.faults(&case, start..start + 5);
        }
    }
    for (family, lan) in every_port() {
        let call = list.write_byte(true);
        let case = list.good(call, family, lan, usual(family));
        list.push(stretched(&case, 5));
        list.push(late(&stretched(&case, 5), 5 + SAMPLES));
        list.push(late(&stretched(&case, 5), 6 + SAMPLES));
    }
}

/// A whole read of a byte in each layout: every access failing, every read
/// all ones. The same for a script that reads three bytes.
fn whole_sweeps(list: &mut List) {
    for family in LAYOUTS {
        let case = list.good(read_byte(0xa0, 0x5c, 2, false), family, 0, usual(family));
        list.sweep(case);
        let call = list.script(&[Send(0), Read(2)]);
        let case = list.good(call, family, 1, usual(family));
        let count = log(&case).len();
        list.push(case.clone());
        (0..=count).for_each(|at| list.push(failing(&case, at)));
    }
}

/// The clearing after a missing acknowledgement and after a stuck SDA, each
/// of its accesses failing, each of its reads all ones.
fn clear_sweeps(list: &mut List) {
    for family in LAYOUTS {
        let case = list.good(read_byte(0xa2, 0x03, 1, false), family, 1, usual(family));
        let never = late(&case, SAMPLES + 1);
        let reads = seen(&never);
        let last = reads.iter().find(|s| s.sample(SAMPLES)).expect("not acknowledged");
        list.faults(&never, last.at..=log(&never).len());
        let raised = seen(&case).into_iter().filter(Seen::quiet).nth(3).expect("a bit");
        let stuck = sda_low(&case, raised.number, NEVER);
        let count = log(&stuck).len();
        list.faults(&stuck, raised.at..=count);
    }
}

/// Each call with lock at each port, the accesses of the locks and some of
/// the transfer's failing or all ones; then with a first attempt that fails.
fn locked_sweeps(list: &mut List) {
    for (f, family) in FAMILIES.into_iter().enumerate() {
        for (i, call) in list.calls(2, true).into_iter().enumerate() {
            let lan = (f + i) as u32 % 2;
            let case = list.good(call, family, lan, usual(family));
            list.sampled(case, 97);
            let case = list.good(call, family, 1 - lan, usual(family));
            let reads = seen(&late(&case, SAMPLES + 1)).len() as u32;
            let attempts = if call.function == READ_COMBINED { 4 } else { 2 };
            let second = sda_high(&case, 0, reads / attempts);
            let end = seen(&second).into_iter().find(|s| s.number == reads / attempts).expect("a second");
            list.push(second.clone());
            list.faults(&second, end.at - 40..end.at + 2);
        }
    }
    // Without lock, some positions of the calls that are not swept whole.
    for family in [Family::X540, Family::X550, Family::X553, Family::F82599, Family::X552] {
        for call in &list.calls(1, false)[1..] {
            let case = list.good(*call, family, 1, usual(family));
            list.sampled(case, 41);
        }
    }
}

/// The grant at some tries, at the last, one before, too late and never.
fn grants(list: &mut List) {
    let family = Family::F82599;
    for tries in [1, 2, 3, 50, GRANTS - 1, GRANTS, GRANTS + 1, NEVER] {
        for lan in [0, 1] {
            for lock in [false, true] {
                for call in [
                    list.read_byte(0, lock),
                    list.read_byte(1, lock),
                    list.read_byte(4, lock),
                    list.write_byte(lock),
                ] {
                    let case = list.good(call, family, lan, QSFP_DEVICE);
                    list.push(granted_at(&case, tries));
                }
            }
        }
    }
    // Not asked for on other families and for the combined calls.
    for (family, lan) in every_port() {
        for call in list.calls(1, false) {
            let mut case = list.good(call, family, lan, QSFP_DEVICE);
            case.rules = vec![always(ESDP, (GRANT.1, 0))];
            list.push(case);
        }
    }
}

/// The grant comes at this try; the first read of ESDP is before the tries.
pub fn granted_at(case: &Case, tries: u32) -> Case {
    let rule = until(ESDP, tries, (GRANT.1, 0), GRANT);
    Case { rules: replaced(case.rules.clone(), rule), ..case.clone() }
}

/// ESDP all ones at some read, and failures in the handshake, before the
/// transfer, after it and where no grant comes; the mux of the X552 likewise.
fn grant_faults(list: &mut List) {
    let family = Family::F82599;
    let calls = [list.read_byte(1, false), list.write_byte(true), list.read_byte(0, true)];
    for (i, call) in calls.into_iter().enumerate() {
        let lan = i as u32 % 2;
        let case = list.good(call, family, lan, QSFP_DEVICE);
        for reads in 0..6 {
            for (first, tries) in [(GRANT, 1), ((GRANT.1, 0), 3)] {
                let rule = until(ESDP, reads, first, (0, u32::MAX));
                list.push(Case { rules: replaced(granted_at(&case, tries).rules, rule), ..case.clone() });
            }
        }
        if call.args[1] >> 16 == 0 {
            list.sweep(granted_at(&case, 3));
        } else {
            list.sampled(granted_at(&case, 3), 211);
            list.sampled(late(&case, SAMPLES + 1), 211);
        }
        list.tail(granted_at(&case, NEVER), 12);
    }
    for call in list.calls(2, true) {
        let case = list.good(call, Family::X552, 1, usual(Family::X552));
        for reads in 0..3 {
            let mut case = case.clone();
            case.rules.push(until(ESDP, reads, (0, 0), (0, u32::MAX)));
            list.push(case);
        }
    }
}

/// A failing access in the transfer or a lock, then all ones at each later
/// read: which failure is reported once locks and handshake are undone.
fn fault_pairs(list: &mut List) {
    let ports = [(Family::F82599, 0, QSFP_DEVICE), (Family::X552, 1, 0x15ac), (Family::X553, 0, 0x15c4)];
    for (family, lan, device) in ports {
        for call in list.calls(1, true) {
            let case = list.good(call, family, lan, device);
            let count = log(&case).len();
            let first = seen(&case)[0].at;
            for at in [first - 4, first, first + 1, first + count / 3, count - 6] {
                second_faults(&failing(&case, at), at, ones).into_iter().for_each(|c| list.push(c));
            }
        }
    }
}

/// Locks that never come, at first or after some takings; a resource free
/// at the last try, one before, never.
fn lost_transfers(list: &mut List) {
    for (f, family) in FAMILIES.into_iter().enumerate() {
        for (i, call) in list.calls(3, true).into_iter().enumerate() {
            let lan = (f + i) as u32 % 2;
            let free = sync_free(family, u32::MAX);
            let takings = if call.function == READ_BYTE || call.function == READ_COMBINED { 6 } else { 2 };
            for k in 0..takings {
                for lost in [smbi_lost(family, k), second_lost(family, k)] {
                    let case = list.over(call, family, lan, usual(family), lost(free));
                    list.push(late(&case, SAMPLES + 1));
                }
            }
            let mask = transfer_mask(family, lan);
            let last = (tries(family) - 1) * sync_reads(family);
            for hold in [last, last + sync_reads(family), NEVER] {
                let held = until(
                    sw_fw_sync(family),
                    hold,
                    sync_held(family, mask, sync::phy(lan as u8) << (5 * (f as u32 % 2))),
                    free,
                );
                let rules = replaced(granting(family, mask), held);
                let case = list.over(call, family, lan, usual(family), rules);
                list.push(case);
            }
        }
        let call = list.read_byte(2, true);
        let case = list.over(call, family, 1, QSFP_DEVICE, smbi_lost(family, 0)(sync_free(family, 0)));
        list.push(case);
    }
}

/// Shapes of scripts, from the shortest to those of 64 bytes.
fn shapes() -> Vec<Vec<Phrase>> {
    let mut all: Vec<Vec<Phrase>> = (0..6).flat_map(|k| [vec![Send(k)], vec![Read(k)]]).collect();
    all.extend([vec![Send(30)], vec![Read(59)], vec![Send(29)], vec![Read(58)]]);
    all.extend([vec![Send(1), Read(0)], vec![Send(2)], vec![Send(3), Read(2)], vec![Send(5)]]);
    all.extend([vec![Read(0), Read(0)], vec![Read(3), Send(3)], vec![Send(0), Send(0)]]);
    all.extend([vec![Send(1), Read(1), Send(1)], vec![Read(0), Read(1), Read(2)]]);
    all.push(vec![Send(1), Read(2), Send(3), Read(4)]);
    all.push(vec![Read(1), Send(0), Read(0), Send(1)]);
    all.push(vec![Send(0), Send(1), Send(2), Send(3)]);
    all.push(vec![Read(12), Read(11), Read(12), Read(12)]);
    all.push(vec![Send(6), Send(6), Send(7), Send(6)]);
    all
}

/// Every shape at every port, acknowledged.
fn scripts(list: &mut List) {
    for (family, lan) in every_port() {
        for phrases in shapes() {
            let call = list.script(&phrases);
            let case = list.good(call, family, lan, if lan == 0 { QSFP_DEVICE } else { usual(family) });
            list.push(case);
        }
    }
}

/// Every shape with a byte that is not acknowledged, with SDA stuck, and
/// with a failing access near the end of a byte that is read.
fn script_faults(list: &mut List) {
    for (f, family) in LAYOUTS.into_iter().enumerate() {
        for phrases in shapes() {
            let call = list.script(&phrases);
            let case = list.good(call, family, f as u32, usual(family));
            let acks = numbers_of(&case, |s| s.sample(1));
            for number in [acks[0], acks[acks.len() / 2], acks[acks.len() - 1]] {
                list.push(sda_high(&case, number, NEVER));
            }
            let raised = numbers_of(&case, Seen::quiet);
            for i in [0, 2, raised.len() / 2, raised.len() - 1] {
                list.push(sda_low(&case, raised[i], 1));
            }
            let reads = seen(&case);
            let ends: Vec<usize> = reads
                .iter()
                .filter(|s| s.sample(0) && !reads.iter().any(|r| r.number == s.number + 1 && r.sample(1)))
                .map(|s| s.at)
                .collect();
            for at in ends.into_iter().take(3) {
                list.faults(&case, (at - 4..at + 10).step_by(2));
            }
            let count = log(&case).len();
            list.faults(&case, (0..count).step_by(count / 5));
        }
    }
}

/// Answers without the module: none bent, or I2CCTL's input bits high, or
/// high up to some read; with a fault in every third.
fn random_transfers(list: &mut List) {
    for (family, lan) in every_port() {
        let layout = layout(family);
        let released = (0, layout.scl_in | layout.sda_in);
        for i in 0..12 {
            let script = list.script(&[Send(i % 3), Read(i % 4)]);
            let mut calls = list.calls(i, i % 4 == 3).to_vec();
            calls.push(script);
            for call in calls {
                let mut case = list.case(call.function, family, lan, 0, vec![]);
                case.args = call.args;
                case.rules = match i % 4 {
                    0 => vec![],
                    1 => vec![always(layout.register, released)],
                    2 => vec![until(layout.register, list.word() % 40, released, (layout.sda_in, 0))],
                    _ => locks(family, lan),
                };
                let at = list.word() % log(&case).len().max(1) as u32;
                case.fail_at = if i % 3 == 1 { at } else { NEVER };
                case.ones_at = if i % 3 == 2 { at } else { NEVER };
                list.push(case);
            }
        }
    }
}
