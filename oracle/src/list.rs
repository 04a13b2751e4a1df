//! The fixed list. Each group has a purpose, named above it; a change of the
//! list's makers must be followed by writing crates/replay/stdin anew.

use std::collections::HashSet;

use crate::answers::{Access, Rule, Stream, NEVER};
use crate::case::*;
use crate::driver::i2c::Sequence;
use crate::driver::sync::{self, EEP, I2C0, I2C1, PHY0, PHY1, SHARED_I2C, SW_MNG};
use crate::driver::Family;
use crate::level;
use crate::rules::*;

mod light;
mod pages;
mod rounds;
mod samples;
mod sfp;
mod transfers;

/// The firmware's token in a mask.
const WITH_TOKEN: u32 = sync::TOKEN;
/// Tries at SMBI, SWESMBI and REGSMP.
const LOCK_TRIES: u32 = 2000;
/// Polls of HICR.
const POLLS: u32 = 50_000;
const TOKEN_TRIES: u32 = 1000;
/// The PCI device of each family, and a second one.
const DEVICES: [[u32; 2]; 5] =
    [[0x10fb, 0x1558], [0x1528, 0x1560], [0x1563, 0x15d1], [0x15ac, 0x15ad], [0x15c4, 0x15c2]];
/// A block of `token`: two words, so a response of at most 4 bytes.
const TOKEN_LEN: u32 = 2;

/// All cases, in order.
pub fn cases() -> Vec<Case> {
    let mut list = List::new();
    plain(&mut list);
    good_paths(&mut list);
    short_detours(&mut list);
    mux(&mut list);
    token_paths(&mut list);
    faults_in_pairs(&mut list);
    masks(&mut list);
    held_bits(&mut list);
    lock_limits(&mut list);
    lost_locks(&mut list);
    resource_limits(&mut list);
    responses(&mut list);
    statuses(&mut list);
    polls(&mut list);
    token_limits(&mut list);
    rule_order(&mut list);
    random(&mut list);
    transfers::add(&mut list);
    sfp::add(&mut list);
    pages::add(&mut list);
    rounds::add(&mut list);
    light::add(&mut list);
    levels(&mut list);
    samples::add(&mut list);
    list.cases
}

/// The cases so far, each kept once.
struct List {
    cases: Vec<Case>,
    seen: HashSet<Vec<u32>>,
    seeds: Stream,
}

impl List {
    fn new() -> Self {
        List { cases: Vec::new(), seen: HashSet::new(), seeds: Stream::new(2) }
    }

    /// A case without faults; each gets another seed.
    fn case(&mut self, function: u32, family: Family, lan: u32, a1: u32, rules: Vec<Rule>) -> Case {
        let number = FAMILIES.iter().position(|f| *f == family).expect("one of the five");
        let seed = self.seeds.next();
        let a2 = if function == COMMAND { self.seeds.next() } else { 0 };
        Case {
            function,
            sequence: Sequence::Pulses,
            family: number as u32,
            device: DEVICES[number][(seed % 2) as usize],
            lan,
            args: [a1, a2, 0],
            seed,
            fail_at: NEVER,
            ones_at: NEVER,
            rules,
            lines: None,
        }
    }

    fn push(&mut self, case: Case) {
        if self.seen.insert(case.input()) {
            self.cases.push(case);
        }
    }

    fn add(&mut self, function: u32, family: Family, lan: u32, a1: u32, rules: Vec<Rule>) {
        let case = self.case(function, family, lan, a1, rules);
        self.push(case);
    }

    /// The case, then each of its accesses failing, then each of its reads
    /// all ones. A position past the end and the positions of waits, which
    /// do not fail, are among them.
    fn sweep(&mut self, case: Case) {
        let count = log(&case).len();
        self.push(case.clone());
        self.faults(&case, 0..=count);
    }

    fn swept(&mut self, function: u32, family: Family, lan: u32, a1: u32, rules: Vec<Rule>) {
        let case = self.case(function, family, lan, a1, rules);
        self.sweep(case);
    }

    /// `sweep` for the last `count` accesses of a long run.
    fn tail(&mut self, case: Case, count: usize) {
        let all = log(&case).len();
        self.push(case.clone());
        self.faults(&case, all - count..=all);
    }

    fn faults(&mut self, case: &Case, positions: impl Iterator<Item = usize>) {
        let log = log(case);
        for at in positions {
            self.push(failing(case, at));
            if matches!(log.get(at), Some(Access::Read(..))) {
                self.push(ones(case, at));
            }
        }
    }

    /// Two faults: the first at any access, the second, of the other kind,
    /// at any access that is still made after it. Every `stride`-th is kept.
    fn pairs(&mut self, case: Case, stride: usize) {
        let mut found = Vec::new();
        for at in 0..log(&case).len() {
            found.extend(second_faults(&failing(&case, at), at, ones));
            found.extend(second_faults(&ones(&case, at), at, failing));
        }
        found.into_iter().step_by(stride).for_each(|c| self.push(c));
    }
}

/// A case with a fault at `first`, given a second one at each later access
/// that it still makes; not where the first fault changes nothing.
fn second_faults(case: &Case, first: usize, second: fn(&Case, usize) -> Case) -> Vec<Case> {
    let whole = Case { fail_at: NEVER, ones_at: NEVER, ..case.clone() };
    if case.run() == whole.run() {
        return Vec::new();
    }
    (first + 1..log(case).len()).map(|at| second(case, at)).filter(faulty).collect()
}

/// Is the fault's access made, and of a kind that can have it?
fn faulty(case: &Case) -> bool {
    let log = log(case);
    let failed = match log.get(case.fail_at as usize) {
        Some(access) => !matches!(access, Access::Wait(_)),
        None => false,
    };
    failed && matches!(log.get(case.ones_at as usize), Some(Access::Read(..)))
}

fn log(case: &Case) -> Vec<Access> {
    let mut player = case.player().logged();
    case.run_with(&mut player);
    player.log()
}

fn failing(case: &Case, at: usize) -> Case {
    Case { fail_at: at as u32, ..case.clone() }
}

fn ones(case: &Case, at: usize) -> Case {
    Case { ones_at: at as u32, ..case.clone() }
}

fn replaced(mut rules: Vec<Rule>, rule: Rule) -> Vec<Rule> {
    let place = rules.iter_mut().find(|r| r.register == rule.register);
    *place.expect("the register has a rule") = rule;
    rules
}

fn every_port() -> impl Iterator<Item = (Family, u32)> {
    FAMILIES.into_iter().flat_map(|family| [(family, 0), (family, 1)])
}

/// Masks with a meaning, each single bit, all, none, and some random ones.
fn mask_list() -> Vec<u32> {
    let mut all = vec![0, u32::MAX, !WITH_TOKEN, SHARED_I2C, I2C0 | I2C1, PHY0 | PHY1, 0x1f, 0x1c1f];
    all.extend([PHY0, PHY1, SHARED_I2C, SW_MNG, EEP].map(|m| m | WITH_TOKEN));
    all.extend([PHY0 | I2C0, PHY1 | I2C1, EEP | I2C0, SW_MNG | I2C1]);
    all.extend((0..32).map(|i| 1 << i));
    let mut random = Stream::new(77);
    all.extend((0..8).map(|_| random.next()));
    all
}

/// `regs` for every family; `bits` for every family and mask.
fn plain(list: &mut List) {
    for (family, lan) in every_port() {
        list.add(REGS, family, lan, 0, vec![]);
    }
    for family in FAMILIES {
        for (i, mask) in mask_list().into_iter().enumerate() {
            list.add(BITS, family, i as u32 % 2, mask, vec![]);
        }
        for i in 0..12 {
            let mask = list.seeds.next();
            list.add(BITS, family, i % 2, mask, vec![]);
        }
    }
}

/// Each call going well at every port, with every access failing and every
/// read all ones. At port 1 the locks are shown as the hardware shows them.
fn good_paths(list: &mut List) {
    for (family, lan) in every_port() {
        let phy = sync::phy(lan as u8);
        let locks = if lan == 0 { granting(family, phy) } else { showing(family, phy) };
        for (function, mask) in [(LOCK, 0), (UNLOCK, 0), (ACQUIRE, phy), (RELEASE, phy)] {
            list.swept(function, family, lan, mask, locks.clone());
        }
        list.swept(COMMAND, family, lan, 2, answering(locks.clone(), 4, 0));
        list.swept(TOKEN, family, lan, 1 - lan, with_firmware(locks));
    }
}

/// Short ways round the good path, swept: retries in the locks, a resource
/// held once, and each way a firmware command is given up.
fn short_detours(list: &mut List) {
    for (i, family) in FAMILIES.into_iter().enumerate() {
        let lan = i as u32 % 2;
        let sync_reg = sw_fw_sync(family);
        let slow = until(swsm(family), 2, (0, SMBI), swsm_granted(family));
        list.swept(LOCK, family, lan, 0, replaced(granting(family, 0), slow));
        list.swept(LOCK, family, lan, 0, replaced(granting(family, 0), second_slow(family)));
        let held =
            until(sync_reg, sync_reads(family), sync_held(family, PHY1, PHY1), sync_free(family, PHY1));
        list.swept(ACQUIRE, family, lan, PHY1, replaced(granting(family, PHY1), held));
        let good = answering(granting(family, 0), 4, 0);
        let disabled = always(HICR, (HICR_EN, HICR_C | HICR_SV));
        list.swept(COMMAND, family, lan, 2, replaced(good.clone(), disabled));
        let slow = until(HICR, 3, HICR_AT_WORK, (HICR_C | HICR_SV, HICR_EN));
        list.swept(COMMAND, family, lan, 1, replaced(good.clone(), slow));
        let long = always(HEAD, head(5, 0x80));
        list.swept(COMMAND, family, 1 - lan, 2, replaced(good, long));
    }
    // A longer block, its response whole: the words read before a failure stay.
    list.swept(COMMAND, Family::X553, 1, 6, answering(granting(Family::X553, 0), 20, 1));
    list.swept(COMMAND, Family::X552, 0, 4, answering(granting(Family::X552, 0), 5, 3));
    let case = list.case(COMMAND, Family::X550, 0, 64, answering(granting(Family::X550, 0), 252, 1));
    let count = log(&case).len();
    list.push(case.clone());
    list.faults(&case, (0..count).step_by(7));
}

/// SWESMBI (82599) or REGSMP granted at the third try.
fn second_slow(family: Family) -> Rule {
    if family == Family::F82599 {
        until(swsm(family), 6, (SMBI | SWESMBI, 0), swsm_granted(family))
    } else {
        until(sw_fw_sync(family), 2, (0, REGSMP), (REGSMP, 0))
    }
}

/// The I2C mux: only the X552's port 1 has it, and only for I2C bits. An
/// acquire whose mux write fails has its bits taken.
fn mux(list: &mut List) {
    for (family, lan) in every_port() {
        for mask in [SHARED_I2C, I2C0, I2C1, PHY1] {
            for function in [ACQUIRE, RELEASE] {
                let case = list.case(function, family, lan, mask, showing(family, mask));
                if family == Family::X552 && mask != I2C1 {
                    list.sweep(case)
                } else {
                    list.push(case)
                }
            }
        }
    }
}

/// TOKEN in a mask, short and swept: granted, busy once, refused, and given
/// back, with and without SW_FW_SYNC bits.
fn token_paths(list: &mut List) {
    let x553 = Family::X553;
    for (i, mask) in [WITH_TOKEN, WITH_TOKEN | PHY0, WITH_TOKEN | SHARED_I2C].into_iter().enumerate() {
        let lan = i as u32 % 2;
        list.swept(ACQUIRE, x553, lan, mask, answering(granting(x553, mask), TOKEN_LEN, GRANTED));
        list.swept(RELEASE, x553, lan, mask, answering(granting(x553, mask), TOKEN_LEN, GRANTED));
    }
    let mask = WITH_TOKEN | PHY1;
    let busy = until(HEAD, 1, head(TOKEN_LEN, BUSY), head(TOKEN_LEN, GRANTED));
    list.swept(ACQUIRE, x553, 1, mask, replaced(answering(granting(x553, mask), 0, 0), busy));
    let busy = until(HEAD, 1, head(0, BUSY), head(0, GRANTED));
    list.swept(ACQUIRE, x553, 0, WITH_TOKEN, replaced(answering(granting(x553, 0), 0, 0), busy));
    list.swept(ACQUIRE, x553, 1, mask, answering(granting(x553, mask), TOKEN_LEN, 0x02));
    list.swept(RELEASE, x553, 1, mask, answering(granting(x553, mask), TOKEN_LEN, BUSY));
    // No family is asked about: TOKEN works alike on the others.
    for (family, lan) in every_port() {
        for mask in [WITH_TOKEN, WITH_TOKEN | SHARED_I2C] {
            list.add(ACQUIRE, family, lan, mask, answering(granting(family, mask), TOKEN_LEN, GRANTED));
            list.add(ACQUIRE, family, lan, mask, answering(granting(family, mask), TOKEN_LEN, 0x03));
            list.add(RELEASE, family, lan, mask, answering(granting(family, mask), TOKEN_LEN, GRANTED));
            list.add(RELEASE, family, lan, mask, answering(granting(family, mask), TOKEN_LEN, 0x03));
        }
    }
}

/// Two faults in one call: which of the two failures is reported.
fn faults_in_pairs(list: &mut List) {
    for (i, family) in FAMILIES.into_iter().enumerate() {
        let lan = i as u32 % 2;
        let case = list.case(ACQUIRE, family, 1, SHARED_I2C, showing(family, SHARED_I2C));
        list.pairs(case, 1);
        let case = list.case(RELEASE, family, 1, SHARED_I2C, showing(family, SHARED_I2C));
        list.pairs(case, 1);
        let case = list.case(COMMAND, family, lan, 1, answering(showing(family, 0), 0, 0));
        list.pairs(case, 2);
    }
    let mask = WITH_TOKEN | PHY0;
    for function in [ACQUIRE, RELEASE] {
        let case = list.case(
            function,
            Family::X553,
            0,
            mask,
            answering(showing(Family::X553, mask), TOKEN_LEN, GRANTED),
        );
        list.pairs(case, 5);
    }
    let case =
        list.case(ACQUIRE, Family::X553, 1, mask, answering(showing(Family::X553, mask), TOKEN_LEN, 0x07));
    list.pairs(case, 9);
}

/// Every mask, free, at every family; those of several bits at both ports.
fn masks(list: &mut List) {
    for (f, family) in FAMILIES.into_iter().enumerate() {
        for (i, mask) in mask_list().into_iter().enumerate() {
            let rules = if mask & WITH_TOKEN == 0 {
                granting(family, mask)
            } else {
                answering(granting(family, mask), TOKEN_LEN, GRANTED)
            };
            let lan = (f + i) as u32 % 2;
            list.add(ACQUIRE, family, lan, mask, rules.clone());
            list.add(RELEASE, family, lan, mask, rules.clone());
            if mask.count_ones() > 1 && mask.count_ones() < 9 {
                list.add(ACQUIRE, family, 1 - lan, mask, rules.clone());
                list.add(RELEASE, family, 1 - lan, mask, rules);
            }
        }
    }
}

/// One bit of SW_FW_SYNC set at the first try: does it block the mask?
fn held_bits(list: &mut List) {
    for (f, family) in FAMILIES.into_iter().enumerate() {
        for bit in 0..32 {
            for mask in [0x1c1f, PHY1 | I2C0] {
                let first = sync_held(family, u32::MAX, 1 << bit);
                let rule = until(sw_fw_sync(family), sync_reads(family), first, sync_free(family, u32::MAX));
                let rules = replaced(granting(family, 0), rule);
                list.add(ACQUIRE, family, (f as u32 + bit) % 2, mask, rules);
            }
        }
    }
}

/// SMBI, SWESMBI and REGSMP granted at the last try, one before, never, and
/// just too late; and the end of the run that was never granted.
fn lock_limits(list: &mut List) {
    for (i, family) in FAMILIES.into_iter().enumerate() {
        for k in [LOCK_TRIES - 2, LOCK_TRIES - 1, LOCK_TRIES, NEVER] {
            for (lan, rules) in [(0, smbi_after(family, k)), (1, second_after(family, k))] {
                list.add(LOCK, family, lan, 0, rules.clone());
                list.add(ACQUIRE, family, lan, PHY0, rules.clone());
                list.add(RELEASE, family, lan, SHARED_I2C, rules);
            }
        }
        let lan = i as u32 % 2;
        let case = list.case(LOCK, family, lan, 0, smbi_after(family, LOCK_TRIES));
        list.tail(case, 3);
        for function in [LOCK, ACQUIRE, RELEASE] {
            let case = list.case(function, family, lan, EEP, second_after(family, LOCK_TRIES));
            list.tail(case, 6);
        }
        for rules in [smbi_after(family, LOCK_TRIES), second_after(family, LOCK_TRIES)] {
            list.add(COMMAND, family, lan, 2, with_firmware(rules.clone()));
            list.add(TOKEN, family, lan, 1, with_firmware(rules));
        }
    }
}

fn with_firmware(locks: Vec<Rule>) -> Vec<Rule> {
    answering(locks, TOKEN_LEN, GRANTED)
}

/// SMBI refused `k` times, all else granted.
fn smbi_after(family: Family, k: u32) -> Vec<Rule> {
    let rule = until(swsm(family), k, (0, SMBI), swsm_granted(family));
    replaced(granting(family, u32::MAX), rule)
}

/// SWESMBI (82599: after one read for SMBI, two for each try) or REGSMP
/// refused `k` times, all else granted; then they are seen taken.
fn second_after(family: Family, k: u32) -> Vec<Rule> {
    let rule = if family == Family::F82599 {
        let hold = k.saturating_mul(2).saturating_add(1);
        until(swsm(family), hold, (SMBI | SWESMBI, 0), (0, SMBI | SWESMBI))
    } else {
        until(sw_fw_sync(family), k, (0, REGSMP), sync_free(family, u32::MAX))
    };
    replaced(showing(family, u32::MAX), rule)
}

/// The register semaphore granted `k` times and then never again: in the
/// middle of an acquire, in a release, and in the calls inside a call.
fn lost_locks(list: &mut List) {
    for family in FAMILIES {
        for k in 0..6 {
            for lost in [smbi_lost(family, k), second_lost(family, k)] {
                let lan = k % 2;
                let held = sync_held(family, u32::MAX, PHY0);
                list.add(ACQUIRE, family, lan, PHY0, lost(held));
                let free = sync_free(family, u32::MAX);
                list.add(COMMAND, family, lan, 2, with_firmware(lost(free)));
            }
        }
        for k in 0..2 {
            for lost in [smbi_lost(family, k), second_lost(family, k)] {
                let mut refused = with_firmware(lost(sync_free(family, u32::MAX)));
                refused[2] = always(HICR, (HICR_EN, 0));
                list.add(COMMAND, family, 1 - k, 3, refused);
                let rules = with_firmware(lost(sync_free(family, u32::MAX)));
                list.add(TOKEN, family, 1, k, rules);
            }
        }
    }
    lost_with_token(list);
}

/// TOKEN with a bit on the X553: four takings in an acquire that is not
/// granted, three in a release. Then a lock that comes back, so that the
/// bits are given back although the token was not.
fn lost_with_token(list: &mut List) {
    let x553 = Family::X553;
    let mask = WITH_TOKEN | PHY0;
    for k in 0..6 {
        for lost in [smbi_lost(x553, k), second_lost(x553, k)] {
            for status in [GRANTED, BUSY, 0x05] {
                let rules = answering(lost(sync_free(x553, u32::MAX)), TOKEN_LEN, status);
                list.add(ACQUIRE, x553, k % 2, mask, rules.clone());
                list.add(RELEASE, x553, k % 2, mask, rules);
            }
        }
    }
    for function in [ACQUIRE, RELEASE] {
        list.add(function, x553, 0, mask, with_firmware(smbi_after(x553, LOCK_TRIES)));
        list.add(function, x553, 1, mask, with_firmware(second_after(x553, LOCK_TRIES)));
    }
}

/// The rules of a lock lost after `k` takings, given SW_FW_SYNC's bend.
type Lost = Box<dyn Fn(Bend) -> Vec<Rule>>;

fn smbi_lost(family: Family, k: u32) -> Lost {
    Box::new(move |sync| {
        let first = swsm_granted(family);
        vec![
            until(swsm(family), k * swsm_reads(family), first, (0, SMBI | first.1)),
            always(sw_fw_sync(family), sync),
        ]
    })
}

fn second_lost(family: Family, k: u32) -> Lost {
    Box::new(move |sync| {
        let granted = swsm_granted(family);
        if family == Family::F82599 {
            // One read more: SMBI is granted once more, SWESMBI is not.
            let hold = k * swsm_reads(family) + 1;
            let swsm = until(swsm(family), hold, granted, (SMBI | SWESMBI, 0));
            vec![swsm, always(sw_fw_sync(family), sync)]
        } else {
            let hold = k * sync_reads(family);
            let sync_reg = until(sw_fw_sync(family), hold, sync, (0, REGSMP));
            vec![always(swsm(family), granted), sync_reg]
        }
    })
}

/// A resource held by software, firmware or hardware: free at the last try,
/// one before, never, and freed right after the last look at it.
fn resource_limits(list: &mut List) {
    for (f, family) in FAMILIES.into_iter().enumerate() {
        let all = tries(family);
        let each = sync_reads(family);
        for (i, (mask, held)) in holders(family).into_iter().enumerate() {
            for hold in [(all - 2) * each, (all - 1) * each, all * each - each / 2, NEVER] {
                let lan = (f + i) as u32 % 2;
                list.add(ACQUIRE, family, lan, mask, held_for(family, mask, held, hold));
            }
        }
        // The last look at it: held at one read, free at the next.
        let look = (all - 1) * each + each / 2;
        for hold in [look, look + 1] {
            list.add(ACQUIRE, family, 1, PHY1, held_for(family, PHY1, PHY1, hold));
        }
        let case = list.case(ACQUIRE, family, 0, PHY1, held_for(family, PHY1, PHY1, NEVER));
        list.tail(case, 7);
        for (function, a1) in [(COMMAND, 2), (TOKEN, 0), (ACQUIRE, WITH_TOKEN)] {
            let rules = with_firmware(held_for(family, SW_MNG, SW_MNG, NEVER));
            list.add(function, family, 1, a1, rules);
        }
        // Held bits that change from try to try: the last are reported.
        let bits = sync_reads(family);
        let rule = cycle(sw_fw_sync(family), 2 * bits, bits, (REGSMP, PHY0), (REGSMP, PHY1));
        list.add(ACQUIRE, family, 0, PHY0 | PHY1, replaced(granting(family, 0), rule));
    }
}

/// A mask and a bit that blocks it: of software, of firmware, of hardware.
fn holders(family: Family) -> Vec<(u32, u32)> {
    let mut all = vec![(PHY0, PHY0), (PHY1, PHY1 << 5), (EEP, EEP << 5), (SHARED_I2C, PHY0 << 5)];
    if family != Family::F82599 {
        all.extend([(EEP, 1 << 4), (SHARED_I2C, I2C1), (I2C0, I2C0 << 2), (SW_MNG, SW_MNG)]);
    }
    all
}

fn held_for(family: Family, mask: u32, held: u32, hold: u32) -> Vec<Rule> {
    let rule = until(sw_fw_sync(family), hold, sync_held(family, mask, held), sync_free(family, mask));
    replaced(granting(family, mask), rule)
}

/// Blocks of several lengths with responses around theirs; a head of all
/// ones (too long for any block) and response words of all ones (kept).
fn responses(list: &mut List) {
    for (family, lan) in [(Family::X552, 1), (Family::X553, 0)] {
        for words in [1, 2, 3, 6, 63, 64] {
            let room: u32 = 4 * (words - 1);
            let mut lengths = vec![0, 1, 2, 3, 4, 5, 252, 253, 255];
            lengths.extend([room.saturating_sub(1), room, room + 1, room + 4]);
            lengths.sort();
            lengths.dedup();
            for len in lengths.into_iter().filter(|len| *len <= 255) {
                list.add(COMMAND, family, lan, words, answering(granting(family, 0), len, len & 3));
            }
            let ones = always(HEAD, (0, u32::MAX));
            list.add(COMMAND, family, lan, words, replaced(answering(granting(family, 0), 0, 0), ones));
        }
    }
    for words in 1..=BLOCK_WORDS {
        let family = FAMILIES[words as usize % 5];
        let len = 4 * (words - 1);
        list.add(COMMAND, family, words % 2, words, answering(granting(family, 0), len, words));
    }
    let mut rules = granting(Family::X553, 0);
    rules[0] = always(HEAD + 4, (0, u32::MAX));
    rules.push(always(HICR, HICR_DONE));
    rules.push(always(HEAD, head(4, 0)));
    for _ in 0..4 {
        list.add(COMMAND, Family::X553, 1, 2, rules.clone());
    }
}

/// Status bytes, of a command and of the token taken and given back.
fn statuses(list: &mut List) {
    for (f, family) in FAMILIES.into_iter().enumerate() {
        for (i, status) in [0, 1, 2, 3, 0x10, 0x7f, 0x80, 0x81, 0xfe, 0xff].into_iter().enumerate() {
            let lan = (f + i) as u32 % 2;
            for take in [0, 1] {
                let rules = answering(granting(family, 0), (i % 5) as u32, status);
                list.add(TOKEN, family, (lan + take) % 2, take, rules);
            }
            list.add(COMMAND, family, lan, 1, answering(granting(family, 0), 0, status));
        }
        // A response of five bytes does not fit the token's block.
        list.add(TOKEN, family, 0, 1, answering(granting(family, 0), 5, GRANTED));
    }
}

/// HICR done after some polls, at the last of 50,000, one before, and never;
/// done without SV; and the end of the longest run.
fn polls(list: &mut List) {
    for (f, family) in FAMILIES.into_iter().enumerate() {
        let lan = f as u32 % 2;
        for (count, sv) in [(1, HICR_SV), (2, HICR_SV), (9, HICR_SV), (2, 0), (500, HICR_SV), (501, 0)] {
            list.add(COMMAND, family, lan, 2, done_at(family, count, sv));
            list.add(TOKEN, family, 1 - lan, count % 2, done_at(family, count, sv));
        }
        for count in [POLLS - 1, POLLS, POLLS + 1] {
            list.add(COMMAND, family, lan, 2, done_at(family, count, HICR_SV));
        }
        list.add(COMMAND, family, 1 - lan, 1, done_at(family, POLLS, 0));
    }
    let x553 = Family::X553;
    for count in [POLLS - 1, POLLS, POLLS + 1] {
        list.add(TOKEN, x553, 1, 1, done_at(x553, count, HICR_SV));
        list.add(ACQUIRE, x553, 1, WITH_TOKEN | PHY1, done_at(x553, count, HICR_SV));
    }
    let case = list.case(COMMAND, x553, 0, 1, done_at(x553, POLLS + 1, HICR_SV));
    list.tail(case, 14);
}

/// HICR done at poll `count` (from 1); its first read comes before the polls.
fn done_at(family: Family, count: u32, sv: u32) -> Vec<Rule> {
    let rule = until(HICR, count, HICR_AT_WORK, (HICR_C | HICR_SV, HICR_EN | sv));
    replaced(answering(granting(family, u32::MAX), TOKEN_LEN, GRANTED), rule)
}

/// TOKEN while the firmware is busy: granted after `k` refusals, up to the
/// last of 1,000 tries and past it; then failures after some tries.
fn token_limits(list: &mut List) {
    let x553 = Family::X553;
    for hw in [0, PHY0, SHARED_I2C, EEP] {
        for k in [0, 1, 2, 3, 17, TOKEN_TRIES - 2, TOKEN_TRIES - 1, TOKEN_TRIES, TOKEN_TRIES + 1] {
            list.add(ACQUIRE, x553, k % 2, WITH_TOKEN | hw, busy_for(x553, k, GRANTED));
        }
        for k in [1, 2] {
            list.add(ACQUIRE, x553, k % 2, WITH_TOKEN | hw, busy_for(x553, k, 0x06));
            for bend in [(HICR_EN, 0), (HICR_SV | HICR_C, HICR_EN)] {
                let stops = until(HICR, 2 * k, HICR_DONE, bend);
                list.add(ACQUIRE, x553, k % 2, WITH_TOKEN | hw, replaced(busy_for(x553, NEVER, 0), stops));
            }
        }
    }
    for (f, family) in FAMILIES.into_iter().enumerate() {
        for k in [1, TOKEN_TRIES - 1, TOKEN_TRIES] {
            list.add(ACQUIRE, family, f as u32 % 2, WITH_TOKEN | I2C0, busy_for(family, k, GRANTED));
        }
    }
    let case = list.case(ACQUIRE, x553, 0, WITH_TOKEN | PHY0, busy_for(x553, TOKEN_TRIES, GRANTED));
    list.tail(case, 12);
    // The bits come at the first try and are held at the second.
    let mask = WITH_TOKEN | PHY0;
    for (bit, hold) in [(PHY0, 12), (PHY0 << 5, 24), (SW_MNG, 3), (SW_MNG, 12)] {
        let rule = until(sw_fw_sync(x553), hold, sync_free(x553, mask), sync_held(x553, mask, bit));
        list.add(ACQUIRE, x553, 0, mask, replaced(busy_for(x553, NEVER, 0), rule));
    }
}

/// The firmware answers busy `k` times and then `status`.
fn busy_for(family: Family, k: u32, status: u32) -> Vec<Rule> {
    let rule = until(HEAD, k, head(TOKEN_LEN, BUSY), head(TOKEN_LEN, status));
    replaced(answering(granting(family, u32::MAX), 0, 0), rule)
}

/// The answers themselves: the first of two rules for a register counts, a
/// failed read moves the stream and the rule on, a period begins anew.
fn rule_order(list: &mut List) {
    for (family, lan) in every_port() {
        let locks = granting(family, PHY0);
        let mut twice = locks.clone();
        twice.push(always(swsm(family), (0, SMBI)));
        twice.push(always(sw_fw_sync(family), (0, PHY0)));
        list.add(ACQUIRE, family, lan, PHY0, twice);
        let rule = cycle(sw_fw_sync(family), 5, 2, (REGSMP, PHY0), (0, 0));
        list.add(ACQUIRE, family, lan, PHY0, replaced(locks.clone(), rule));
        let rule = cycle(swsm(family), 7, 3, (0, SMBI), swsm_granted(family));
        list.add(ACQUIRE, family, lan, PHY0, replaced(locks, rule));
    }
}

/// No rules at all: what random answers do, with a fault in every third.
fn random(list: &mut List) {
    for (family, lan) in every_port() {
        for function in [LOCK, UNLOCK, ACQUIRE, RELEASE, COMMAND, TOKEN] {
            for i in 0..6 {
                let mut case = list.case(function, family, lan, 0, vec![]);
                case.args[0] = random_argument(function, lan, list.seeds.next());
                let at = list.seeds.next() % log(&case).len().max(1) as u32;
                case.fail_at = if i % 3 == 1 { at } else { NEVER };
                case.ones_at = if i % 3 == 2 { at } else { NEVER };
                list.push(case);
            }
        }
    }
}

fn random_argument(function: u32, lan: u32, word: u32) -> u32 {
    match function {
        ACQUIRE | RELEASE => [sync::phy(lan as u8), SW_MNG, EEP, I2C1][(word % 4) as usize],
        COMMAND => 1 + word % BLOCK_WORDS,
        TOKEN => word % 2,
        _ => 0,
    }
}

/// Every count from 0 to 65,535, in its order, each in one case.
fn levels(list: &mut List) {
    for (i, first) in (0..=level::LAST).step_by(level::COUNTS as usize).enumerate() {
        list.add(LEVEL, FAMILIES[i % FAMILIES.len()], i as u32 % 2, first, vec![]);
    }
}
