//! Rules that lead a call down a chosen path, for the list and fresh cases.

use crate::answers::Rule;
use crate::driver::{i2c, sync, Family, Port};
use crate::lines::{Layout, LAYOUT_82599, LAYOUT_X552};

pub const SMBI: u32 = 1 << 0;
pub const SWESMBI: u32 = 1 << 1;
pub const REGSMP: u32 = 1 << 31;

pub const HICR: u32 = 0x15f00;
/// The first word of a response.
pub const HEAD: u32 = 0x15800;
pub const HICR_EN: u32 = 1 << 0;
pub const HICR_C: u32 = 1 << 1;
pub const HICR_SV: u32 = 1 << 2;

pub const GRANTED: u32 = 0x01;
pub const BUSY: u32 = 0x80;

/// Bits to clear and bits to set in what is read.
pub type Bend = (u32, u32);

fn and_or((clear, set): Bend) -> (u32, u32) {
    (!clear, set)
}

/// Every read of `register`.
pub fn always(register: u32, bend: Bend) -> Rule {
    Rule { register, period: 0, hold: 0, first: (0, 0), then: and_or(bend) }
}

/// The first `hold` reads of `register`, and those after them.
pub fn until(register: u32, hold: u32, first: Bend, then: Bend) -> Rule {
    cycle(register, 0, hold, first, then)
}

/// As `until`, begun anew every `period` reads.
pub fn cycle(register: u32, period: u32, hold: u32, first: Bend, then: Bend) -> Rule {
    Rule { register, period, hold, first: and_or(first), then: and_or(then) }
}

pub fn swsm(family: Family) -> u32 {
    sync::probe_regs(family).0
}

pub fn sw_fw_sync(family: Family) -> u32 {
    sync::probe_regs(family).1
}

/// SWSM that grants: SMBI clear, and on the 82599 SWESMBI set.
pub fn swsm_granted(family: Family) -> Bend {
    (SMBI, if family == Family::F82599 { SWESMBI } else { 0 })
}

/// The bits of SW_FW_SYNC that keep `mask` from being taken, SW_MNG's among
/// them because a firmware command takes it.
pub fn blockers(family: Family, mask: u32) -> u32 {
    let (sw, fw, hw) = sync::probe_bits(family, mask | sync::SW_MNG);
    sw | fw | hw
}

/// SW_FW_SYNC with REGSMP and all that blocks `mask` clear; other bits stay
/// random, so that a write of them is compared too.
pub fn sync_free(family: Family, mask: u32) -> Bend {
    (REGSMP | blockers(family, mask), 0)
}

/// SW_FW_SYNC with REGSMP clear and only `held` of what blocks `mask` set.
pub fn sync_held(family: Family, mask: u32, held: u32) -> Bend {
    (REGSMP | blockers(family, mask), held)
}

/// Both layers of the locks granted at once, for `mask`.
pub fn granting(family: Family, mask: u32) -> Vec<Rule> {
    vec![always(swsm(family), swsm_granted(family)), always(sw_fw_sync(family), sync_free(family, mask))]
}

/// As `granting`, but the register semaphore is seen as the hardware shows
/// it: clear in the read that takes it, set until it is given back.
pub fn showing(family: Family, mask: u32) -> Vec<Rule> {
    let blockers = blockers(family, mask);
    let taken = SMBI | swsm_granted(family).1;
    let mut rules = granting(family, mask);
    rules[0] = cycle(swsm(family), swsm_reads(family), 1, swsm_granted(family), (0, taken));
    if family != Family::F82599 {
        let taken = (blockers, REGSMP);
        rules[1] = cycle(sw_fw_sync(family), sync_reads(family), 1, sync_free(family, mask), taken);
    }
    rules
}

/// HICR enabled and, from the first poll on, done and valid.
pub const HICR_DONE: Bend = (HICR_C, HICR_EN | HICR_SV);
/// HICR enabled and at work.
pub const HICR_AT_WORK: Bend = (0, HICR_EN | HICR_C);

/// A response head with this length in bytes and this status.
pub fn head(len: u32, status: u32) -> Bend {
    (0x00ff_ff00, len << 8 | status << 16)
}

/// A firmware that answers each command at once, behind these locks.
pub fn answering(mut locks: Vec<Rule>, len: u32, status: u32) -> Vec<Rule> {
    locks.push(always(HICR, HICR_DONE));
    locks.push(always(HEAD, head(len, status)));
    locks
}

/// Reads of SWSM in one taking and giving back of the register semaphore
/// that is granted at once.
pub fn swsm_reads(family: Family) -> u32 {
    if family == Family::F82599 {
        4
    } else {
        2
    }
}

/// Reads of SW_FW_SYNC in one such taking and giving back with one read in
/// between.
pub fn sync_reads(family: Family) -> u32 {
    if family == Family::F82599 {
        1
    } else {
        3
    }
}

/// Tries at a held resource.
pub fn tries(family: Family) -> u32 {
    if matches!(family, Family::F82599 | Family::X540) {
        200
    } else {
        1000
    }
}

/// ESDP with the QSFP grant.
pub const GRANT: Bend = (0, 1 << 1);

pub fn layout(family: Family) -> Layout {
    if i2c::probe_x550em(family) {
        LAYOUT_X552
    } else {
        LAYOUT_82599
    }
}

/// The semaphore that a transfer with lock takes.
pub fn transfer_mask(family: Family, lan: u32) -> u32 {
    i2c::probe_mask(Port { family, device: 0, lan: lan as u8 })
}
