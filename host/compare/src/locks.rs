//! SWSM and SW_FW_SYNC: locks that are granted at once, after a while or never.

use sulfryk::{Family, sync};

use crate::case::{Call, Case};
use crate::choice::Choice;
use crate::driver::changed;

const SMBI: u32 = 1 << 0;
const SWESMBI: u32 = 1 << 1;
const REGSMP: u32 = 1 << 31;

/// A register that refuses for a number of reads, then grants for a number of them, and so on.
pub struct Turns {
    refusing: bool,
    left: u32,
    /// The reads of a turn, where it refuses and where it grants: below these, of so many binary digits.
    refusals: u32,
    grants: u32,
    /// How it refuses in this turn: 0 or 1.
    manner: u32,
}

const EVER: u32 = u32::MAX;

impl Turns {
    pub fn draw(choice: &mut Choice) -> Self {
        let (left, refusing, refusals, grants) = match choice.below(100) {
            0..=74 => (EVER, false, 0, 0),
            75..=88 => (choice.below(8), choice.flip(), 2, 5),
            89..=95 => (choice.below(50), choice.flip(), 6, 7),
            96..=97 => (choice.below(50), choice.flip(), 12, 8),
            98 => (choice.spread(8), false, 31, 1),
            _ => (EVER, true, 0, 0),
        };
        Turns { refusing, left, refusals, grants, manner: choice.below(2) }
    }

    /// The manner in which this read refuses.
    pub fn refuses(&mut self, choice: &mut Choice) -> Option<u32> {
        if self.left == 0 {
            self.refusing = !self.refusing;
            self.left = 1 + choice.spread(if self.refusing { self.refusals } else { self.grants });
            self.manner = choice.below(2);
        }
        if self.left != EVER {
            self.left -= 1;
        }
        self.refusing.then_some(self.manner)
    }
}

pub struct Locks {
    f82599: bool,
    swsm: Turns,
    sync: Turns,
    /// SMBI and REGSMP are seen as the hardware shows them: clear in the read that takes them, set until they are given back.
    shown: bool,
    smbi: bool,
    regsmp: bool,
    /// The bits of SW_FW_SYNC that keep the call's resources from being taken, and those of them that it has set.
    blockers: u32,
    ours: u32,
}

impl Locks {
    pub fn draw(choice: &mut Choice, case: &Case) -> Self {
        let family = case.port.family;
        let mask = match case.call {
            Call::Acquire { mask } | Call::Release { mask } | Call::Locked { mask, .. } => mask,
            _ => changed::i2c::probe_mask(case.port),
        };
        let (sw, fw, hw) = changed::sync::probe_bits(family, mask | sync::SW_MNG);
        let blockers = sw | fw | hw;
        // What is released was mostly taken before. SW_MNG, which a command takes, is mostly free.
        let before = if choice.percent(10) { choice.word() } else { choice.word() & !sync::SW_MNG };
        let ours = if matches!(case.call, Call::Release { .. }) { before & blockers } else { 0 };
        Locks {
            f82599: family == Family::F82599,
            swsm: Turns::draw(choice),
            sync: Turns::draw(choice),
            shown: choice.flip(),
            smbi: false,
            regsmp: false,
            blockers,
            ours,
        }
    }

    pub fn swsm(&mut self, choice: &mut Choice) -> u32 {
        let value = choice.word();
        let refused = self.swsm.refuses(choice);
        // On the 82599 it may be SWESMBI that does not come.
        if let (Some(1), true) = (refused, self.f82599) {
            return value & !SWESMBI;
        }
        let free = refused.is_none() && !self.smbi;
        if free {
            self.smbi = self.shown;
        }
        let smbi = if free { 0 } else { SMBI };
        value & !SMBI | SWESMBI | smbi
    }

    pub fn swsm_written(&mut self, value: u32) {
        self.smbi &= value & SMBI != 0;
    }

    pub fn sync(&mut self, choice: &mut Choice) -> u32 {
        let value = choice.word();
        let free = value & !(REGSMP | self.blockers) | self.ours;
        let taken = if self.regsmp { REGSMP } else { 0 };
        match self.sync.refuses(choice) {
            Some(1) if !self.f82599 => free | REGSMP,
            Some(_) => free | taken | self.blockers & choice.one(&[u32::MAX, u32::MAX, value]),
            None => {
                self.regsmp = self.shown && !self.f82599;
                free | taken
            }
        }
    }

    pub fn sync_written(&mut self, value: u32) {
        self.ours = value & self.blockers;
        self.regsmp &= value & REGSMP != 0;
    }
}
