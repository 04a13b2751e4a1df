//! Cases chosen at random, with rules that let most of them get far.

use crate::answers::{Rule, NEVER};
use crate::case::*;
use crate::driver::i2c::Sequence;
use crate::driver::{sync, Family};
use crate::level::LAST;
use crate::rules::*;

mod sfp;
mod transfers;

/// A case with more accesses is drawn again.
const LONGEST: u32 = 400_000;

pub struct Fresh(Choice);

impl Fresh {
    pub fn new(seed: u64) -> Self {
        Fresh(Choice::new(seed))
    }

    pub fn next(&mut self) -> Case {
        loop {
            let case = match self.0.below(10) {
                0..=3 => self.0.case(),
                4..=7 => self.0.transfer(),
                _ => self.0.module_call(),
            };
            let mut player = case.player().limited(LONGEST);
            let accesses = case.run_with(&mut player).accesses;
            if player.overrun() {
                continue;
            }
            let case = self.0.faults(case, accesses);
            let mut player = case.player().limited(LONGEST);
            case.run_with(&mut player);
            if !player.overrun() {
                return case;
            }
        }
    }
}

/// SplitMix64, for choices only; the answers have their own stream.
pub struct Choice(u64);

impl Choice {
    pub fn new(seed: u64) -> Self {
        Choice(seed)
    }

    pub fn word(&mut self) -> u32 {
        self.0 = self.0.wrapping_add(0x9e37_79b9_7f4a_7c15);
        let mut z = self.0;
        z = (z ^ z >> 30).wrapping_mul(0xbf58_476d_1ce4_e5b9);
        z = (z ^ z >> 27).wrapping_mul(0x94d0_49bb_1331_11eb);
        ((z ^ z >> 31) >> 32) as u32
    }

    /// A number below `end`.
    pub fn below(&mut self, end: u32) -> u32 {
        ((u64::from(self.word()) * u64::from(end)) >> 32) as u32
    }

    pub fn percent(&mut self, chance: u32) -> bool {
        self.below(100) < chance
    }

    pub fn one<T: Copy>(&mut self, of: &[T]) -> T {
        of[self.below(of.len() as u32) as usize]
    }

    /// A few bits, mostly of SW_FW_SYNC's.
    fn bits(&mut self) -> u32 {
        let mut bits = 1 << self.below(16);
        while self.percent(40) {
            bits |= 1 << self.below(16);
        }
        bits
    }

    fn case(&mut self) -> Case {
        const CALLS: [u32; 17] = [
            LOCK, UNLOCK, ACQUIRE, ACQUIRE, ACQUIRE, ACQUIRE, RELEASE, RELEASE, RELEASE, COMMAND, COMMAND,
            COMMAND, TOKEN, TOKEN, REGS, BITS, LEVEL,
        ];
        let function = self.one(&CALLS);
        let family = self.below(5);
        let lan = self.below(2);
        let args = [self.argument(function), self.word(), self.word()];
        let mut case = Case {
            function,
            sequence: Sequence::Pulses,
            family,
            device: self.below(0x1_0000),
            lan,
            args,
            seed: self.word(),
            fail_at: NEVER,
            ones_at: NEVER,
            rules: Vec::new(),
            lines: None,
        };
        if !matches!(function, REGS | BITS | LEVEL) {
            case.rules = self.rules(&case);
        }
        case
    }

    fn argument(&mut self, function: u32) -> u32 {
        match function {
            ACQUIRE | RELEASE | BITS => self.mask(),
            COMMAND if self.percent(60) => 1 + self.below(7),
            COMMAND => 1 + self.below(BLOCK_WORDS),
            TOKEN => self.below(2),
            LEVEL => self.below(LAST + 1),
            _ => self.word(),
        }
    }

    fn mask(&mut self) -> u32 {
        let named = [sync::PHY0, sync::PHY1, sync::EEP, sync::SW_MNG, sync::I2C0, sync::SHARED_I2C, 0];
        let mask = match self.below(10) {
            0..=5 => self.one(&named),
            6..=8 => self.bits(),
            _ => self.word(),
        };
        if self.percent(25) {
            mask | sync::TOKEN
        } else {
            mask
        }
    }

    fn rules(&mut self, case: &Case) -> Vec<Rule> {
        let family = case.family();
        let mask = if matches!(case.function, ACQUIRE | RELEASE) { case.args[0] } else { 0 };
        let words = if case.function == COMMAND { case.args[0] } else { 2 };
        let drawn = [self.swsm(family), self.sync(family, mask), self.hicr(), self.head(words)];
        let mut rules: Vec<Rule> = drawn.into_iter().flatten().collect();
        // Their order decides nothing, save where a register has two.
        let turn = self.below(4) as usize;
        let count = rules.len().max(1);
        rules.rotate_left(turn % count);
        if rules.len() < MAX_RULES && self.percent(20) {
            let register = rules.first().map_or(HEAD, |r| r.register);
            rules.push(always(register, (self.word(), self.word())));
        }
        rules
    }

    fn swsm(&mut self, family: Family) -> Option<Rule> {
        let register = swsm(family);
        let granted = swsm_granted(family);
        let refused = self.one(&[(0, SMBI), (SMBI | SWESMBI, 0)]);
        Some(match self.below(100) {
            0..=59 => always(register, granted),
            60..=74 => self.cycle(register, refused, granted),
            75..=82 => until(register, self.below(20), refused, granted),
            83..=85 => until(register, self.below(20), granted, refused),
            86..=87 => until(register, self.one(&[1998, 1999, 2000, 3998, 4000, 4001]), refused, granted),
            _ => return None,
        })
    }

    fn sync(&mut self, family: Family, mask: u32) -> Option<Rule> {
        let register = sw_fw_sync(family);
        let free = sync_free(family, mask);
        let bits = self.bits();
        let held = sync_held(family, mask, bits);
        Some(match self.below(100) {
            0..=54 => always(register, free),
            55..=69 => until(register, self.below(30), held, free),
            70..=79 => self.cycle(register, held, free),
            80..=82 => until(register, self.below(12), free, (0, REGSMP)),
            83..=85 => until(register, self.below(20), (0, REGSMP), free),
            86..=87 => until(register, self.resource_limit(family), held, free),
            _ => return None,
        })
    }

    /// Around the last tries at a resource or at REGSMP.
    fn resource_limit(&mut self, family: Family) -> u32 {
        let last = tries(family) * sync_reads(family);
        let near = last - 3 + self.below(5);
        self.one(&[near, near, 1999, 2000, NEVER])
    }

    fn hicr(&mut self) -> Option<Rule> {
        Some(match self.below(100) {
            0..=64 => always(HICR, HICR_DONE),
            65..=76 => {
                let polls = 1 + self.below(12);
                cycle(HICR, polls + 1, polls, HICR_AT_WORK, HICR_DONE)
            }
            77..=80 => until(HICR, self.below(8), HICR_DONE, (HICR_EN, 0)),
            81..=84 => until(HICR, self.below(8), HICR_AT_WORK, (HICR_C | HICR_SV, HICR_EN)),
            85 => until(HICR, self.one(&[49_999, 50_000, 50_001]), HICR_AT_WORK, HICR_DONE),
            _ => return None,
        })
    }

    fn head(&mut self, words: u32) -> Option<Rule> {
        let room = (4 * (words - 1)).min(255);
        let len = match self.below(10) {
            0..=6 => self.below(room + 1),
            7..=8 => (room + self.below(4)).saturating_sub(1).min(255),
            _ => self.below(256),
        };
        let other = self.below(256);
        let status = self.one(&[GRANTED, GRANTED, GRANTED, BUSY, other]);
        Some(match self.below(100) {
            0..=59 => always(HEAD, head(len, status)),
            60..=85 => until(HEAD, self.below(6), head(len, BUSY), head(len, status)),
            86 => until(HEAD, 997 + self.below(5), head(len, BUSY), head(len, status)),
            _ => return None,
        })
    }

    fn cycle(&mut self, register: u32, first: Bend, then: Bend) -> Rule {
        let period = 2 + self.below(8);
        cycle(register, period, self.below(period), first, then)
    }

    /// A failing access and a read of all ones, where the call has them.
    fn faults(&mut self, mut case: Case, accesses: u32) -> Case {
        let (failing, ones) = if case.function < QSFP_SETUP { (40, 25) } else { (18, 15) };
        if self.percent(failing) {
            case.fail_at = self.below(accesses + 1);
        }
        if self.percent(ones) {
            case.ones_at = self.below(accesses + 1);
        }
        case
    }
}
