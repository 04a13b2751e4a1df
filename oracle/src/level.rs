//! Levels of light in tenths of a dBm, from their definition: the level of a
//! count from 1 is k - 400, with k the greatest whole number for which 10^k is
//! at most count^100. The original has no such function. There is no table of
//! counts here, and no logarithm: the powers are worked out.

use std::cmp::Ordering;
use std::iter;

use crate::answers::Fnv;

/// The counts of a case, and the greatest that can be its first.
pub const COUNTS: u32 = 256;
pub const LAST: u32 = 0x1_0000 - COUNTS;

/// The number of a count that has no level.
pub const NONE: u32 = 30;

/// A whole number from 1: its words, the lowest first, the last not 0.
#[derive(Clone)]
struct Big(Vec<u32>);

impl Big {
    /// For a factor from 1.
    fn times(mut self, factor: u32) -> Big {
        let mut carry = 0;
        for word in &mut self.0 {
            let product = u64::from(*word) * u64::from(factor) + carry;
            *word = product as u32;
            carry = product >> 32;
        }
        if carry > 0 {
            self.0.push(carry as u32);
        }
        self
    }

    /// So many factors, each of them `base`, from 1.
    fn power(base: u32, factors: u32) -> Big {
        (0..factors).fold(Big(vec![1]), |product, _| product.times(base))
    }

    fn at_most(&self, other: &Big) -> bool {
        let order = self.0.len().cmp(&other.0.len());
        order.then_with(|| self.0.iter().rev().cmp(other.0.iter().rev())) != Ordering::Greater
    }
}

/// The powers of ten from 10^0 to the first that is above every count^100.
pub struct Levels(Vec<Big>);

impl Levels {
    pub fn new() -> Self {
        let most = Big::power(0xffff, 100);
        let tens = iter::successors(Some(Big(vec![1])), |ten| Some(ten.clone().times(10)));
        let mut powers: Vec<Big> = Vec::new();
        for ten in tens {
            let reached = ten.at_most(&most);
            powers.push(ten);
            if !reached {
                break;
            }
        }
        Levels(powers)
    }

    /// None for the count 0.
    pub fn level(&self, count: u32) -> Option<i32> {
        if count == 0 {
            return None;
        }
        let power = Big::power(count, 100);
        let reached = self.0.iter().take_while(|ten| ten.at_most(&power)).count() as i32;
        Some(reached - 1 - 400)
    }

    /// The code of the first count, its level with 32,768 added, and the sum
    /// over the counts from it on: of each such a level, or `NONE`.
    pub fn numbers(&self, first: u32) -> [u32; 4] {
        let raised = |count| self.level(count).map(|level| (level + 0x8000) as u32);
        let words: Vec<u32> = (first..first + COUNTS).map(|count| raised(count).unwrap_or(NONE)).collect();
        let sum = Fnv::over(&words);
        match raised(first) {
            Some(level) => [0, level, sum, 0],
            None => [NONE, 0, sum, 0],
        }
    }
}
