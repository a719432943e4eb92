//! The stake table and the thresholds.

use crate::refusal::Refusal;
use std::collections::BTreeSet;

pub const MOST_NODES: usize = 2048;
pub const MOST_NODES_OF_SMALL: usize = 64;
pub const MOST_TOTAL: u64 = 1 << 48;

/// A share of the total in fifths, so that a percentage needs no division.
#[derive(Clone, Copy, PartialEq, Eq, Debug)]
pub struct Threshold(u128);

pub const P80: Threshold = Threshold(4);
pub const P60: Threshold = Threshold(3);
pub const P40: Threshold = Threshold(2);
pub const P20: Threshold = Threshold(1);

/// Small tables have certificates of kinds 1 to 5 with masks of one word,
/// large ones those of kinds 11 to 15 with masks of 32.
#[derive(Clone, Copy, PartialEq, Eq, Debug)]
pub enum Family {
    Small,
    Large,
}

impl Family {
    /// What a packet's kind tells, whatever the table.
    pub fn of_kind(kind: u64) -> Family {
        if (11..=15).contains(&kind) {
            Family::Large
        } else {
            Family::Small
        }
    }

    pub fn mask_words(self) -> usize {
        match self {
            Family::Small => 1,
            Family::Large => MOST_NODES / 64,
        }
    }

    /// What is added to the kinds 1 to 5.
    pub fn kinds_after(self) -> u64 {
        match self {
            Family::Small => 0,
            Family::Large => 10,
        }
    }
}

/// The nodes that a signer mask names.
pub type Signers = BTreeSet<usize>;

#[derive(Clone, PartialEq, Eq, Debug)]
pub struct Stakes {
    each: Vec<u64>,
    total: u64,
}

impl Stakes {
    pub fn new(words: &[u64]) -> Result<Stakes, Refusal> {
        let count_fits = !words.is_empty() && words.len() <= MOST_NODES;
        // Summed in 128 bits: 64-bit words could wrap to a small total.
        let total: u128 = words.iter().map(|&w| u128::from(w)).sum();
        if !count_fits || words.contains(&0) || total > u128::from(MOST_TOTAL) {
            return Err(Refusal::Sizes);
        }
        Ok(Stakes { each: words.to_vec(), total: total as u64 })
    }

    pub fn count(&self) -> usize {
        self.each.len()
    }

    pub fn total(&self) -> u64 {
        self.total
    }

    pub fn of(&self, node: usize) -> u64 {
        self.each[node]
    }

    pub fn family(&self) -> Family {
        if self.count() <= MOST_NODES_OF_SMALL {
            Family::Small
        } else {
            Family::Large
        }
    }

    pub fn has_node(&self, node: u64) -> bool {
        node < self.each.len() as u64
    }

    /// The least further weight with which the threshold would be reached.
    pub fn missing(&self, weight: u64, threshold: Threshold) -> u64 {
        let fifths = threshold.0 * u128::from(self.total);
        let least = (fifths + 4) / 5;
        (least as u64).saturating_sub(weight)
    }

    pub fn reaches(&self, weight: u64, threshold: Threshold) -> bool {
        self.missing(weight, threshold) == 0
    }

    pub fn weight(&self, signers: &Signers) -> u64 {
        signers.iter().map(|&node| self.of(node)).sum()
    }
}
