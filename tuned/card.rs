//! A slot's tally card: what its votes weigh, kept beside them.

use super::layout::*;
use super::weights::notar_of;

#[derive(Clone, Copy, Default, PartialEq, Eq)]
pub struct Card {
    pub skip: u64,
    pub final_votes: u64,
    /// Skip or skip-fallback.
    pub skip_certificate: u64,
    /// The block with most notar weight, the lowest of several, and that
    /// weight; 0 and 0 where there is no notar vote.
    pub leader: u64,
    pub weight: u64,
}

impl Card {
    pub fn of(row: &[u64]) -> Card {
        let &[skip, final_votes, skip_certificate, leader, weight] =
            <&[u64; CARD_WORDS]>::try_from(&row[CARD..CARD + CARD_WORDS]).expect("five words");
        Card { skip, final_votes, skip_certificate, leader, weight }
    }

    pub fn words(self) -> [u64; CARD_WORDS] {
        [self.skip, self.final_votes, self.skip_certificate, self.leader, self.weight]
    }

    /// A vote is about to be stored in the node's cell. Only another notar block
    /// than the leading one is weighed.
    pub fn add(&mut self, kind: u64, node: usize, block: u64, cells: &[u64], stakes: &[u64]) {
        let (cell, stake) = (cell(&cells[node * CELL..][..CELL]), stakes[node]);
        match kind {
            1 if block == self.leader => self.weight += stake,
            1 => self.claim(block, notar_of(block, cells, stakes) + stake),
            3 => self.skip += stake,
            5 => self.final_votes += stake,
            _ => {}
        }
        if (kind == 3 || kind == 4) && cell[SKIP] | cell[SKIP_FALLBACK] == 0 {
            self.skip_certificate += stake;
        }
    }

    /// A block has so much, and leads where no other has more.
    pub fn claim(&mut self, block: u64, weight: u64) {
        if weight > self.weight || (weight == self.weight && block < self.leader) {
            self.leader = block;
            self.weight = weight;
        }
    }

    /// The leading block holds kind 2, which no other can beside it.
    pub fn is_notarized(&self, total: u64) -> bool {
        reaches(self.weight, 3, total)
    }

    /// Rule D's weights, for a block with so much; where the leading one has too
    /// little, all have.
    pub fn backs(&self, weight: u64, total: u64) -> bool {
        reaches(weight, 2, total) || (reaches(weight, 1, total) && reaches(self.skip + weight, 3, total))
    }
}
