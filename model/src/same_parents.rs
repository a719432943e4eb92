//! Which blocks two records keep with two parents.

use crate::node::{Block, Node, LAST_SLOT};
use crate::refusal::Refusal;

/// A block of a slot as one of the two records keeps it, the other with another parent.
#[derive(Clone, Copy, PartialEq, Eq, Debug)]
pub struct Told {
    pub slot: u64,
    pub block: Block,
    /// 1 or 2.
    pub side: u64,
}

/// Each such block as the first record has it, then as the second; ascending by
/// slot, in a slot as they were announced to the first.
pub fn told_twice(first: &Node, second: &Node) -> Result<Vec<Told>, Refusal> {
    if first.stakes() != second.stakes() {
        return Err(Refusal::Sizes);
    }
    let mut told = Vec::new();
    for slot in 1..=LAST_SLOT {
        for &one in first.kept_blocks(slot) {
            let same_number = |other: &&Block| other.number == one.number;
            // A record has a number once in a slot.
            match second.kept_blocks(slot).iter().find(same_number) {
                Some(&other) if (other.parent_slot, other.parent) != (one.parent_slot, one.parent) => {
                    told.push(Told { slot, block: one, side: 1 });
                    told.push(Told { slot, block: other, side: 2 });
                }
                _ => {}
            }
        }
    }
    Ok(told)
}
