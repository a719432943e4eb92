//! What all members of a ring agree upon before it begins.

use quointrowel::{Node, Record, Slot};

pub const SLOTS: usize = 16;
pub const WINDOW: usize = 4;
pub const WINDOWS: usize = SLOTS / WINDOW;

/// Stakes, genesis and leaders; and a record of the ring in which nothing is stored.
pub struct Agreed {
    pub stakes: Vec<u64>,
    pub total: u64,
    pub genesis: u64,
    pub leaders: [Node; WINDOWS],
    pub blank: Record,
}

impl Agreed {
    /// Whether the weight reaches so many fifths of the stake.
    pub fn reaches(&self, fifths: u64, weight: u64) -> bool {
        5 * weight >= fifths * self.total
    }

    /// Rule D's weights: notar reaches 40 percent, or 20 and together with skip 60.
    pub fn has_rule_d_weights(&self, notar: u64, skip: u64) -> bool {
        self.reaches(2, notar) || self.reaches(1, notar) && self.reaches(3, notar + skip)
    }

    pub fn leader(&self, slot: Slot) -> Node {
        self.leaders[window(slot)]
    }
}

/// A slot's window, from 0.
pub fn window(slot: Slot) -> usize {
    (slot.0 - 1) / WINDOW
}

pub fn slots() -> impl DoubleEndedIterator<Item = Slot> {
    (1..=SLOTS).map(Slot)
}

/// Blocks are numbered for people: the slot, then two digits, 1 for what a leader builds by the rules.
pub fn number_in(slot: Slot) -> u64 {
    slot.0 as u64 * 100 + 1
}
