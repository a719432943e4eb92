//! Which own votes of a node do not stand on what it holds, each by the rule
//! that casts it.

use crate::node::{is_first, Block, Cert, Node, Vote, LAST_SLOT};

/// An own vote that does not stand.
#[derive(Clone, Copy, PartialEq, Eq, Debug)]
pub struct Fallen {
    pub slot: u64,
    pub node: u64,
    pub vote: Vote,
}

impl Fallen {
    /// The rule that casts such a vote: 2 to 5 for B to E.
    pub fn rule(self) -> u64 {
        match self.vote {
            // It asks for nothing that the slot would show, and is never listed.
            Vote::Skip => 0,
            Vote::Notar(_) => 2,
            Vote::Final => 3,
            Vote::NotarFallback(_) => 4,
            Vote::SkipFallback => 5,
        }
    }
}

/// Ascending by slot and kind, notar-fallbacks as they were cast. A watcher has no own votes.
pub fn fallen(node: &Node) -> Vec<Fallen> {
    let mut all = Vec::new();
    if let Some(own) = node.own() {
        for slot in 1..=LAST_SLOT {
            let votes = node.own_cell(slot).votes_as_they_came().into_iter();
            let falls = votes.filter(|&vote| !stands(node, slot, vote));
            all.extend(falls.map(|vote| Fallen { slot, node: own as u64, vote }));
        }
    }
    all
}

fn stands(node: &Node, slot: u64, vote: Vote) -> bool {
    let own = node.own_cell(slot);
    match vote {
        Vote::Notar(block) => {
            node.kept_blocks(slot).iter().any(|kept| kept.number == block && parent_fits(node, slot, kept))
        }
        Vote::NotarFallback(block) => {
            own.initial.is_some()
                && !own.notar_is(block)
                && node.safe_to_notar(slot, block)
                && (is_first(slot) || node.is_kept_upon_certified(slot, block))
        }
        Vote::Skip => true,
        Vote::SkipFallback => own.notar_block().is_some() && node.safe_to_skip(slot),
        Vote::Final => {
            let plain = own.notar_fallbacks.is_empty() && !own.skip_fallback;
            plain && own.notar_block().map_or(false, |block| node.holds(slot, Cert::Notar(block)))
        }
    }
}

/// Any kept block of the number will do, not the first alone.
fn parent_fits(node: &Node, slot: u64, block: &Block) -> bool {
    if is_first(slot) {
        return node.ready(slot, block.parent_slot, block.parent);
    }
    block.parent_slot == slot - 1 && node.own_cell(slot - 1).notar_is(block.parent)
}
