//! What a host reads off a node, each question by the header's words.

use crate::node::{is_slot, Block, Cert, Node};
use crate::packet::{Certificate, Checked};
use crate::refusal::Refusal;
use crate::stakes::{P20, P40, P60};

/// What a slot is marked with.
#[derive(Clone, Copy, PartialEq, Eq, Debug)]
pub struct Marks {
    /// Its window is armed.
    pub armed: bool,
    /// Its timeout was taken.
    pub timed_out: bool,
    /// The block that record 6 told of it, 0 where there is none.
    pub final_block: u64,
    /// Record 8 was told of it.
    pub conflict: bool,
}

#[derive(Clone, Copy, PartialEq, Eq, Debug)]
pub struct Head {
    /// The number of nodes for a watcher.
    pub own: u64,
    pub nodes: u64,
    pub total: u64,
    pub genesis: u64,
}

/// What the stored votes of a slot weigh for a block. Kept certificates add
/// nothing.
#[derive(Clone, Copy, PartialEq, Eq, Debug)]
pub struct Weights {
    /// Of initial notar votes for it, as rule D counts them.
    pub notar: u64,
    /// Of those who count in its notar-fallback certificate: notar or
    /// notar-fallback votes for it, each node once.
    pub notar_fallback: u64,
    /// Of the slot's initial skip votes, as rule D counts them.
    pub skip: u64,
    /// The least further stake with which it would have rule D's weights.
    pub missing: u64,
}

fn asked(slot: u64) -> Result<(), Refusal> {
    if is_slot(slot) {
        Ok(())
    } else {
        Err(Refusal::NoSuchSlot)
    }
}

pub fn blocks(node: &Node, slot: u64) -> Result<&[Block], Refusal> {
    asked(slot)?;
    Ok(node.kept_blocks(slot))
}

pub fn marks(node: &Node, slot: u64) -> Result<Marks, Refusal> {
    asked(slot)?;
    Ok(Marks {
        armed: node.is_armed(slot),
        timed_out: node.is_timed_out(slot),
        final_block: node.final_block(slot).unwrap_or(0),
        conflict: node.has_conflict(slot),
    })
}

pub fn head(node: &Node) -> Head {
    let nodes = node.stakes().count() as u64;
    let own = node.own().map_or(nodes, |own| own as u64);
    Head { own, nodes, total: node.stakes().total(), genesis: node.genesis() }
}

/// Each as an accepted check would tell it, by place.
pub fn certificates(node: &Node, slot: u64) -> Result<Vec<Checked>, Refusal> {
    asked(slot)?;
    Ok(by_place(node.kept_certificates(slot)).into_iter().map(|kept| told(node, kept)).collect())
}

fn told(node: &Node, kept: &Certificate) -> Checked {
    let signers = &kept.a | &kept.b;
    Checked {
        kind: kept.cert.kind() + node.stakes().family().kinds_after(),
        slot: kept.slot,
        block: kept.cert.block(),
        count: signers.len() as u64,
        weight: node.stakes().weight(&signers),
    }
}

/// One place each for kinds 1, 2, 4 and 5, then those for kind 3 as they came.
pub fn by_place(certificates: &[Certificate]) -> Vec<&Certificate> {
    let mut all: Vec<&Certificate> = certificates.iter().collect();
    all.sort_by_key(|kept| match kept.cert {
        Cert::NotarFallback(_) => u64::MAX,
        other => other.kind(),
    });
    all
}

pub fn weights(node: &Node, slot: u64, block: u64) -> Result<Weights, Refusal> {
    asked(slot)?;
    if block == 0 {
        return Err(Refusal::BlockNumber);
    }
    let notar = node.notar_weight(slot, block);
    let skip = node.skip_weight(slot);
    let missing = |weight, threshold| node.stakes().missing(weight, threshold);
    // A further vote for the block counts for all three; where 20 and 60 are to
    // be reached, what is missing to the farther one is enough for both.
    let by_both = missing(notar, P20).max(missing(skip + notar, P60));
    Ok(Weights {
        notar,
        notar_fallback: node.certificate_weight(slot, Cert::NotarFallback(block)),
        skip,
        missing: missing(notar, P40).min(by_both),
    })
}
