//! Cards: one slot's weights after every vote.

use super::ring::Ring;
use super::writer::Writer;
use crate::node::LAST_SLOT;
use crate::random::Random;

/// Mostly of like stakes, so that blocks draw level.
pub fn ring_for_cards(random: &mut Random) -> Ring {
    match random.below(10) {
        0..=5 => {
            let nodes = random.pick(&[6, 10, 20, 33, 64]);
            let most = random.pick(&[1, 1, 2, 4]);
            let stakes = (0..nodes).map(|_| random.range(1, most)).collect();
            Ring::with(random, stakes)
        }
        6 | 7 => Ring::any(random),
        _ => Ring::crowd(random),
    }
}

/// Votes of every kind in a slot, for few blocks or one a node, with the slot's
/// card after each, and now and then a neighbour's.
pub fn cards(w: &mut Writer) {
    let most_blocks = w.random.pick(&[2, 2, 3, 5, 64, 1000]);
    // Also about the place where a number's top bit comes in.
    let lowest = w.random.pick(&[1, 1, (1 << 63) - 2, u64::MAX - most_blocks + 1, 1 << 32]);
    let voters = some_voters(w);
    let mut slot = w.random.range(1, LAST_SLOT);
    w.say("look");
    while !w.full() && !voters.is_empty() {
        let node = w.random.pick(&voters);
        let block = lowest + w.random.below(most_blocks);
        let notar = (1, block);
        let (kind, block) =
            w.random.pick(&[notar, notar, notar, notar, (2, block), (3, 0), (3, 0), (4, 0), (4, 0), (5, 0)]);
        w.vote(kind, node, slot, block);
        let next = slot % LAST_SLOT + 1;
        match w.random.below(20) {
            0 => w.say(format!("timeout {slot}")),
            1 => w.say(format!("block {slot} {block} 0 {}", w.ring.genesis)),
            2 => w.say(format!("card {next}")),
            _ => w.say(format!("card {slot}")),
        };
        if w.random.percent(3) {
            slot = next;
        }
    }
}

/// The other nodes, where they are very many some of them, so that they meet.
fn some_voters(w: &mut Writer) -> Vec<usize> {
    let mut voters = w.ring.others();
    w.random.shuffle(&mut voters);
    voters.truncate(w.random.pick(&[20, 40, 200]));
    voters
}
