//! Two nodes compared: one is set aside, another is fed after it.

use super::history::{announce, Numbers};
use super::ring::Ring;
use super::writer::Writer;
use crate::node::LAST_SLOT;
use crate::panel::MOST_LINES;
use crate::random::Random;
use crate::stakes::{MOST_NODES, MOST_TOTAL};

/// Kind, node, slot and block.
type Fed = (u64, usize, u64, u64);

/// Several nodes fed nearly the same votes in another order, compared again
/// and again with one of them; their tables are mostly the same.
pub fn compared(w: &mut Writer) {
    let numbers = Numbers::any(&mut w.random, w.ring.genesis);
    let most_slots = w.random.pick(&[1, 3, LAST_SLOT]);
    let votes: Vec<Fed> = (0..w.room()).map(|_| some_vote(w, &numbers, most_slots)).collect();
    if w.random.percent(15) {
        w.say("differ");
    }
    if w.random.percent(20) {
        two_fresh(w);
    }
    feed(w, &votes);
    own_votes(w, &numbers);
    let block_percent = w.random.pick(&[0, 60, 100]);
    some_blocks(w, &numbers, most_slots, block_percent);
    w.say("aside");
    w.say("differ");
    let aside = w.ring.clone();
    for _ in 0..w.random.range(1, 3) {
        let ring = other_ring(w, &aside);
        w.restart(ring);
        if w.random.percent(30) {
            w.say("differ");
        }
        feed_otherwise(w, votes.clone());
        w.say("differ");
        some_blocks(w, &numbers, most_slots, block_percent);
        go_on(w, &numbers, most_slots);
    }
}

/// Two nodes without votes; then the first once more.
fn two_fresh(w: &mut Writer) {
    let first = w.ring.clone();
    w.say("aside");
    let other = other_ring(w, &first);
    w.restart(other);
    w.say("differ");
    w.restart(first);
}

fn some_vote(w: &mut Writer, numbers: &Numbers, most_slots: u64) -> Fed {
    let slot = w.random.range(LAST_SLOT - most_slots + 1, LAST_SLOT);
    let kind = w.random.pick(&[1, 1, 2, 2, 2, 3, 4, 5]);
    let block = if kind <= 2 { w.random.pick(&numbers.of_slot(slot)) } else { 0 };
    (kind, w.random.index(w.ring.nodes()), slot, block)
}

fn feed(w: &mut Writer, votes: &[Fed]) {
    for &(kind, node, slot, block) in votes {
        w.vote(kind, node, slot, block);
    }
}

/// In another order, at times with some left out.
fn feed_otherwise(w: &mut Writer, mut votes: Vec<Fed>) {
    w.random.shuffle(&mut votes);
    let missing = w.random.pick(&[0, 0, 5, 30]);
    votes.retain(|_| !w.random.percent(missing));
    feed(w, &votes);
}

/// What the own node casts is stored too; a block alone is no vote.
fn own_votes(w: &mut Writer, numbers: &Numbers) {
    if w.random.percent(30) {
        announce(w, numbers, 1, numbers.of_slot(1)[0]);
    }
    if w.random.percent(15) {
        w.say("timeout 1");
    }
    if w.random.percent(30) {
        announce(w, numbers, LAST_SLOT, numbers.of_slot(LAST_SLOT)[0]);
    }
}

fn go_on(w: &mut Writer, numbers: &Numbers, most_slots: u64) {
    for _ in 0..w.random.below(5) {
        if w.random.percent(25) {
            own_votes(w, numbers);
        }
        let further = [some_vote(w, numbers, most_slots)];
        feed(w, &further);
        let line = w.random.pick(&["differ", "differ", "differ", "aside"]);
        w.say(line);
    }
    w.say("differ");
    w.say("vouched");
    w.say("parents");
}

/// Upon few parents, so that two nodes are told the same and not the same.
fn some_blocks(w: &mut Writer, numbers: &Numbers, most_slots: u64, percent: u64) {
    for slot in LAST_SLOT - most_slots + 1..=LAST_SLOT {
        for number in numbers.of_slot(slot) {
            if !w.random.percent(percent / most_slots.min(3)) {
                continue;
            }
            let parent_slot = if w.random.percent(70) { slot - 1 } else { w.random.below(slot) };
            let parents = numbers.of_slot(parent_slot);
            let parent = if parent_slot == 0 { w.ring.genesis } else { w.random.pick(&parents[..2]) };
            w.say(format!("block {slot} {number} {parent_slot} {parent}"));
        }
    }
}

/// The same table, perhaps seen by another node or from another genesis, or a
/// table that is not quite the same.
fn other_ring(w: &mut Writer, ring: &Ring) -> Ring {
    let mut ring = ring.clone();
    let (node, other) = (w.random.index(ring.nodes()), w.random.index(ring.nodes()));
    match w.random.below(12) {
        0 | 1 => ring.own = node,
        2 => ring.genesis = if ring.genesis == 7 { 8 } else { 7 },
        3 | 9 => ring.stakes[node] = if ring.stakes[node] > 1 { ring.stakes[node] - 1 } else { 2 },
        4 | 5 if ring.stakes[node] > 1 => {
            ring.stakes[node] -= 1;
            ring.stakes[other] += 1;
        }
        6 if ring.own + 1 < ring.nodes() => {
            let last = ring.nodes() - 1;
            ring.stakes.pop();
            ring.camps.iter_mut().for_each(|camp| camp.retain(|&node| node != last));
        }
        7 if ring.nodes() < MOST_NODES && ring.stakes.iter().sum::<u64>() < MOST_TOTAL => ring.stakes.push(1),
        8 => ring.watches = !ring.watches,
        _ => {}
    }
    ring
}

/// Kind and block of every vote that a node can have in a slot, and of those
/// that it can have in the same places on another side.
const FIRST_SIDE: [(u64, u64); 6] = [(1, 1), (2, 1), (2, 2), (2, 3), (4, 0), (5, 0)];
const SECOND_SIDE: [(u64, u64); 4] = [(3, 0), (2, 4), (2, 5), (2, 6)];

/// About the fewest nodes that differ in more lines than there is room for.
pub fn ring_of_many_lines(random: &mut Random) -> Ring {
    let lines_a_node = (FIRST_SIDE.len() + SECOND_SIDE.len()) * LAST_SLOT as usize;
    let nodes = MOST_LINES / lines_a_node + 2 + random.index(5);
    let mut ring = Ring::with(random, vec![1; nodes]);
    // Beside this stake the others reach nothing, so no vote is cast.
    ring.stakes[ring.own] = 10 * nodes as u64;
    ring
}

/// Lines up to the most that there is room for, and past it.
pub fn many_lines(w: &mut Writer) {
    let first = votes_of_all(w, &FIRST_SIDE);
    let mut second = votes_of_all(w, &SECOND_SIDE);
    let rest = second.split_off(MOST_LINES - 1 - first.len());
    in_trays(w, &first);
    w.say("aside");
    let ring = w.ring.clone();
    w.restart(ring);
    in_trays(w, &second);
    let (singly, rest) = rest.split_at(2);
    for vote in singly {
        w.say("differ");
        feed(w, &[*vote]);
    }
    w.say("differ");
    in_trays(w, rest);
    w.say("differ");
}

/// In every slot by every other node, in random order.
fn votes_of_all(w: &mut Writer, kinds: &[(u64, u64)]) -> Vec<Fed> {
    let mut votes = Vec::new();
    for node in (0..w.ring.nodes()).filter(|&node| node != w.ring.own) {
        for slot in 1..=LAST_SLOT {
            votes.extend(kinds.iter().map(|&(kind, block)| (kind, node, slot, block)));
        }
    }
    w.random.shuffle(&mut votes);
    votes
}

/// About as many in a line as it has room for.
fn in_trays(w: &mut Writer, votes: &[Fed]) {
    const VOTES_A_LINE: usize = 5_000;
    for line in votes.chunks(VOTES_A_LINE) {
        let words: Vec<String> =
            line.iter().map(|(kind, node, slot, block)| format!(" {kind} {node} {slot} {block}")).collect();
        w.raw(&format!("tray{}", words.concat()));
    }
}
