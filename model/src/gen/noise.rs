//! Single lines strewn into a history: repeats, contradictions, faults.

use super::history::Numbers;
use super::malformed;
use super::writer::Writer;
use crate::help;
use crate::node::{Vote, LAST_SLOT};
use crate::random::Random;
use crate::stakes::{MOST_NODES, MOST_TOTAL};

pub fn some(w: &mut Writer, numbers: &Numbers) {
    match w.random.below(19) {
        0 | 1 => w.repeat_some_line(),
        2 => contradict(w, numbers),
        3 => contradict_block(w),
        4 => own_name(w, numbers),
        5 => faulty_vote(w, numbers),
        6 => faulty_block(w, numbers),
        7 => {
            let slot = w.random.below(LAST_SLOT + 3);
            w.say(format!("timeout {slot}"));
        }
        8 => {
            w.say("look");
        }
        9 => faulty_cert(w, numbers),
        10 => faulty_proof(w, numbers),
        11 => ask_plausible(w, numbers),
        12 => malformed::line(w),
        13 => wrong_block(w, numbers),
        14 => for_people(w),
        15 => {
            let line = w.random.pick(&["end", "piece 01 5", "piece -", "piece 01070100", "piece - 1 1"]);
            w.say(line);
        }
        16 => {
            let any = w.random.range(1, LAST_SLOT);
            let slot = w.random.pick(&[any, any, any, 0, LAST_SLOT + 1, 257, u64::MAX]);
            w.say(format!("card {slot}"));
        }
        17 => {
            let set_aside = w.panel.aside.is_none() && w.random.percent(90);
            let line = w.random.pick(&["aside", "differ", "differ"]);
            w.say(if set_aside { "aside" } else { line });
        }
        _ => {
            let line = bad_start(w);
            w.say(line);
        }
    }
}

/// What people read, for its own sake and for what it must leave alone.
fn for_people(w: &mut Writer) {
    let slot = w.random.pick(&[1, 1, 2, 5, LAST_SLOT, 0, LAST_SLOT + 1, 1 << 32 | 1, u64::MAX]);
    let line = match w.random.below(9) {
        0 => "board".to_string(),
        1 | 2 => format!("board {slot}"),
        3 => format!("board {slot} {}", w.random.any_number()),
        4 => "help".to_string(),
        5 => {
            let words: Vec<&str> = help::words().chain(["me", "helps", "-"]).collect();
            format!("help {}", w.random.pick(&words))
        }
        6 | 7 => format!("why {}", w.random.pick(&[0, 1, 9, 15, 18, 19, 257, u64::MAX])),
        _ => return page_of_votes(w, slot),
    };
    w.ask_for_text(&line);
}

/// Mostly from a node of the table on.
fn page_of_votes(w: &mut Writer, slot: u64) {
    let nodes = w.ring.nodes() as u64;
    let any = w.random.below(nodes);
    let from = w.random.pick(&[0, 0, any, any, nodes - 1, nodes, 1 << 32, u64::MAX]);
    w.say(format!("votes {slot} {from}"));
}

fn block_of(w: &mut Writer, numbers: &Numbers, slot: u64) -> u64 {
    let blocks = numbers.of_slot(slot);
    w.random.pick(&blocks)
}

/// A vote in the place of a stored one, or that very vote.
fn contradict(w: &mut Writer, numbers: &Numbers) {
    let mut stored = w.node().stored_votes();
    stored.retain(|&(_, node, _)| !w.ring.is_own(node));
    if stored.is_empty() {
        return;
    }
    let (slot, node, vote) = w.random.pick(&stored);
    let block = block_of(w, numbers, slot);
    let (kind, block) = match vote {
        Vote::Notar(_) | Vote::Skip => w.random.pick(&[(1, block), (3, 0), (2, block)]),
        Vote::NotarFallback(_) => (2, block),
        Vote::SkipFallback => (4, 0),
        Vote::Final => (5, 0),
    };
    w.vote(kind, node, slot, block);
}

/// A kept block again, or with one thing changed.
fn contradict_block(w: &mut Writer) {
    let slots: Vec<u64> = (1..=LAST_SLOT).filter(|&slot| !w.node().kept_blocks(slot).is_empty()).collect();
    if slots.is_empty() {
        return;
    }
    let slot = w.random.pick(&slots);
    let kept = {
        let all = w.node().kept_blocks(slot).to_vec();
        w.random.pick(&all)
    };
    let (mut number, mut parent_slot, mut parent) = (kept.number, kept.parent_slot, kept.parent);
    match w.random.below(4) {
        0 => number = w.random.any_number(),
        1 => parent_slot = w.random.below(slot + 1),
        2 => parent = w.random.any_number(),
        _ => {}
    }
    w.say(format!("block {slot} {number} {parent_slot} {parent}"));
}

fn own_name(w: &mut Writer, numbers: &Numbers) {
    let slot = w.random.range(1, LAST_SLOT);
    let kind = w.random.range(1, 5);
    let block = if kind <= 2 { block_of(w, numbers, slot) } else { w.random.below(2) };
    w.vote(kind, w.ring.own, slot, block);
}

/// Nothing wrong but the block, also where the vote is stored already.
fn wrong_block(w: &mut Writer, numbers: &Numbers) {
    let slot = w.random.range(1, LAST_SLOT);
    let node = w.random.index(w.ring.nodes());
    let kind = w.random.range(1, 5);
    let block = if kind <= 2 { 0 } else { block_of(w, numbers, slot) };
    w.vote(kind, node, slot, block);
}

/// A vote with faults strewn independently, so that each order shows.
pub fn faulty_vote(w: &mut Writer, numbers: &Numbers) {
    let faults = FaultRate::any(&mut w.random);
    let kind = faults.or_bad_kind(&mut w.random);
    let slot = faults.or_bad_slot(&mut w.random);
    let nodes = w.ring.nodes() as u64;
    let node = if faults.hits(&mut w.random) {
        w.random.pick(&[nodes, nodes + 1, 64, 1 << 32, u64::MAX])
    } else if w.random.percent(15) {
        w.ring.own as u64
    } else {
        w.random.below(nodes)
    };
    let right = if kind <= 2 { numbers.of_slot(slot.min(LAST_SLOT))[0] } else { 0 };
    let block = faults.or_wrong_block(&mut w.random, right);
    w.say(format!("vote {kind} {node} {slot} {block}"));
}

pub fn faulty_block(w: &mut Writer, numbers: &Numbers) {
    let faults = FaultRate::any(&mut w.random);
    let slot = faults.or_bad_slot(&mut w.random);
    let number = faults.or_wrong_block(&mut w.random, numbers.of_slot(1)[0]);
    let parent_slot = match w.random.below(4) {
        0 => 0,
        1 => slot,
        2 => w.random.pick(&[slot.saturating_add(1), LAST_SLOT, LAST_SLOT + 1, u64::MAX]),
        _ => slot.saturating_sub(1),
    };
    let right = if parent_slot == 0 { w.ring.genesis } else { numbers.of_slot(2)[0] };
    let parent = match w.random.below(5) {
        0 => 0,
        1 => right ^ 1,
        _ => right,
    };
    w.say(format!("block {slot} {number} {parent_slot} {parent}"));
}

pub fn faulty_cert(w: &mut Writer, numbers: &Numbers) {
    let faults = FaultRate::any(&mut w.random);
    let kind = faults.or_bad_kind(&mut w.random);
    let slot = faults.or_bad_slot(&mut w.random);
    let right = if (1..=3).contains(&kind) { numbers.of_slot(slot.min(LAST_SLOT))[0] } else { 0 };
    let block = faults.or_wrong_block(&mut w.random, right);
    let kind = if (1..=5).contains(&kind) { some_family(w, kind) } else { kind };
    w.say(format!("cert {kind} {slot} {block}"));
}

pub fn faulty_proof(w: &mut Writer, numbers: &Numbers) {
    let faults = FaultRate::any(&mut w.random);
    let slot = faults.or_bad_slot(&mut w.random);
    let right = numbers.of_slot(slot.min(LAST_SLOT))[0];
    let block = faults.or_wrong_block(&mut w.random, right);
    w.say(format!("proof {slot} {block}"));
}

fn ask_plausible(w: &mut Writer, numbers: &Numbers) {
    let slot = w.random.range(1, LAST_SLOT);
    let block = block_of(w, numbers, slot);
    let meaning = w.random.range(1, 6);
    let kind = some_family(w, meaning);
    match meaning {
        6 => w.say(format!("proof {slot} {block}")),
        4 | 5 => w.say(format!("cert {kind} {slot} 0")),
        _ => w.say(format!("cert {kind} {slot} {block}")),
    };
}

/// A certificate kind of that meaning, seldom of the other family.
fn some_family(w: &mut Writer, meaning: u64) -> u64 {
    let other = w.random.pick(&[meaning, meaning + 10]);
    if w.random.percent(15) {
        other
    } else {
        w.ring.kind(meaning)
    }
}

/// A start that is refused, and so leaves the node as it was.
pub fn bad_start(w: &mut Writer) -> String {
    let ring = w.ring.clone();
    let mut stakes = ring.stakes.clone();
    let (mut own, mut genesis) = (ring.own as u64, ring.genesis);
    match w.random.below(8) {
        0 => stakes.clear(),
        1 => stakes.resize(w.random.pick(&[MOST_NODES + 1, MOST_NODES + 1, 2 * MOST_NODES, 30_000]), 1),
        2 => own = w.random.pick(&[stakes.len() as u64, MOST_NODES as u64, u64::MAX]),
        3 => genesis = 0,
        _ => spoil_table(&mut w.random, &mut stakes),
    }
    // A watcher's start has the same faults but that of the own number.
    let fault_of_own = own != ring.own as u64;
    if !fault_of_own && w.random.percent(25) {
        return format!("watch {genesis} {}", super::ring::words(&stakes)).trim_end().to_string();
    }
    // Without stakes there must be no space at the line's end.
    format!("start {own} {genesis} {}", super::ring::words(&stakes)).trim_end().to_string()
}

/// A table that breaks the sizes by its stakes.
pub fn spoil_table(random: &mut Random, stakes: &mut Vec<u64>) {
    let most = MOST_TOTAL;
    let at = random.index(stakes.len());
    match random.below(5) {
        0 => stakes[at] = 0,
        1 => stakes[at] = most + 1,
        2 => {
            let others: u64 = stakes.iter().sum::<u64>() - stakes[at];
            stakes[at] = most - others + 1;
        }
        3 => stakes[at] = u64::MAX,
        // These sum to 4 in 64 bits.
        _ => *stakes = vec![1 << 63, 1 << 63, 3, 1],
    }
}

/// How likely each field of a line is wrong, in percent.
pub struct FaultRate(pub u64);

impl FaultRate {
    fn any(random: &mut Random) -> FaultRate {
        FaultRate(random.pick(&[10, 30, 60]))
    }

    pub fn hits(&self, random: &mut Random) -> bool {
        random.percent(self.0)
    }

    pub fn or_bad_kind(&self, random: &mut Random) -> u64 {
        if self.hits(random) {
            random.pick(&[0, 6, 7, 10, 11, 15, 16, 257, 1 << 32 | 1, u64::MAX])
        } else {
            random.range(1, 5)
        }
    }

    pub fn or_bad_slot(&self, random: &mut Random) -> u64 {
        if self.hits(random) {
            random.pick(&[0, 0, 17, 17, 18, 257, 1 << 32 | 1, u64::MAX])
        } else {
            random.range(1, LAST_SLOT)
        }
    }

    pub fn or_wrong_block(&self, random: &mut Random, right: u64) -> u64 {
        match (self.hits(random), right) {
            (true, 0) => random.any_number().max(1),
            (true, _) => 0,
            (false, right) => right,
        }
    }
}
