//! Trays: runs of votes in one line.

use super::history::{announce, Numbers};
use super::noise;
use super::writer::Writer;
use crate::node::LAST_SLOT;
use crate::panel::LONGEST_LINE;

/// One tray after another, small and large, whole and broken.
pub fn trays(w: &mut Writer) {
    let numbers = Numbers::any(&mut w.random, w.ring.genesis);
    let slots = w.random.pick(&[1, 2, 4, LAST_SLOT]);
    let fault = w.random.pick(&[0, 3, 10, 40]);
    while !w.full() {
        let slot = w.random.range(1, slots);
        match w.random.below(10) {
            0 => w.say("tray"),
            1 => w.say("look"),
            2 => w.say(format!("timeout {slot}")),
            3 | 4 => {
                let block = w.random.pick(&numbers.of_slot(slot));
                announce(w, &numbers, slot, block);
                continue;
            }
            5 => {
                noise::some(w, &numbers);
                continue;
            }
            6 => {
                catch_up(w, &numbers, slots, fault);
                continue;
            }
            7 if w.random.percent(30) => {
                everyone(w, &numbers, slot);
                continue;
            }
            _ => {
                let votes = w.random.pick(&[1, 1, 2, 3, 5, 10, 20]);
                let line = some_tray(w, &numbers, slots, fault, votes);
                w.say(line)
            }
        };
    }
}

/// As many votes as a line has room for, at times a few more.
fn catch_up(w: &mut Writer, numbers: &Numbers, slots: u64, fault: u64) {
    let most = if w.ring.nodes() <= 20 { 6000 } else { 300 };
    let votes = w.random.pick(&[100, 200, 300, 300, most]);
    let mut line = some_tray(w, numbers, slots, fault, votes);
    if !w.random.percent(20) && line.len() > LONGEST_LINE {
        line.truncate(LONGEST_LINE);
        // What is left of the last word is a number still.
        line.truncate(line.trim_end().len());
        while !w.random.percent(10) && line.split(' ').count() % 4 != 1 {
            line.truncate(line.rfind(' ').expect("a tray has words"));
        }
    }
    w.raw(&line);
}

/// Every node but the own votes alike in one slot, in random order; where they
/// are very many, mostly some of them.
fn everyone(w: &mut Writer, numbers: &Numbers, slot: u64) {
    let blocks = numbers.of_slot(slot);
    let (kind, block) =
        w.random.pick(&[(1, blocks[0]), (1, blocks[1]), (2, blocks[0]), (3, 0), (4, 0), (5, 0)]);
    let mut nodes: Vec<usize> = (0..w.ring.nodes()).filter(|&node| !w.ring.is_own(node)).collect();
    w.random.shuffle(&mut nodes);
    if nodes.len() > 300 && !w.random.percent(5) {
        nodes.truncate(100);
    }
    let votes: Vec<String> = nodes.iter().map(|node| format!(" {kind} {node} {slot} {block}")).collect();
    w.raw(&format!("tray{}", votes.concat()));
}

/// A part of a vote may stand at the end.
fn some_tray(w: &mut Writer, numbers: &Numbers, slots: u64, fault: u64, votes: usize) -> String {
    let mut line = "tray".to_string();
    for _ in 0..votes {
        let [kind, node, slot, block] = some_vote(w, numbers, slots, fault);
        line += &format!(" {kind} {node} {slot} {block}");
    }
    if w.random.percent(8) {
        line += w.random.pick(&[" 1", " 1 1", " 1 1 1", " 0", " 9 9 9"]);
    }
    line
}

fn some_vote(w: &mut Writer, numbers: &Numbers, slots: u64, fault: u64) -> [u64; 4] {
    let slot = w.random.range(1, slots);
    let blocks = numbers.of_slot(slot);
    let choices = w.random.pick(&[1, 1, 2, 4]);
    let kind = w.random.pick(&[1, 1, 1, 1, 2, 2, 3, 3, 4, 5]);
    let mut node = w.random.index(w.ring.nodes());
    // The own name stands in few lines where faults are few.
    if w.ring.is_own(node) && !w.random.percent(fault) {
        node = (node + 1) % w.ring.nodes();
    }
    let mut vote = [kind, node as u64, slot, if kind <= 2 { w.random.pick(&blocks[..choices]) } else { 0 }];
    if w.random.percent(fault) {
        let wrong = [0, 6, 17, w.ring.nodes() as u64, u64::MAX];
        vote[w.random.index(4)] = w.random.pick(&wrong);
    }
    vote
}
