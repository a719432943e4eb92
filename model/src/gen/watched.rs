//! A watcher beside a voter.

use super::received;
use super::scenes;
use super::writer::Writer;
use crate::node::LAST_SLOT;
use crate::packet::certificate_bytes;
use crate::panel::show_hex;

/// The watcher is fed what the voter has stored, own votes included, in another
/// order, and must come to hold the same.
pub fn watched(w: &mut Writer) {
    w.ring.watches = false;
    w.start();
    if w.random.percent(50) {
        scenes::soup(w);
    } else {
        received::received(w);
    }
    w.say("aside");
    let mut lines = stored_lines(w);
    w.random.shuffle(&mut lines);
    w.ring.watches = true;
    w.start();
    for line in lines {
        w.say(line);
        if w.random.percent(3) {
            let slot = w.random.below(LAST_SLOT + 2);
            w.say(format!("timeout {slot}"));
        }
    }
    w.say("differ");
}

/// Votes, blocks and certificates of the node, a line each.
fn stored_lines(w: &Writer) -> Vec<String> {
    let node = w.node();
    let mut lines = Vec::new();
    for (slot, from, vote) in node.stored_votes() {
        lines.push(format!("vote {} {from} {slot} {}", vote.kind(), vote.block()));
    }
    for slot in 1..=LAST_SLOT {
        for kept in node.kept_blocks(slot) {
            lines.push(format!("block {slot} {} {} {}", kept.number, kept.parent_slot, kept.parent));
        }
        for kept in node.kept_certificates(slot) {
            lines.push(format!("take {}", show_hex(&certificate_bytes(node.stakes().family(), kept))));
        }
    }
    lines
}
