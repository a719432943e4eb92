//! What a host reads off the node at a script's end.

use super::writer::Writer;
use crate::node::LAST_SLOT;

/// Questions of every sort, most of slots in which something stands.
pub fn reading(w: &mut Writer) {
    if w.panel.node.is_none() {
        return;
    }
    w.say("head");
    for _ in 0..w.random.range(1, 3) {
        let slot = some_slot(w);
        w.say(format!("blocks {slot}"));
        w.say(format!("marks {slot}"));
        w.say(format!("certificates {slot}"));
        for _ in 0..2 {
            let block = some_block(w, slot);
            w.say(format!("weights {slot} {block}"));
        }
    }
}

fn some_slot(w: &mut Writer) -> u64 {
    let node = w.node();
    let touched = |&slot: &u64| {
        !node.named_blocks(slot).is_empty() || !node.kept_blocks(slot).is_empty() || node.is_timed_out(slot)
    };
    let mut slots: Vec<u64> = (1..=LAST_SLOT).filter(touched).collect();
    slots.extend((1..=LAST_SLOT).filter(|&slot| node.kept_certificates(slot).len() > 1));
    slots.extend((1..=LAST_SLOT).filter(|&slot| node.has_conflict(slot)));
    if slots.is_empty() || w.random.percent(15) {
        return w.random.pick(&[1, 2, LAST_SLOT, 0, LAST_SLOT + 1, 1 << 32 | 1, u64::MAX]);
    }
    w.random.pick(&slots)
}

/// Mostly one that something in the slot names.
fn some_block(w: &mut Writer, slot: u64) -> u64 {
    let named: Vec<u64> = match slot {
        1..=LAST_SLOT => w.node().named_blocks(slot).into_iter().collect(),
        _ => Vec::new(),
    };
    if named.is_empty() || w.random.percent(15) {
        let any = w.random.any_number();
        return w.random.pick(&[0, 0, 7, any, u64::MAX]);
    }
    w.random.pick(&named)
}
