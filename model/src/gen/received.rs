//! Certificates that others made, among votes, blocks and questions.

use super::history::{announce, push, push_votes, some_order, Numbers};
use super::noise;
use super::packets::{
    take, take_again, take_apart, take_of_other_family, take_spoiled_again, take_with_more,
};
use super::writer::Writer;
use crate::node::{first_of_window, is_first, Cert, LAST_SLOT, MOST_NOTAR_FALLBACK_CERTIFICATES};

/// In few slots, so that they meet what is held.
pub fn received(w: &mut Writer) {
    let numbers = Numbers::any(&mut w.random, w.ring.genesis);
    let slots: &[u64] = w.random.pick(&[
        &[1u64, 2] as &[u64],
        &[3, 4, 5],
        &[1, 2, 3, 4, 5, 6, 7, 8],
        &[1, 5, 9, 13],
        &[LAST_SLOT],
    ]);
    let fault = w.random.pick(&[0, 5, 30]);
    while !w.full() {
        let slot = w.random.pick(slots);
        let any = w.random.pick(&numbers.of_slot(slot));
        let own = w.node().own_cell(slot).notar_block();
        let block = own.filter(|_| w.random.percent(50)).unwrap_or(any);
        match w.random.below(19) {
            0..=4 => {
                let cert = some_cert(w, block);
                take(w, cert, slot, fault)
            }
            5 if w.random.percent(30) => more_than_places(w, slot, fault),
            5 => take_again(w),
            6..=8 => some_vote(w, slot, block),
            9 | 10 => announce(w, &numbers, slot, block),
            11 => {
                w.say(format!("timeout {slot}"));
            }
            12 | 13 => ask_for_cert(w, slot, block),
            14 => {
                w.say(format!("proof {slot} {block}"));
            }
            15 => rivals(w, &numbers, slot),
            16 => refused(w, slot, block),
            17 => compare(w),
            _ => noise::some(w, &numbers),
        }
    }
}

/// One play after another, each made to let a rule or a writer need what is kept.
pub fn plays(w: &mut Writer) {
    let numbers = Numbers::any(&mut w.random, w.ring.genesis);
    w.say("look");
    while !w.full() {
        match w.random.below(8) {
            0 => opened(w, &numbers),
            1..=3 => awaited(w, &numbers),
            4 => own_final(w, &numbers),
            5 => halves(w, &numbers),
            6 => walked(w, &numbers),
            _ => lies(w, &numbers),
        }
        if w.random.percent(10) {
            noise::some(w, &numbers);
        }
    }
}

fn some_cert(w: &mut Writer, block: u64) -> Cert {
    let meaning = w.random.pick(&[1, 2, 2, 3, 3, 3, 4, 5]);
    Cert::of_kind(meaning, block).expect("a kind")
}

/// One that does for kind 3.
fn some_cert_of_block(w: &mut Writer, block: u64) -> Cert {
    let meaning = w.random.range(1, 3);
    Cert::of_kind(meaning, block).expect("a kind")
}

fn ask_for_cert(w: &mut Writer, slot: u64, block: u64) {
    let cert = some_cert(w, block);
    w.say(format!("cert {} {slot} {}", w.ring.kind(cert.kind()), cert.block()));
}

/// Of kind 3 as many as there are places, or more.
fn more_than_places(w: &mut Writer, slot: u64, fault: u64) {
    let mut blocks: Vec<u64> = (101..=103 + w.random.below(10)).collect();
    w.random.shuffle(&mut blocks);
    for &block in &blocks {
        take(w, Cert::NotarFallback(block), slot, fault);
    }
    if blocks.len() >= MOST_NOTAR_FALLBACK_CERTIFICATES && w.random.percent(50) {
        // With all places taken: one that is kept, and one that is held by votes alone.
        take(w, Cert::NotarFallback(blocks[0]), slot, 0);
        let last = blocks[blocks.len() - 1];
        push_votes(w, Cert::NotarFallback(last), slot);
        w.say(format!("cert {} {slot} {last}", w.ring.kind(3)));
    }
}

/// One block by its certificate and another by votes, then kind 5 for both.
fn rivals(w: &mut Writer, numbers: &Numbers, slot: u64) {
    let [one, other, ..] = some_order(&mut w.random, numbers.of_slot(slot));
    if w.random.percent(50) {
        take(w, Cert::Notar(one), slot, 0);
        push(w, Cert::Notar(other), slot);
    } else {
        push(w, Cert::Notar(other), slot);
        take(w, Cert::Notar(one), slot, 0);
    }
    push(w, Cert::Final, slot);
}

fn some_vote(w: &mut Writer, slot: u64, block: u64) {
    let others = w.ring.others();
    if others.is_empty() {
        return;
    }
    let node = w.random.pick(&others);
    let (kind, block) = w.random.pick(&[(1, block), (1, block), (2, block), (3, 0), (4, 0), (5, 0)]);
    w.vote(kind, node, slot, block);
}

/// What the checker refuses, of a certificate that is kept or is not.
fn refused(w: &mut Writer, slot: u64, block: u64) {
    let cert = some_cert(w, block);
    match w.random.below(6) {
        0 => take_of_other_family(w, cert, slot),
        1 => take_with_more(w, cert, slot),
        2 => take_apart(w, cert, slot),
        _ => take_spoiled_again(w),
    }
}

/// Certificates are no stored votes.
fn compare(w: &mut Writer) {
    if w.panel.aside.is_none() || w.random.percent(40) {
        w.say("aside");
        return;
    }
    w.say("differ");
}

// ---- plays ----

/// By the certificate mostly, else by votes.
fn bring(w: &mut Writer, cert: Cert, slot: u64) {
    if w.random.percent(70) {
        take(w, cert, slot, 0);
    } else {
        push_votes(w, cert, slot);
    }
}

/// A window opened over kept certificates, and a block upon their parent.
fn opened(w: &mut Writer, numbers: &Numbers) {
    let first = w.random.pick(&[5, 9, 13]);
    let parent_slot = first - w.random.pick(&[1, 1, 2, 3, 4]);
    let parent = w.random.pick(&numbers.of_slot(parent_slot));
    let mut certs: Vec<(Cert, u64)> = (parent_slot + 1..first).map(|slot| (Cert::Skip, slot)).collect();
    certs.push((some_cert_of_block(w, parent), parent_slot));
    w.random.shuffle(&mut certs);
    let block = w.random.pick(&numbers.of_slot(first));
    let announced = format!("block {first} {block} {parent_slot} {parent}");
    if w.random.percent(50) {
        w.say(announced.as_str());
    }
    for (cert, slot) in certs {
        bring(w, cert, slot);
    }
    w.say(announced);
}

/// A fallback outside first slots that waits for a parent: votes, block and the
/// parent's certificate in any order.
fn awaited(w: &mut Writer, numbers: &Numbers) {
    let armed: Vec<u64> =
        (1..=LAST_SLOT).filter(|&slot| !is_first(slot) && w.node().is_armed(slot)).collect();
    if armed.is_empty() {
        w.say("look");
        return;
    }
    let slot = w.random.pick(&armed);
    let any_below = w.random.range(1, slot - 1);
    let parent_slot = w.random.pick(&[slot - 1, any_below]);
    let parent = w.random.pick(&numbers.of_slot(parent_slot));
    let block = w.random.pick(&numbers.of_slot(slot));
    if w.node().own_cell(slot).initial.is_none() {
        w.say(format!("timeout {slot}"));
    }
    let mut steps = [0, 1, 2];
    w.random.shuffle(&mut steps);
    for step in steps {
        match step {
            0 => {
                w.say(format!("block {slot} {block} {parent_slot} {parent}"));
            }
            1 => {
                let cert = some_cert_of_block(w, parent);
                take(w, cert, parent_slot, 0);
            }
            _ => two_fifths(w, slot, block),
        }
    }
}

/// Notar votes of two camps.
fn two_fifths(w: &mut Writer, slot: u64, block: u64) {
    let mut camps = [1, 2, 3, 4];
    w.random.shuffle(&mut camps);
    let nodes = [w.ring.camps[camps[0]].clone(), w.ring.camps[camps[1]].clone()].concat();
    for node in nodes {
        if !w.ring.is_own(node) {
            w.vote(1, node, slot, block);
        }
    }
}

/// The own notar vote, a fallback now and then, and kind 1 or 2 for its block.
fn own_final(w: &mut Writer, numbers: &Numbers) {
    let open: Vec<u64> = (1..=LAST_SLOT)
        .filter(|&slot| w.node().is_armed(slot) && w.node().own_cell(slot).initial.is_none())
        .collect();
    if open.is_empty() {
        return opened(w, numbers);
    }
    let any = w.random.pick(&open);
    let slot = w.random.pick(&[open[0], open[0], any]);
    for earlier in first_of_window(slot)..=slot {
        let block = w.random.pick(&numbers.of_slot(earlier));
        announce(w, numbers, earlier, block);
    }
    let own = w.node().own_cell(slot).notar_block();
    let block = own.unwrap_or(numbers.of_slot(slot)[0]);
    if w.random.percent(25) {
        let other = w.random.pick(&numbers.of_slot(slot));
        two_fifths(w, slot, other);
    }
    let meaning = w.random.pick(&[1, 2, 2, 3]);
    take(w, Cert::of_kind(meaning, block).expect("a kind"), slot, 0);
    if w.random.percent(50) {
        bring(w, Cert::Final, slot);
    }
}

/// Kinds 2 and 5 of a slot, each kept or by votes, and what is written of them;
/// kind 1 then comes as well.
fn halves(w: &mut Writer, numbers: &Numbers) {
    let slot = w.random.range(1, LAST_SLOT);
    let block = w.random.pick(&numbers.of_slot(slot));
    let mut certs = [Cert::Notar(block), Cert::Final];
    w.random.shuffle(&mut certs);
    let by_votes = w.random.below(4);
    for (i, cert) in certs.into_iter().enumerate() {
        if by_votes >> i & 1 == 1 {
            push_votes(w, cert, slot);
        } else {
            take(w, cert, slot, 0);
        }
    }
    w.say(format!("proof {slot} {block}"));
    if w.random.percent(50) {
        ask_for_cert(w, slot, block);
    }
    if w.random.percent(40) {
        take(w, Cert::FastFinal(block), slot, 0);
        w.say(format!("proof {slot} {block}"));
        w.say(format!("cert {} {slot} {block}", w.ring.kind(2)));
    }
    if w.random.percent(30) {
        // Votes come before what is kept as soon as they reach.
        push_votes(w, Cert::NotarFallback(block), slot);
        w.say(format!("cert {} {slot} {block}", w.ring.kind(3)));
    }
}

/// A chain of announced blocks, its top final by certificates, and perhaps a
/// rival final below or a link that comes late.
fn walked(w: &mut Writer, numbers: &Numbers) {
    let top = w.random.range(2, LAST_SLOT);
    let mut links = Vec::new();
    let (mut slot, mut number) = (top, w.random.pick(&numbers.of_slot(top)));
    let top_number = number;
    while slot > 0 && links.len() < 5 {
        let below = slot - w.random.pick(&[1, 1, 1, 2]).min(slot);
        let parent = if below == 0 { w.ring.genesis } else { w.random.pick(&numbers.of_slot(below)) };
        links.push((slot, number, below, parent));
        (slot, number) = (below, parent);
    }
    let late = w.random.index(links.len());
    if w.random.percent(30) {
        let (slot, ..) = links[late];
        let rival = w.random.pick(&numbers.of_slot(slot));
        take(w, Cert::FastFinal(rival), slot, 0);
    }
    let has_late = w.random.percent(40);
    let say = |w: &mut Writer, (slot, number, below, parent): (u64, u64, u64, u64)| {
        w.say(format!("block {slot} {number} {below} {parent}"));
    };
    for (i, &link) in links.iter().enumerate() {
        if !has_late || i != late {
            say(w, link);
        }
    }
    if w.random.percent(50) {
        take(w, Cert::FastFinal(top_number), top, 0);
    } else {
        bring(w, Cert::Final, top);
        bring(w, Cert::Notar(top_number), top);
    }
    if has_late {
        say(w, links[late]);
    }
}

/// Kinds 1 and 2 for two blocks, a third by votes, and kind 5: more than honest
/// firms would sign.
fn lies(w: &mut Writer, numbers: &Numbers) {
    let slot = w.random.range(1, LAST_SLOT);
    let [one, two, three, _] = some_order(&mut w.random, numbers.of_slot(slot));
    let mut steps = vec![(Cert::FastFinal(one), true), (Cert::Notar(two), true), (Cert::Final, true)];
    if w.random.percent(40) {
        steps.push((Cert::Notar(three), false));
    }
    if w.random.percent(30) {
        steps.remove(0);
    }
    w.random.shuffle(&mut steps);
    for (cert, is_kept) in steps {
        if is_kept {
            take(w, cert, slot, 0);
        } else {
            push_votes(w, cert, slot);
        }
    }
    for block in [one, two, three] {
        w.say(format!("proof {slot} {block}"));
    }
}
