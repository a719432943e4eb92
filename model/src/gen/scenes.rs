//! Other courses of events than a planned history, each made to bring on
//! what plans seldom do.

use super::history::{announce, push, second_votes, some_order, Lean, Numbers, A, B, C, M, N, S, SECONDS};
use super::noise;
use super::writer::Writer;
use crate::node::{first_of_window, is_first, Cert, LAST_SLOT, WINDOW};
use crate::random::Random;
use crate::stakes::{P40, P60, P80};

/// One goal after another, chosen by what the node holds then.
pub fn pushes(w: &mut Writer) {
    let numbers = Numbers::any(&mut w.random, w.ring.genesis);
    let mut slot = w.random.pick(&[1, 1, 1, 4, 5, 8, 12]);
    while !w.full() {
        let blocks = numbers.of_slot(slot);
        let block = w.random.pick(&blocks[..2]);
        match w.random.below(13) {
            0 | 1 => push(w, Cert::Notar(block), slot),
            2 => push(w, Cert::FastFinal(block), slot),
            3 | 4 => push(w, Cert::NotarFallback(block), slot),
            5 | 6 => push(w, Cert::Skip, slot),
            7 => push(w, Cert::Final, slot),
            8..=10 => announce(w, &numbers, slot, block),
            11 => {
                w.say(format!("timeout {slot}"));
            }
            _ => noise::some(w, &numbers),
        }
        if w.random.percent(35) {
            slot = slot % LAST_SLOT + 1;
        }
        if w.random.percent(3) {
            slot = w.random.range(1, LAST_SLOT);
        }
    }
}

/// An own node that carries the ring nearly alone: blocks and timeouts only.
pub fn lone(w: &mut Writer) {
    let numbers = Numbers::any(&mut w.random, w.ring.genesis);
    let mut slot = 1;
    while !w.full() && slot <= LAST_SLOT {
        let blocks = numbers.of_slot(slot);
        let block = w.random.pick(&blocks);
        match w.random.below(10) {
            0 => {
                w.say(format!("timeout {slot}"));
            }
            1 => {
                // Ahead of its time: the node votes when its parent comes.
                let ahead = (slot + w.random.below(5)).min(LAST_SLOT);
                let number = w.random.pick(&numbers.of_slot(ahead));
                announce(w, &numbers, ahead, number);
            }
            2 => {
                w.say("look");
            }
            3 => noise::some(w, &numbers),
            _ => announce(w, &numbers, slot, block),
        }
        slot += w.random.pick(&[0, 1, 1, 1]);
    }
}

/// Anything at all in few slots with few numbers, so that votes collide.
pub fn soup(w: &mut Writer) {
    let numbers = Numbers::any(&mut w.random, w.ring.genesis);
    let slots: &[u64] = w.random.pick(&[
        &[1u64] as &[u64],
        &[1, 2],
        &[1, 2, 3, 4, 5],
        &[4, 5],
        &[2, 3, 4, 5, 6],
        &[8, 9, 10, 11, 12, 13],
        &[1, 5, 9, 13],
        &[13, 14, 15, 16],
        &[1, 2, 3, 4, 5, 6, 7, 8, 9, 10, 11, 12, 13, 14, 15, 16],
    ]);
    let others = w.ring.others();
    let block_range = w.random.range(1, 4) as usize;
    while !w.full() {
        let slot = w.random.pick(slots);
        let block = {
            let all = numbers.of_slot(slot);
            w.random.pick(&all[..block_range])
        };
        match w.random.below(20) {
            0 | 1 => announce(w, &numbers, slot, block),
            2 => {
                w.say(format!("timeout {slot}"));
            }
            3 => {
                w.say("look");
            }
            4 => noise::some(w, &numbers),
            _ if others.is_empty() => announce(w, &numbers, slot, block),
            _ => {
                let node = w.random.pick(&others);
                let kind = w.random.pick(&[1, 1, 1, 1, 2, 2, 3, 3, 3, 4, 5]);
                w.vote(kind, node, slot, if kind <= 2 { block } else { 0 });
            }
        }
    }
}

/// One slot brought vote by vote around a threshold, with both sides of it
/// asked for.
pub fn brink(w: &mut Writer) {
    let numbers = Numbers::any(&mut w.random, w.ring.genesis);
    let slot = w.random.range(1, LAST_SLOT);
    let blocks = numbers.of_slot(slot);
    w.say("look");
    announce(w, &numbers, slot, blocks[0]);
    let threshold = w.random.pick(&[P40, P60, P80]);
    let kind = w.random.range(1, 5);
    let block = if kind <= 2 { w.random.pick(&blocks[..2]) } else { 0 };
    for node in w.ring.clone().reaching(&mut w.random, threshold) {
        if w.full() {
            return;
        }
        w.vote(kind, node, slot, block);
        if w.random.percent(30) {
            let meaning = w.random.range(1, 5);
            let block = if meaning <= 3 { blocks[0] } else { 0 };
            w.say(format!("cert {} {slot} {block}", w.ring.kind(meaning)));
        }
    }
}

/// What the four other camps do so that one own vote sets off more.
const PRIMED: &[[Lean; 4]] = &[
    [M, M, N, N],
    [M, M, N, N],
    [M, M, A, N],
    [M, M, M, N],
    [M, M, S, S],
    [S, S, N, N],
    [S, S, A, A],
    [S, A, B, C],
    [S, A, B, C],
    [S, A, B, C],
    [S, S, A, B],
    [A, A, B, B],
    [S, S, S, A],
];

/// Votes and blocks for every slot while the own node waits; then one input
/// lets it run through many slots and windows at once.
pub fn avalanche(w: &mut Writer) {
    let numbers = Numbers::any(&mut w.random, w.ring.genesis);
    let mains: Vec<u64> = (0..=LAST_SLOT).map(|slot| w.random.pick(&numbers.of_slot(slot))).collect();
    if w.random.percent(25) {
        return avalanche_upon_parent(w, &numbers, &mains);
    }
    let mut actions = Vec::new();
    let shared = w.random.percent(40).then(|| w.random.pick(PRIMED));
    for slot in 1..=LAST_SLOT {
        let leans = shared.unwrap_or_else(|| w.random.pick(PRIMED));
        primed_votes(
            w,
            &mut actions,
            slot,
            leans,
            blocks_led_by(mains[slot as usize], numbers.of_slot(slot)),
        );
    }
    for slot in 2..=LAST_SLOT {
        if w.random.percent(90) {
            actions.push(primed_block(&mut w.random, slot, &mains, w.ring.genesis));
        }
    }
    w.random.shuffle(&mut actions);
    // Other blocks are known too, but never first.
    let known = w.random.pick(&[0, 50, 100]);
    for slot in 2..=LAST_SLOT {
        for block in some_order(&mut w.random, numbers.of_slot(slot)) {
            if w.random.percent(known) {
                actions.push(format!("block {slot} {block} {} {}", slot - 1, mains[slot as usize - 1]));
            }
        }
    }
    let by_timeout = w.random.percent(40);
    if by_timeout {
        w.say("look");
    }
    for line in actions {
        w.say(line);
    }
    if by_timeout {
        w.say("timeout 1");
    }
    w.say(format!("block 1 {} 0 {}", mains[1], w.ring.genesis));
    for slot in [1, 5, 9, 13] {
        let slot = slot + w.random.below(WINDOW);
        w.say(format!("timeout {slot}"));
    }
}

/// The same from a later window on, set off by the certificate of a parent, or
/// by the votes for it.
fn avalanche_upon_parent(w: &mut Writer, numbers: &Numbers, mains: &[u64]) {
    let first = w.random.pick(&[5, 5, 9, 13]);
    let mut actions = Vec::new();
    for slot in first..=LAST_SLOT {
        let main = mains[slot as usize];
        let leans = w.random.pick(PRIMED);
        primed_votes(w, &mut actions, slot, leans, blocks_led_by(main, numbers.of_slot(slot)));
        actions.push(format!("block {slot} {main} {} {}", slot - 1, mains[slot as usize - 1]));
    }
    w.random.shuffle(&mut actions);
    // Other blocks are known too, but never first.
    for slot in first + 1..=LAST_SLOT {
        for block in some_order(&mut w.random, numbers.of_slot(slot)) {
            actions.push(format!("block {slot} {block} {} {}", slot - 1, mains[slot as usize - 1]));
        }
    }
    for line in actions {
        w.say(line);
    }
    push(w, Cert::NotarFallback(mains[first as usize - 1]), first - 1);
}

fn blocks_led_by(main: u64, mut blocks: [u64; 4]) -> [u64; 4] {
    let at = blocks.iter().position(|&block| block == main).expect("main is one of them");
    blocks.swap(0, at);
    blocks
}

fn primed_votes(w: &mut Writer, lines: &mut Vec<String>, slot: u64, mut leans: [Lean; 4], blocks: [u64; 4]) {
    w.random.shuffle(&mut leans);
    let second = w.random.pick(SECONDS);
    for (camp, lean) in leans.into_iter().enumerate() {
        for node in w.ring.camps[camp + 1].clone() {
            match lean {
                Lean::Block(i) => lines.push(format!("vote 1 {node} {slot} {}", blocks[i])),
                Lean::Skip => lines.push(format!("vote 3 {node} {slot} 0")),
                Lean::Nothing => {}
            }
            let votes = second_votes(&mut w.random, second, lean, &blocks);
            lines.extend(votes.iter().map(|(kind, block)| format!("vote {kind} {node} {slot} {block}")));
        }
    }
}

/// The slot's main block upon an earlier main block, mostly the one before.
fn primed_block(random: &mut Random, slot: u64, mains: &[u64], genesis: u64) -> String {
    let parent_slot = if is_first(slot) && random.percent(40) { random.below(slot) } else { slot - 1 };
    let parent = if parent_slot == 0 { genesis } else { mains[parent_slot as usize] };
    format!("block {slot} {} {parent_slot} {parent}", mains[slot as usize])
}

/// In each window the own node gets as far as its final vote; then the other
/// camps turn against the block, which must bring no fallback.
pub fn standoffs(w: &mut Writer) {
    let numbers = Numbers::any(&mut w.random, w.ring.genesis);
    let mut first = 1;
    while first <= LAST_SLOT && !w.full() {
        let last_voted = first + w.random.pick(&[0, 0, 1, 1, 2, 3]);
        for slot in first..=last_voted {
            let blocks = some_order(&mut w.random, numbers.of_slot(slot));
            announce(w, &numbers, slot, blocks[0]);
            let mut camps = [1, 2, 3, 4];
            w.random.shuffle(&mut camps);
            camp_votes(w, &[0, camps[0], camps[1]], slot, M, &blocks);
            if slot == last_voted || w.random.percent(30) {
                let leans = w.random.pick(&[[A, A], [A, A], [A, A], [S, S], [A, S], [A, N], [A, B]]);
                camp_votes(w, &[camps[2]], slot, leans[0], &blocks);
                camp_votes(w, &[camps[3]], slot, leans[1], &blocks);
            }
        }
        // Skips of the others lead over to the next window.
        for slot in last_voted + 1..first + WINDOW {
            push(w, Cert::Skip, slot);
        }
        first += WINDOW;
    }
}

fn camp_votes(w: &mut Writer, camps: &[usize], slot: u64, lean: Lean, blocks: &[u64; 4]) {
    let mut nodes: Vec<usize> = camps.iter().flat_map(|&camp| w.ring.camps[camp].clone()).collect();
    nodes.retain(|&node| !w.ring.is_own(node));
    w.random.shuffle(&mut nodes);
    for node in nodes {
        match lean {
            Lean::Block(i) => w.vote(1, node, slot, blocks[i]),
            Lean::Skip => w.vote(3, node, slot, 0),
            Lean::Nothing => {}
        }
    }
}

/// Few heavy nodes that vote once or twice in each slot of a chain, so that
/// one vote carries the own node past several rules.
pub fn leaps(w: &mut Writer) {
    let numbers = Numbers::any(&mut w.random, w.ring.genesis);
    for slot in 1..=LAST_SLOT {
        if is_first(slot) && slot > 1 && w.node().ready_parents(slot).is_empty() {
            lead_over(w, slot);
        }
        let blocks = some_order(&mut w.random, numbers.of_slot(slot));
        announce(w, &numbers, slot, blocks[0]);
        let mut others = w.ring.others();
        for _ in 0..w.random.range(1, 2) {
            w.random.shuffle(&mut others);
            for &node in &others {
                let leap = [(1, blocks[0]), (1, blocks[1]), (3, 0), (2, blocks[0]), (4, 0), (5, 0)];
                let choices = w.random.pick(&[2, 3, 3, 6]);
                let (kind, block) = w.random.pick(&leap[..choices]);
                w.vote(kind, node, slot, block);
            }
        }
    }
}

/// Skips from the window's end down, until some parent is ready.
fn lead_over(w: &mut Writer, first: u64) {
    for slot in (first - WINDOW..first).rev() {
        push(w, Cert::Skip, slot);
        if !w.node().ready_parents(first).is_empty() {
            return;
        }
    }
}

/// A parent and a first slot any distance apart, with the skipped slots
/// between brought in any order; now and then a pier is missing.
pub fn bridges(w: &mut Writer) {
    let numbers = Numbers::any(&mut w.random, w.ring.genesis);
    let first = w.random.pick(&[5, 9, 9, 13, 13, 13]);
    let farthest = if w.random.percent(50) { 5 } else { first };
    let parent_slot = w.random.below(farthest);
    let block = w.random.pick(&numbers.of_slot(parent_slot));
    let mut piers: Vec<(u64, Cert)> = (parent_slot + 1..first).map(|slot| (slot, Cert::Skip)).collect();
    if parent_slot > 0 {
        piers.push((parent_slot, Cert::NotarFallback(block)));
    }
    if w.random.percent(30) {
        // A second, nearer parent makes two ready at once.
        let slot = w.random.range(1, first - 1);
        piers.push((slot, Cert::Notar(numbers.of_slot(slot)[0])));
    }
    if w.random.percent(60) {
        w.random.shuffle(&mut piers);
    }
    if w.random.percent(25) {
        let at = w.random.index(piers.len());
        piers.remove(at);
    }
    let number = w.random.pick(&numbers.of_slot(first));
    let parent = if parent_slot == 0 { w.ring.genesis } else { block };
    let announced = format!("block {first} {number} {parent_slot} {parent}");
    if w.random.percent(50) {
        w.say(announced.as_str());
    }
    for (slot, cert) in piers {
        push(w, cert, slot);
    }
    w.say(announced);
    w.say(format!("timeout {first}"));
}

/// What the four other camps vote so that rule D's weights may be reached.
const DOUBTED: &[[Lean; 4]] = &[
    [M, M, N, N],
    [M, M, N, N],
    [M, M, N, N],
    [M, S, S, N],
    [M, A, S, S],
    [M, M, A, A],
    [M, M, A, A],
    [M, M, A, A],
    [A, M, M, S],
    [M, M, M, N],
    [S, A, B, C],
    [S, A, B, C],
    [S, M, A, B],
];

#[derive(Clone, Copy)]
enum Step {
    OwnVote,
    Votes(usize, Lean),
    /// One of the slot's blocks, or a fifth one.
    Announce(usize),
    /// One of the slot's blocks, upon the parent of another.
    AnnounceOtherwise(usize),
    /// The parent of one of the slot's blocks.
    Certify(usize),
}

/// Fallbacks outside first slots: the votes, the block, its parent's
/// certificate and the own vote come in any order, or not at all.
pub fn waits(w: &mut Writer) {
    let numbers = Numbers::any(&mut w.random, w.ring.genesis);
    w.say("look");
    let mut slot = 1;
    while !w.full() {
        slot += w.random.range(1, 3);
        if slot > LAST_SLOT {
            return;
        }
        if !w.node().is_armed(slot) {
            lead_over(w, first_of_window(slot));
        }
        if w.random.percent(70) {
            follow(w, &numbers, slot);
        }
        wait_in(w, &numbers, slot);
    }
}

/// Blocks of the window up to the slot, for which the own node may vote.
fn follow(w: &mut Writer, numbers: &Numbers, slot: u64) {
    for earlier in first_of_window(slot)..=slot {
        if w.node().own_cell(earlier).initial.is_none() {
            let block = w.random.pick(&numbers.of_slot(earlier));
            announce(w, numbers, earlier, block);
        }
    }
}

fn wait_in(w: &mut Writer, numbers: &Numbers, slot: u64) {
    let blocks = some_order(&mut w.random, numbers.of_slot(slot));
    let parents = some_parents(w, numbers, slot);
    for step in some_steps(&mut w.random) {
        match step {
            Step::OwnVote => {
                // Who voted for a block is mostly left without the window's skips.
                if w.node().own_cell(slot).initial.is_none() || w.random.percent(15) {
                    let any = w.random.range(first_of_window(slot), slot);
                    let named = w.random.pick(&[slot, any]);
                    w.say(format!("timeout {named}"));
                }
            }
            Step::Votes(camp, lean) => camp_votes(w, &[camp], slot, lean, &blocks),
            Step::Announce(i) => {
                let number = blocks.get(i).copied().unwrap_or_else(|| w.random.any_number().max(1));
                let (parent_slot, parent) = parents[i % 4];
                w.say(format!("block {slot} {number} {parent_slot} {parent}"));
            }
            Step::AnnounceOtherwise(i) => {
                let (parent_slot, parent) = parents[(i + 1) % 4];
                w.say(format!("block {slot} {} {parent_slot} {parent}", blocks[i]));
            }
            Step::Certify(i) => {
                let (parent_slot, parent) = parents[i];
                if parent_slot > 0 {
                    push(w, Cert::NotarFallback(parent), parent_slot);
                }
            }
        }
    }
}

/// A parent for each of the slot's blocks, mostly the same for all, and often
/// the own node's choice next door.
fn some_parents(w: &mut Writer, numbers: &Numbers, slot: u64) -> [(u64, u64); 4] {
    let own = if slot > 1 { w.node().own_cell(slot - 1).notar_block() } else { None };
    let mut any_parent = || {
        let any_below = w.random.below(slot);
        let parent_slot = w.random.pick(&[slot - 1, slot - 1, any_below]);
        let of_slot = numbers.of_slot(parent_slot);
        (parent_slot, if parent_slot == 0 { w.ring.genesis } else { w.random.pick(&of_slot) })
    };
    let (shared, other) = (any_parent(), any_parent());
    let shared = own.filter(|_| w.random.percent(60)).map_or(shared, |block| (slot - 1, block));
    [(); 4].map(|_| w.random.pick(&[shared, shared, shared, other]))
}

fn some_steps(random: &mut Random) -> Vec<Step> {
    let mut steps = vec![Step::OwnVote, Step::Announce(0)];
    steps.extend(random.pick(DOUBTED).into_iter().enumerate().map(|(i, lean)| Step::Votes(i + 1, lean)));
    let known = random.pick(&[0, 50, 100]);
    steps.extend((1..4).filter(|_| random.percent(known)).map(Step::Announce).collect::<Vec<_>>());
    for (percent, step) in [
        (90, Step::Certify(0)),
        (40, Step::Certify(random.index(4))),
        (30, Step::Announce(4)),
        (20, Step::AnnounceOtherwise(random.index(4))),
    ] {
        if random.percent(percent) {
            steps.push(step);
        }
    }
    random.shuffle(&mut steps);
    // A fallback that has nothing to wait for comes before the skips of rule E.
    if random.percent(25) {
        steps.sort_by_key(|step| matches!(step, Step::Votes(..)));
    }
    steps
}

/// Chains of blocks of which some become final, with links that are missing
/// or come late, and rivals that become final in the chain's slots.
pub fn ancestry(w: &mut Writer) {
    let numbers = Numbers::any(&mut w.random, w.ring.genesis);
    while !w.full() {
        let chain = some_chain(w, &numbers);
        let top = chain[0];
        let mut steps: Vec<Link> = Vec::new();
        for _ in 0..w.random.range(1, 3) {
            let (slot, number, ..) = if w.random.percent(60) { top } else { w.random.pick(&chain) };
            let rival = w.random.pick(&numbers.of_slot(slot));
            let number = if w.random.percent(75) { number } else { rival };
            steps.push((slot, number, slot, 0));
        }
        let (mut late, early): (Vec<Link>, Vec<Link>) = chain.into_iter().partition(|_| w.random.percent(20));
        steps.extend(early);
        w.random.shuffle(&mut steps);
        w.random.shuffle(&mut late);
        for (slot, number, parent_slot, parent) in steps.into_iter().chain(late) {
            if parent_slot < slot {
                w.say(format!("block {slot} {number} {parent_slot} {parent}"));
            } else {
                make_final(w, slot, number);
            }
        }
    }
}

/// Slot and number of a block, and of its parent.
type Link = (u64, u64, u64, u64);

/// From some slot down to genesis.
fn some_chain(w: &mut Writer, numbers: &Numbers) -> Vec<Link> {
    let mut slot = w.random.range(2, LAST_SLOT);
    let mut number = w.random.pick(&numbers.of_slot(slot));
    let gaps = w.random.pick(&[0, 20, 50]);
    let mut chain = Vec::new();
    while slot > 0 {
        let below = if w.random.percent(gaps) { w.random.below(slot) } else { slot - 1 };
        let parent = if below == 0 { w.ring.genesis } else { w.random.pick(&numbers.of_slot(below)) };
        chain.push((slot, number, below, parent));
        (slot, number) = (below, parent);
    }
    chain
}

fn make_final(w: &mut Writer, slot: u64, number: u64) {
    if w.random.percent(50) {
        push(w, Cert::FastFinal(number), slot);
    } else {
        push(w, Cert::Notar(number), slot);
        push(w, Cert::Final, slot);
    }
}
