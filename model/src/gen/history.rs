//! Histories: camps of nodes that vote by plan, slot after slot.

use super::noise;
use super::packets::take;
use super::ring::Ring;
use super::writer::Writer;
use crate::node::{first_of_window, is_first, Cert, LAST_SLOT, WINDOW};
use crate::random::Random;

/// What a camp does with its initial votes in a slot.
#[derive(Clone, Copy, PartialEq)]
pub enum Lean {
    /// Notar for one of the slot's four blocks.
    Block(usize),
    Skip,
    Nothing,
}

pub const M: Lean = Lean::Block(0);
pub const A: Lean = Lean::Block(1);
pub const B: Lean = Lean::Block(2);
pub const C: Lean = Lean::Block(3);
pub const S: Lean = Lean::Skip;
pub const N: Lean = Lean::Nothing;

/// Fifths of the stake; the first is the own node's camp. With these the
/// first block gets its certificate.
const SMOOTH: &[[Lean; 5]] = &[
    [M, M, M, M, M],
    [M, M, M, M, N],
    [M, M, M, N, N],
    [M, M, M, N, N],
    [M, M, M, S, S],
    [M, M, M, M, S],
    [M, M, M, A, A],
    [M, M, M, A, S],
];

/// Chosen to bring each rule to its threshold, alone and against the others.
const CONTESTED: &[[Lean; 5]] = &[
    [M, M, M, S, S],
    [M, M, M, A, A],
    [M, M, M, A, S],
    [M, M, A, A, S],
    [M, S, S, N, N],
    [M, S, S, S, N],
    [M, M, S, S, S],
    [M, S, A, N, N],
    [M, A, B, N, N],
    [M, A, A, S, S],
    [A, M, M, M, M],
    [A, M, M, M, N],
    [A, M, M, N, N],
    [A, M, M, B, B],
    [A, M, S, S, N],
    [A, M, B, S, S],
    [S, M, M, M, N],
    [S, M, M, M, M],
    [S, S, M, M, N],
    [S, S, M, A, B],
    [S, S, A, B, C],
    [S, S, A, B, C],
    [S, S, S, M, M],
    [S, S, S, S, S],
    [S, S, S, N, N],
    [N, M, M, M, N],
    [N, S, S, S, N],
    [N, M, M, S, S],
];

/// Votes after the initial ones.
#[derive(Clone, Copy)]
pub enum Second {
    Nothing,
    /// Those for the first block vote final.
    Finals,
    AllFinal,
    /// Those not for the first block fall back to it.
    FallBackToFirst,
    /// Those not for skip fall back to skip.
    FallBackToSkip,
    /// Everyone tries every block, which is one too many.
    FallBackToAll,
    Mixed,
}

pub const SECONDS: &[Second] = &[
    Second::Nothing,
    Second::Finals,
    Second::Finals,
    Second::AllFinal,
    Second::FallBackToFirst,
    Second::FallBackToFirst,
    Second::FallBackToSkip,
    Second::FallBackToSkip,
    Second::FallBackToAll,
    Second::Mixed,
];

enum Action {
    Vote { kind: u64, node: usize, slot: u64, block: u64 },
    Announce { slot: u64, number: u64 },
    Timeout { slot: u64 },
    Look,
}

/// The block numbers a script draws from.
#[derive(Clone)]
pub struct Numbers {
    fixed: Option<[u64; 4]>,
}

impl Numbers {
    pub fn any(random: &mut Random, genesis: u64) -> Numbers {
        let fixed = match random.below(5) {
            0 => Some([7, 8, 9, 10]),
            1 => Some([genesis, 21, 22, 23]),
            2 => Some([u64::MAX, u64::MAX - 1, 1 << 63, 1]),
            3 => Some([random.any_number() | 1, 128, 127, 1 << 32]),
            _ => None,
        };
        Numbers { fixed }
    }

    pub fn of_slot(&self, slot: u64) -> [u64; 4] {
        self.fixed.unwrap_or([10 * slot + 1, 10 * slot + 2, 10 * slot + 3, 10 * slot + 4])
    }
}

/// A history of as many windows as the script has room for.
pub fn history(w: &mut Writer) {
    let numbers = Numbers::any(&mut w.random, w.ring.genesis);
    let votes_a_slot = w.ring.others().len() * 3 / 2 + 3;
    let slots = (w.room() / votes_a_slot).clamp(1, LAST_SLOT as usize) as u64;
    let windows = (slots + WINDOW - 1) / WINDOW;
    let first_window = w.random.below(4 - windows + 1);
    let first = first_window * WINDOW + 1;
    if first > 1 {
        bring_parent(w, &numbers, first);
    }
    let actions = plan(w, &numbers, first, (first + slots - 1).min(LAST_SLOT));
    let noise_percent = w.random.pick(&[0, 2, 5, 15]);
    for action in actions {
        if w.full() {
            return;
        }
        act(w, &numbers, action);
        if w.random.percent(noise_percent) {
            noise::some(w, &numbers);
        }
    }
}

/// Votes of the other camps that make a parent ready for a later window,
/// sometimes in a slot far below, over skipped ones.
fn bring_parent(w: &mut Writer, numbers: &Numbers, first: u64) {
    let back = w.random.pick(&[1, 1, 2, 3]).min(first - 1);
    let parent_slot = first - back;
    let block = {
        let all = numbers.of_slot(parent_slot);
        w.random.pick(&all)
    };
    push(w, Cert::NotarFallback(block), parent_slot);
    for slot in parent_slot + 1..first {
        push(w, Cert::Skip, slot);
    }
}

fn plan(w: &mut Writer, numbers: &Numbers, first: u64, last: u64) -> Vec<Action> {
    let spread = w.random.pick(&[1, 60, 100, 300, 3000]);
    let absent_percent = w.random.pick(&[0, 0, 5, 15]);
    let known_percent = w.random.pick(&[0, 30, 80]);
    let mut timed: Vec<(u64, Action)> = Vec::new();
    let mut at = |random: &mut Random, slot: u64, late: u64, action: Action| {
        let time = (slot - first) * 100 + late + random.below(spread);
        timed.push((time, action));
    };
    let ring = w.ring.clone();
    let random = &mut w.random;
    at(random, first, 0, Action::Look);
    let mut smooth = 0;
    for slot in first..=last {
        if is_first(slot) {
            smooth = random.pick(&[0, 0, 80, 100]);
        }
        let blocks = some_order(random, numbers.of_slot(slot));
        let leans = some_leans(random, smooth);
        // Dissent that comes late finds an own final vote.
        let dissent = random.pick(&[20, 20, 55]) + random.below(2) * spread.min(40);
        match leans[0] {
            Lean::Block(i) => at(random, slot, 10, Action::Announce { slot, number: blocks[i] }),
            Lean::Skip => {
                let slot_named = random.range(first_of_window(slot), slot);
                at(random, slot, 40, Action::Timeout { slot: slot_named });
            }
            Lean::Nothing => {}
        }
        // Blocks that others vote for come to be known as well, sooner or later.
        for &number in &blocks {
            if random.percent(known_percent) {
                let late = random.range(5, 90);
                at(random, slot, late, Action::Announce { slot, number });
            }
        }
        let second = random.pick(SECONDS);
        for (camp, members) in ring.camps.iter().enumerate() {
            for &node in members.iter().filter(|&&node| !ring.is_own(node)) {
                let lean = if random.percent(absent_percent) { Lean::Nothing } else { leans[camp] };
                let (kind, block) = match lean {
                    Lean::Block(i) => (1, blocks[i]),
                    Lean::Skip => (3, 0),
                    Lean::Nothing => (0, 0),
                };
                let late = if lean == M { 20 } else { dissent };
                if kind != 0 {
                    at(random, slot, late, Action::Vote { kind, node, slot, block });
                }
                for (kind, block) in second_votes(random, second, lean, &blocks) {
                    at(random, slot, 70, Action::Vote { kind, node, slot, block });
                }
            }
        }
        if random.percent(20) {
            at(random, slot, 50, Action::Timeout { slot });
        }
    }
    timed.sort_by_key(|&(time, _)| time);
    timed.into_iter().map(|(_, action)| action).collect()
}

/// Which of the slot's blocks is the lowest must not follow its role.
pub fn some_order(random: &mut Random, mut blocks: [u64; 4]) -> [u64; 4] {
    random.shuffle(&mut blocks);
    blocks
}

pub fn some_leans(random: &mut Random, smooth: u64) -> [Lean; 5] {
    let mut leans = if random.percent(smooth) {
        random.pick(SMOOTH)
    } else if random.percent(90) {
        random.pick(CONTESTED)
    } else {
        [(); 5].map(|_| random.pick(&[M, M, A, B, C, S, S, N]))
    };
    random.shuffle(&mut leans[1..]);
    leans
}

pub fn second_votes(random: &mut Random, second: Second, lean: Lean, blocks: &[u64; 4]) -> Vec<(u64, u64)> {
    let for_first = lean == M;
    match second {
        Second::Nothing => vec![],
        Second::Finals if for_first => vec![(5, 0)],
        Second::Finals => vec![],
        Second::AllFinal => vec![(5, 0)],
        Second::FallBackToFirst if for_first => vec![],
        Second::FallBackToFirst => vec![(2, blocks[0])],
        Second::FallBackToSkip if lean == Lean::Skip => vec![],
        Second::FallBackToSkip => vec![(4, 0)],
        Second::FallBackToAll => {
            let most = random.range(1, 4) as usize;
            some_order(random, *blocks)[..most].iter().map(|&b| (2, b)).collect()
        }
        Second::Mixed => match random.below(5) {
            0 => vec![(2, random.pick(blocks))],
            1 => vec![(4, 0)],
            2 => vec![(5, 0)],
            3 => vec![(4, 0), (2, random.pick(blocks)), (5, 0)],
            _ => vec![],
        },
    }
}

fn act(w: &mut Writer, numbers: &Numbers, action: Action) {
    match action {
        Action::Vote { kind, node, slot, block } => w.vote(kind, node, slot, block),
        Action::Announce { slot, number } => announce(w, numbers, slot, number),
        Action::Timeout { slot } => {
            w.say(format!("timeout {slot}"));
        }
        Action::Look => {
            w.say("look");
        }
    }
}

/// A block whose parent is mostly the one that lets the node vote for it.
pub fn announce(w: &mut Writer, numbers: &Numbers, slot: u64, number: u64) {
    let (parent_slot, parent) =
        if w.random.percent(88) { sensible_parent(w, numbers, slot) } else { any_parent(w, numbers, slot) };
    w.say(format!("block {slot} {number} {parent_slot} {parent}"));
}

fn sensible_parent(w: &mut Writer, numbers: &Numbers, slot: u64) -> (u64, u64) {
    if is_first(slot) && w.random.percent(80) {
        let ready = w.node().ready_parents(slot);
        if !ready.is_empty() {
            return w.random.pick(&ready);
        }
    }
    // In a first slot the own block next door may not be ready yet.
    match own_block(w, slot - 1) {
        Some(parent) => (slot - 1, parent),
        None => any_parent(w, numbers, slot),
    }
}

/// The block that the own node stands by in a slot, or may come to.
fn own_block(w: &Writer, slot: u64) -> Option<u64> {
    if slot == 0 {
        return Some(w.ring.genesis);
    }
    let kept = w.node().kept_blocks(slot).first().map(|kept| kept.number);
    w.node().own_cell(slot).notar_block().or(kept)
}

/// Mostly a block with votes in a slot below, which may become ready later.
fn any_parent(w: &mut Writer, numbers: &Numbers, slot: u64) -> (u64, u64) {
    let parent_slot = if w.random.percent(60) { slot - 1 } else { w.random.below(slot) };
    if parent_slot == 0 {
        return (0, w.ring.genesis);
    }
    let named: Vec<u64> = w.node().named_blocks(parent_slot).into_iter().collect();
    if !named.is_empty() && w.random.percent(80) {
        return (parent_slot, w.random.pick(&named));
    }
    let all = numbers.of_slot(parent_slot);
    (parent_slot, w.random.pick(&all))
}

/// Votes of others in random order until they reach the certificate, or until
/// one vote short of it; or the certificate itself.
pub fn push(w: &mut Writer, cert: Cert, slot: u64) {
    if w.by_certificate() {
        take(w, cert, slot, 5);
    } else {
        push_votes(w, cert, slot);
    }
}

/// By votes alone, whatever is kept.
pub fn push_votes(w: &mut Writer, cert: Cert, slot: u64) {
    let one_short = w.random.percent(12);
    let fallbacks = if cert.allows_fallback_signers() { w.random.pick(&[0, 0, 50, 100]) } else { 0 };
    let mut others = w.ring.others();
    w.random.shuffle(&mut others);
    for node in others {
        if w.full() || w.node().reached_by_votes(slot, cert) {
            return;
        }
        let by_fallback = w.random.percent(fallbacks);
        let kind = match cert {
            Cert::FastFinal(_) | Cert::Notar(_) => 1,
            Cert::NotarFallback(_) => {
                if by_fallback {
                    2
                } else {
                    1
                }
            }
            Cert::Skip => {
                if by_fallback {
                    4
                } else {
                    3
                }
            }
            Cert::Final => 5,
        };
        if one_short && would_complete(w, node, slot, cert) {
            continue;
        }
        w.vote(kind, node, slot, cert.block());
    }
}

/// Whether the stake of that node would bring the certificate to be held.
fn would_complete(w: &Writer, node: usize, slot: u64, cert: Cert) -> bool {
    let (a, b) = w.node().signers(slot, cert);
    let mut signers = &a | &b;
    signers.insert(node);
    let table = w.node().stakes();
    table.reaches(table.weight(&signers), cert.threshold())
}

pub fn ring_for_history(random: &mut Random) -> Ring {
    match random.below(10) {
        0..=3 => {
            let nodes = random.pick(&[5, 5, 5, 6, 7, 8, 10, 15]);
            Ring::of_fifths(random, nodes)
        }
        4 => {
            let nodes = random.pick(&[20, 30, 40, 64]);
            Ring::of_fifths(random, nodes)
        }
        5 | 6 => Ring::any(random),
        _ => Ring::small(random),
    }
}
