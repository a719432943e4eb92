//! The rings whose cost is measured: stakes, the votes and certificates that
//! stand in the record, and the votes that are given to it. In some of them
//! liars vote so that a node has most to do, in their own names alone.

use crate::node::{Vote, LAST_SLOT};
use crate::random::Random;

pub const BLOCK: u64 = 100;
pub const FALLBACK: u64 = 20;
/// As many votes are given to a record, but for a ring's whole life.
const VOTES: usize = 500;
/// The last slots of all windows but the last: rule A asks what is held there.
const PARENTS: [u64; 3] = [4, 8, 12];

pub type Stored = (u64, usize, Vote);

pub struct Ring {
    pub stakes: Vec<u64>,
    /// Sixteen blocks, each the parent of the next, are announced first.
    pub has_chain: bool,
    pub stored: Vec<Stored>,
    /// Every place for certificates is taken.
    pub has_certificates: bool,
    /// The own node's time is out in every slot.
    pub is_late: bool,
    pub given: Vec<[u64; 4]>,
}

/// None where there is no ring of that name.
pub fn ring(name: &str, nodes: usize) -> Option<Ring> {
    let full = |blocks, lowest, fallback| {
        plain(nodes, full(nodes, blocks, lowest, fallback), |node, slot| [2, node, slot, 22])
    };
    let scattered = |stakes, liars: Vec<usize>, numbers| {
        let stored = everywhere(&liars).map(|(slot, node)| (slot, node, Vote::Notar(0))).collect();
        Ring {
            stored: renumbered(stored, numbers),
            ..plain_with(stakes, Vec::new(), |node, slot| [5, node, slot, 0])
        }
    };
    let others = || (1..nodes).collect();
    let ring = match name {
        "empty" => plain(nodes, Vec::new(), |node, slot| [1, node, slot, BLOCK + node % 5]),
        "one" => full(1, BLOCK, FALLBACK),
        "five" => full(5, BLOCK, FALLBACK),
        "each" => full(nodes, BLOCK, FALLBACK),
        "other" => full(5, 5100, FALLBACK + 5000),
        "kept" => Ring { has_certificates: true, ..full(5, BLOCK, FALLBACK) },
        "voted" => {
            let two = |(slot, node)| [(slot, node, Vote::Notar(chained(slot))), (slot, node, Vote::Final)];
            let stored = everywhere(&(1..nodes).collect::<Vec<_>>()).flat_map(two).collect();
            Ring { has_chain: true, ..plain(nodes, stored, |node, slot| [2, node, slot, 22]) }
        }
        "random" => scattered(vec![1; nodes], under_a_fifth(nodes), Numbers::Random),
        "bits" => scattered(vec![1; nodes], under_a_fifth(nodes), Numbers::EqualBits),
        "places" => scattered(vec![1; nodes], under_a_fifth(nodes), Numbers::EqualPlaces),
        "firms" => scattered(firms(nodes), small_firms(nodes), Numbers::Random),
        "all" => scattered(vec![1; nodes], others(), Numbers::Random),
        "allbits" => scattered(vec![1; nodes], others(), Numbers::EqualBits),
        "names" => naming(vec![1; nodes], under_a_fifth(nodes)),
        "namefirms" => naming(firms(nodes), small_firms(nodes)),
        "skipped" => skipped(nodes),
        "thirds" => thirds(nodes),
        "mixed" => mixed(nodes, nodes / 2 - 1),
        "mixedall" => mixed(nodes, nodes - 1),
        "life" => life(nodes, &[]),
        "liars" => life(nodes, &under_a_fifth(nodes)),
        _ => return None,
    };
    Some(ring)
}

// ---- who ----

/// As many nodes, the last ones, as have less than a fifth of the stake.
fn under_a_fifth(nodes: usize) -> Vec<usize> {
    (nodes - (nodes - 1) / 5..nodes).collect()
}

/// A sixteenth of the nodes, and the own, have more than four fifths of the stake.
fn heavy_firms(nodes: usize) -> usize {
    nodes / 16 + 1
}

fn small_firms(nodes: usize) -> Vec<usize> {
    (heavy_firms(nodes)..nodes).collect()
}

fn firms(nodes: usize) -> Vec<u64> {
    let heavy = heavy_firms(nodes);
    let stake = 4 * (nodes - heavy) / heavy + 1;
    (0..nodes).map(|node| if node < heavy { stake as u64 } else { 1 }).collect()
}

/// The nodes from one on that together reach so many fifths.
fn reaching(stakes: &[u64], from: usize, fifths: u64) -> Vec<usize> {
    let total: u64 = stakes.iter().sum();
    let mut weight = 0;
    let is_short = |node: &usize| {
        let is_short = 5 * weight < fifths * total;
        weight += stakes[*node];
        is_short
    };
    (from..stakes.len()).take_while(is_short).collect()
}

// ---- which blocks ----

/// The block of a slot in a ring that goes on, one block behind the other.
pub fn chained(slot: u64) -> u64 {
    BLOCK + slot
}

/// Liars' block numbers, all different.
#[derive(Clone, Copy)]
enum Numbers {
    Random,
    /// Equal in their last bits.
    EqualBits,
    /// Chosen to fall on one place of the tuned version's table.
    EqualPlaces,
}

/// Every notar vote and notar-fallback for a block of its own.
fn renumbered(votes: Vec<Stored>, numbers: Numbers) -> Vec<Stored> {
    let mut random = Random::new(41);
    let mut next = || match numbers {
        Numbers::Random => random.next() | 1 << 63,
        Numbers::EqualBits => random.next() << 24 | 1 << 63 | 1,
        Numbers::EqualPlaces => crate::tuned::on_one_place(random.next()),
    };
    let mut another = |vote| match vote {
        Vote::Notar(_) => Vote::Notar(next()),
        Vote::NotarFallback(_) => Vote::NotarFallback(next()),
        other => other,
    };
    votes.into_iter().map(|(slot, node, vote)| (slot, node, another(vote))).collect()
}

// ---- rings ----

fn everywhere(nodes: &[usize]) -> impl Iterator<Item = (u64, usize)> + '_ {
    (1..=LAST_SLOT).flat_map(move |slot| nodes.iter().map(move |&node| (slot, node)))
}

fn plain(nodes: usize, stored: Vec<Stored>, vote: impl Fn(u64, u64) -> [u64; 4]) -> Ring {
    plain_with(vec![1; nodes], stored, vote)
}

/// The votes that are given come in every slot in turn, node after node.
fn plain_with(stakes: Vec<u64>, stored: Vec<Stored>, vote: impl Fn(u64, u64) -> [u64; 4]) -> Ring {
    let (slots, others) = (LAST_SLOT as usize, stakes.len() - 1);
    let given = (0..VOTES).map(|i| vote((1 + i / slots % others) as u64, (1 + i % slots) as u64)).collect();
    Ring { stakes, has_chain: false, stored, has_certificates: false, is_late: false, given }
}

/// An initial vote for one of so many blocks in turn, two notar-fallbacks and a
/// final of every node but the own.
fn full(nodes: usize, blocks: usize, lowest: u64, fallback: u64) -> Vec<Stored> {
    let four = |(slot, node)| {
        let initial = Vote::Notar(lowest + (node % blocks) as u64);
        let votes = [initial, Vote::NotarFallback(fallback), Vote::NotarFallback(fallback + 1), Vote::Final];
        votes.map(|vote| (slot, node, vote))
    };
    everywhere(&(1..nodes).collect::<Vec<_>>()).flat_map(four).collect()
}

fn four_names((slot, node): (u64, usize)) -> [Stored; 4] {
    let votes = [Vote::Notar(0), Vote::NotarFallback(0), Vote::NotarFallback(0), Vote::NotarFallback(0)];
    votes.map(|vote| (slot, node, vote))
}

/// Rule A: in the slots before windows half of the stake names one block, and
/// each liar four others. Votes for blocks of the other slots are given.
fn naming(stakes: Vec<u64>, liars: Vec<usize>) -> Ring {
    let before = |&(slot, _): &(u64, usize)| PARENTS.contains(&slot);
    let names = everywhere(&liars).filter(before).flat_map(four_names).collect();
    let mut stored = renumbered(names, Numbers::Random);
    let half = &reaching(&stakes, 1, 3);
    let honest = &half[..half.len() * 5 / 6];
    stored.extend(
        everywhere(honest).filter(before).map(|(slot, node)| (slot, node, Vote::Notar(chained(slot)))),
    );
    let slots: Vec<u64> = (1..=LAST_SLOT).filter(|slot| !PARENTS.contains(slot)).collect();
    let vote = |i: usize| {
        let slot = slots[i % slots.len()];
        [1, (1 + i / slots.len() % (stakes.len() - 1)) as u64, slot, chained(slot)]
    };
    Ring { given: (0..VOTES).map(vote).collect(), stored, ..plain_with(stakes, Vec::new(), |_, _| [0; 4]) }
}

/// Rule D: in every slot two fifths vote for one block and then for skip, one
/// fifth skips, the own node too, and each liar votes for another block. Skips of
/// those who are left are given.
fn skipped(nodes: usize) -> Ring {
    let (stakes, liars) = (vec![1; nodes], under_a_fifth(nodes));
    let leading = reaching(&stakes, 1, 2);
    let skipping = reaching(&stakes, leading.len() + 1, 1);
    let mut stored = renumbered(
        everywhere(&liars).map(|(slot, node)| (slot, node, Vote::Notar(0))).collect(),
        Numbers::Random,
    );
    let two = |(slot, node)| [(slot, node, Vote::Notar(chained(slot))), (slot, node, Vote::SkipFallback)];
    stored.extend(everywhere(&leading).flat_map(two));
    stored.extend(everywhere(&skipping).map(|(slot, node)| (slot, node, Vote::Skip)));
    let (first, count) =
        (leading.len() + skipping.len() + 1, nodes - leading.len() - skipping.len() - 1 - liars.len());
    let skip = move |node: u64, slot| [3, (first + (node as usize - 1) % count.max(1)) as u64, slot, 0];
    Ring { stored, is_late: true, ..plain_with(stakes, Vec::new(), skip) }
}

/// Rule D: in every slot three blocks have a fifth each, whose voters vote for
/// skip then, and all others skip, the own node too: it falls back to all three
/// where it may. Finals are given.
fn thirds(nodes: usize) -> Ring {
    let mut stakes = vec![1; nodes];
    let fifth = (nodes + 4) / 5;
    stakes[nodes - 1] += (5 * fifth - nodes) as u64;
    let mut stored = Vec::new();
    for (node, block) in (1..nodes).zip((0..nodes).map(|at| (at / fifth) as u64)) {
        for slot in 1..=LAST_SLOT {
            match block {
                0..=2 => stored.extend([
                    (slot, node, Vote::Notar(chained(slot) + 100 * block)),
                    (slot, node, Vote::SkipFallback),
                ]),
                _ => stored.push((slot, node, Vote::Skip)),
            }
        }
    }
    Ring { stored, is_late: true, ..plain_with(stakes, Vec::new(), |node, slot| [5, node, slot, 0]) }
}

/// All at once: the own node has skipped, every place for certificates is taken,
/// two fifths or as many as are left vote for one block, and so many liars name
/// four blocks each, whose numbers are equal in their last bits.
fn mixed(nodes: usize, liars: usize) -> Ring {
    let stakes = vec![1; nodes];
    let liars: Vec<usize> = (nodes - liars..nodes).collect();
    let mut stored = renumbered(everywhere(&liars).flat_map(four_names).collect(), Numbers::EqualBits);
    let leading: Vec<usize> =
        reaching(&stakes, 1, 2).into_iter().filter(|node| !liars.contains(node)).collect();
    stored.extend(everywhere(&leading).map(|(slot, node)| (slot, node, Vote::Notar(chained(slot)))));
    Ring {
        stored,
        is_late: true,
        has_certificates: true,
        ..plain_with(stakes, Vec::new(), |node, slot| [5, node, slot, 0])
    }
}

/// A whole life: all other nodes vote for every slot's block and then for its
/// finality, slot after slot. Liars, who do not, have each named another block in
/// every slot before, and three more before windows.
fn life(nodes: usize, liars: &[usize]) -> Ring {
    let four =
        |at: (u64, usize)| four_names(at).into_iter().take(if PARENTS.contains(&at.0) { 4 } else { 1 });
    let mut votes = renumbered(everywhere(liars).flat_map(four).collect(), Numbers::Random);
    let honest: Vec<usize> = (1..nodes - liars.len()).collect();
    for slot in 1..=LAST_SLOT {
        votes.extend(honest.iter().map(|&node| (slot, node, Vote::Notar(chained(slot)))));
        votes.extend(honest.iter().map(|&node| (slot, node, Vote::Final)));
    }
    let given =
        votes.into_iter().map(|(slot, node, vote)| [vote.kind(), node as u64, slot, vote.block()]).collect();
    Ring { has_chain: true, given, ..plain(nodes, Vec::new(), |_, _| [0; 4]) }
}

/// As many certificates as a slot has places for, meaning and block.
pub fn certificates() -> Vec<(u64, u64)> {
    let one_each = [(1, BLOCK), (2, BLOCK), (4, 0), (5, 0)];
    one_each.into_iter().chain((0..9).map(|place| (3, FALLBACK + place))).collect()
}
