//! One operation on a ring, for its cost: what `rings.c` does through the
//! product's C face, done by the model and by the tuned version. The model's
//! node is no lent memory, so it has no test of a record.

use crate::node::{Node, LAST_SLOT};
use crate::packet;
use crate::rings::{certificates, chained, ring, Ring, FALLBACK};
use crate::tuned;
use std::hint::black_box;

const HEAVY: u64 = 1_000_000;

/// A time is the least of so many batches, each at least so long; fewer where
/// they take longer than all of them should.
const BATCHES: usize = 15;
const LEAST_BATCHES: usize = 3;
const BATCH_SECONDS: f64 = 0.01;
const SECONDS: f64 = 2.0;

pub struct Task {
    pub nodes: usize,
    pub record: String,
    pub operation: String,
    pub rounds: Rounds,
}

/// Exactly so many rounds; or as many as a time takes, which is printed in
/// nanoseconds a round.
pub enum Rounds {
    Exactly(u64),
    Timed,
}

impl Rounds {
    pub fn parse(word: &str) -> Option<Rounds> {
        match word {
            "time" => Some(Rounds::Timed),
            number => number.parse().ok().map(Rounds::Exactly),
        }
    }
}

// ---- rounds ----

/// Runs a batch of rounds, which answers its seconds, or None where the operation fails.
fn repeat(rounds: &Rounds, mut batch: impl FnMut(u64) -> Option<f64>) -> Option<()> {
    match *rounds {
        Rounds::Exactly(count) => batch(count).map(|_| ()),
        Rounds::Timed => {
            let mut count = 1;
            while batch(count)? < BATCH_SECONDS {
                count *= 2;
            }
            let (begun, mut least) = (now(), f64::INFINITY);
            for done in 0..BATCHES {
                if done >= LEAST_BATCHES && now() - begun > SECONDS {
                    break;
                }
                least = least.min(batch(count)?);
            }
            println!("{:.1}", least / count as f64 * 1e9);
            Some(())
        }
    }
}

/// Seconds of so many rounds.
fn seconds(count: u64, mut round: impl FnMut(usize) -> bool) -> Option<f64> {
    let begun = now();
    for at in 0..count as usize {
        black_box(round(at)).then_some(())?;
    }
    Some(now() - begun)
}

/// Seconds of processor time that this program has taken, which others who run
/// beside it do not lengthen.
fn now() -> f64 {
    extern "C" {
        fn clock_gettime(clock: i32, time: *mut [i64; 2]) -> i32;
    }
    const PROCESS: i32 = 2;
    let mut time = [0; 2];
    // SAFETY: the C library's own function, and on every 64-bit Linux its time is two such words.
    unsafe { clock_gettime(PROCESS, &mut time) };
    time[0] as f64 + time[1] as f64 / 1e9
}

// ---- what is worked on ----

/// Stakes, a certificate and whether it is accepted. `check3` and `check64` are
/// signed by so many nodes, or all where there are fewer, that have nearly all
/// of the stake; `light` by three nodes, in a ring of three by one, that have
/// too little; `check` is the packet that is handed over.
fn certificate(task: &Task, written: Vec<u8>) -> (Vec<u64>, Vec<u8>, bool) {
    let (signers, stake, accepted) = match task.operation.as_str() {
        "check3" => (3, HEAVY, true),
        "check64" => (64.min(task.nodes), HEAVY, true),
        "light" => (if task.nodes > 3 { 3 } else { 1 }, 1, false),
        _ => return (vec![1; task.nodes], written, true),
    };
    let stakes = (0..task.nodes).map(|node| if node < signers { stake } else { 1 }).collect();
    let (kind, mask_words) = if task.nodes > 64 { (12, 32) } else { (2, 1) };
    let mut numbers = vec![0; 3 + 2 * mask_words];
    numbers[..4].copy_from_slice(&[kind, 1, 7, u64::MAX >> (64 - signers)]);
    let mut packet = Vec::new();
    numbers.into_iter().for_each(|number| packet::put_number(&mut packet, number));
    (stakes, packet, accepted)
}

// ---- the model ----

/// None when the operation is refused or there is none of that name. Records
/// with certificates or blocks are not made here: the model takes them one by one.
pub fn by_model(task: &Task) -> Option<()> {
    let Ring { stakes, stored, has_chain, has_certificates, is_late, given } =
        ring(&task.record, task.nodes)?;
    (!has_chain && !has_certificates && !is_late).then_some(())?;
    let mut node = Node::start(0, 1, &stakes).ok()?.with_votes(stored);
    node.look();
    let kind = node.stakes().family().kinds_after() + 3;
    let written = packet::write_cert(&node, kind, LAST_SLOT, FALLBACK).unwrap_or_default();
    let (stakes, packet, accepted) = certificate(task, written);
    let votes = given.concat();
    let operation = task.operation.as_str();
    let operate = |node: &mut Node| match operation {
        "look" => node.look().is_empty(),
        "vote" => node.vote(votes[0], votes[1], votes[2], votes[3]).is_ok(),
        "tray" => node.tray(&votes).is_ok(),
        "take" => node.take(&packet).is_ok(),
        "write" => packet::write_cert(node, kind, LAST_SLOT, FALLBACK).is_ok(),
        "check" | "check3" | "check64" | "light" => {
            black_box(packet::check(black_box(&packet), &stakes)).is_ok() == accepted
        }
        _ => false,
    };
    let changes = matches!(operation, "vote" | "tray" | "take");
    repeat(&task.rounds, |count| {
        // Copies are made before the time is taken.
        let mut copies = vec![node.clone(); if changes { count.max(1) as usize } else { 1 }];
        seconds(count, |at| operate(&mut copies[if changes { at } else { 0 }]))
    })
}

// ---- the tuned version ----

struct Lent {
    words: Vec<u64>,
    outbox: Vec<u64>,
    answers: Vec<u64>,
    buffer: Vec<u8>,
    kept: Vec<u64>,
    is_dirty: bool,
    /// The words that the operation changes, once it is known.
    changed: Option<Vec<usize>>,
}

impl Lent {
    /// Puts back what the operation changed, and no more, so that the rest of
    /// the record stays where a host's would stay, near.
    fn renew(&mut self) {
        if !self.is_dirty {
            return;
        }
        let (words, kept) = (&mut self.words, &self.kept);
        let find = || (0..words.len()).filter(|&at| words[at] != kept[at]).collect();
        let changed = self.changed.get_or_insert_with(find);
        for &at in changed.iter() {
            words[at] = kept[at];
        }
    }
}

/// The words of the record, with what the rules make of it.
pub fn record(ring: &Ring) -> Option<Vec<u64>> {
    let mut words = vec![0; tuned::record_words(ring.stakes.len())];
    let mut outbox = [0; tuned::OUTBOX_WORDS];
    (tuned::start(&mut words, &ring.stakes, 0, 1) == 0).then_some(())?;
    if ring.has_chain {
        for slot in 1..=LAST_SLOT {
            let parent = if slot == 1 { 1 } else { chained(slot - 1) };
            let block = [slot, chained(slot), slot - 1, parent];
            (tuned::block(&mut words, &mut outbox, block).0 == 0).then_some(())?;
        }
    }
    for &(slot, node, vote) in &ring.stored {
        tuned::store_vote(&mut words, vote.kind(), node, slot as usize, vote.block());
    }
    if ring.has_certificates {
        for slot in 1..=LAST_SLOT as usize {
            for (meaning, block) in certificates() {
                tuned::store_certificate(&mut words, meaning, slot, block);
            }
        }
    }
    (tuned::look(&mut words, &mut outbox).0 == 0).then_some(())?;
    if ring.is_late {
        for slot in 1..=LAST_SLOT {
            (tuned::timeout(&mut words, &mut outbox, slot).0 == 0).then_some(())?;
        }
    }
    Some(words)
}

/// Gives all votes in trays of so many, or one by one.
fn live(words: &mut [u64], outbox: &mut [u64], votes: &[u64], most: usize, answers: &mut [u64]) -> bool {
    votes.chunks(4 * most).all(|votes| match *votes {
        [kind, node, slot, block] => tuned::vote(words, outbox, [kind, node, slot, block]).0 == 0,
        _ => tuned::tray(words, outbox, votes, answers).0 == 0,
    })
}

/// None when the operation is refused or there is none of that name.
pub fn by_tuned(task: &Task) -> Option<()> {
    let ring = ring(&task.record, task.nodes)?;
    let words = record(&ring)?;
    let kind = if task.nodes > 64 { 13 } else { 3 };
    let mut buffer = vec![0; 768];
    let length = tuned::write_certificate(&words, &mut buffer, kind, LAST_SLOT, FALLBACK).1;
    let written = buffer[..length].to_vec();
    let (stakes, packet, accepted) = certificate(task, written);
    let votes = ring.given.concat();
    let first = ring.given[0];
    let (outbox, answers) = (vec![0; tuned::OUTBOX_WORDS], vec![0; ring.given.len()]);
    let mut lent =
        Lent { kept: words.clone(), words, outbox, answers, buffer, is_dirty: false, changed: None };
    let (operation, asks_every_slot) = match task.operation.strip_suffix("-every") {
        Some(operation) => (operation, true),
        None => (task.operation.as_str(), false),
    };
    tuned::ASKS_EVERY_SLOT.store(asks_every_slot, std::sync::atomic::Ordering::Relaxed);
    let most = operation.strip_prefix("life").and_then(|most| most.parse().ok()).filter(|&most| most > 0);
    let changes = most.is_some() || matches!(operation, "vote" | "tray" | "take");
    let operate = |Lent { words, outbox, answers, buffer, .. }: &mut Lent| match operation {
        "test" => tuned::vote(words, outbox, [9, 1, 1, 7]).0 == 4,
        "look" => tuned::look(words, outbox).0 == 0,
        "vote" => tuned::vote(words, outbox, first).0 == 0,
        "tray" => tuned::tray(words, outbox, &votes, answers).0 == 0,
        "take" => tuned::take_certificate(words, outbox, &packet).0 == 0,
        "write" => tuned::write_certificate(words, buffer, kind, LAST_SLOT, FALLBACK).0 == 0,
        "check" | "check3" | "check64" | "light" => {
            (black_box(tuned::check_certificate(&stakes, black_box(&packet))).0 == 0) == accepted
        }
        _ => most.map_or(false, |most| live(words, outbox, &votes, most, answers)),
    };
    repeat(&task.rounds, |count| {
        seconds(count, |_| {
            lent.renew();
            lent.is_dirty = changes;
            operate(&mut lent)
        })
    })
}
