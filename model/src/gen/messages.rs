//! Votes as bytes: written and read back, damaged, and with every fault.

use super::noise::FaultRate;
use super::packets::{damage, odd_form, packet_of, shortest};
use super::writer::Writer;
use crate::panel::show_hex;
use crate::random::Random;
use crate::stakes::MOST_NODES;

/// One vote after another to writer and reader.
pub fn messages(w: &mut Writer) {
    let faults = FaultRate(w.random.pick(&[0, 5, 15, 40]));
    while !w.full() {
        match w.random.below(4) {
            0 => any_bytes(w),
            1 => unpack_hand_made(w, &faults),
            _ => pack(w, &faults),
        }
    }
}

/// Written, and what was written read back whole and damaged.
fn pack(w: &mut Writer, faults: &FaultRate) {
    let count = some_count(&mut w.random, faults);
    let [kind, node, slot, block] = some_vote(&mut w.random, count, faults);
    let answer = w.say(format!("pack {count} {kind} {node} {slot} {block}"));
    let bytes = match packet_of(&answer) {
        Some(bytes) => bytes,
        None => return,
    };
    unpack(w, count, &bytes);
    while w.random.percent(40) {
        let damaged = damage(&mut w.random, &bytes);
        unpack(w, count, &damaged);
    }
    if w.random.percent(30) {
        let other = some_count(&mut w.random, &FaultRate(30));
        unpack(w, other, &bytes);
    }
}

/// Each number in its shortest form, or one of them not.
fn unpack_hand_made(w: &mut Writer, faults: &FaultRate) {
    let count = some_count(&mut w.random, faults);
    let vote = some_vote(&mut w.random, count, faults);
    let odd_one = if w.random.percent(30) { w.random.index(4) } else { 4 };
    let mut bytes = Vec::new();
    for (i, &number) in vote.iter().enumerate() {
        bytes.extend(if i == odd_one { odd_form(&mut w.random, number) } else { shortest(number) });
    }
    if w.random.percent(20) {
        let cut = w.random.index(bytes.len() + 1);
        bytes.truncate(cut);
    }
    if w.random.percent(20) {
        bytes.push(w.random.pick(&[0, 1, 0x80, 0xFF]));
    }
    unpack(w, count, &bytes);
}

fn any_bytes(w: &mut Writer) {
    let count = some_count(&mut w.random, &FaultRate(10));
    let length = w.random.below(10);
    let bytes: Vec<u8> = (0..length).map(|_| w.random.below(6) as u8).collect();
    unpack(w, count, &bytes);
}

fn unpack(w: &mut Writer, count: u64, bytes: &[u8]) {
    let hex = show_hex(bytes);
    let hex = if w.random.percent(15) { hex.to_lowercase() } else { hex };
    w.say(format!("unpack {count} {hex}"));
}

/// At both ends of what a table may have, and past them.
fn some_count(random: &mut Random, faults: &FaultRate) -> u64 {
    let most = MOST_NODES as u64;
    if faults.hits(random) {
        return random.pick(&[0, 0, most + 1, most + 1, 1 << 32 | 1, u64::MAX]);
    }
    let any = random.range(1, most);
    random.pick(&[1, 2, 3, most - 1, most, most, any])
}

/// Kind, node, slot, block, each wrong with that chance.
fn some_vote(random: &mut Random, count: u64, faults: &FaultRate) -> [u64; 4] {
    let kind = faults.or_bad_kind(random);
    let slot = faults.or_bad_slot(random);
    let node = if faults.hits(random) {
        random.pick(&[count, count, count.saturating_add(1), 64, 127, 128, 1 << 32, u64::MAX])
    } else {
        random.pick(&[0, count / 2, count.saturating_sub(1)])
    };
    let right = if kind <= 2 { some_block(random) } else { 0 };
    [kind, node, slot, faults.or_wrong_block(random, right)]
}

/// On both sides of every length in bytes.
fn some_block(random: &mut Random) -> u64 {
    let edge = 1u64 << (7 * random.range(0, 9));
    match random.below(5) {
        0 => (edge - 1).max(1),
        1 => edge,
        2 => edge + 1,
        3 => random.pick(&[u64::MAX, u64::MAX - 1, u64::MAX >> 1]),
        _ => random.any_number().max(1),
    }
}
