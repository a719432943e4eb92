//! The certificate writer.

use super::layout::*;
use super::sound::{sound, Found};
use super::weights::names;

const MASK: usize = MOST_NODES / 64;

/// 17, 9, 4, 3, 5, 18; the number and how many bytes were written.
pub fn write_certificate(words: &[u64], buffer: &mut [u8], kind: u64, slot: u64, block: u64) -> (u64, usize) {
    let found = match sound(words) {
        Some(found) => found,
        None => return (17, 0),
    };
    let is_large = found.nodes > MOST_SMALL;
    if buffer.len() < if is_large { 768 } else { 32 } {
        return (9, 0);
    }
    let meaning = kind.wrapping_sub(if is_large { 10 } else { 0 });
    if !(1..=5).contains(&meaning) {
        return (4, 0);
    }
    if slot < 1 || slot > LAST_SLOT as u64 {
        return (3, 0);
    }
    if (meaning <= 3) != (block != 0) {
        return (5, 0);
    }
    let masks = mask_words(found.nodes);
    let (a, b, weight) = signers(words, found.nodes, meaning, slot as usize, block);
    if reaches(weight, if meaning == 1 { 4 } else { 3 }, words[TOTAL]) {
        return (0, put_numbers(buffer, [kind, slot, block].iter().chain(&a[..masks]).chain(&b[..masks])));
    }
    match kept(words, &found, meaning, slot as usize, block) {
        Some(masks) => (0, put_numbers(buffer, [kind, slot, block].iter().chain(masks))),
        None => (18, 0),
    }
}

/// Both masks of a kept certificate that does for the kind, its own kind before
/// 2 and 2 before 1.
fn kept<'a>(words: &'a [u64], found: &Found, meaning: u64, slot: usize, block: u64) -> Option<&'a [u64]> {
    let row = &words[STAKES + found.nodes + slot * row_words(found.nodes)..];
    let masks =
        |place: usize| &row[CERTIFICATES + place * place_words(found.nodes)..][1..place_words(found.nodes)];
    let has_block = |&place: &usize| certified(row, found.nodes, place) == block;
    let place = match meaning {
        1 => Some(PLACE_OF_1).filter(has_block),
        2 => [PLACE_OF_2, PLACE_OF_1].into_iter().find(has_block),
        3 => PLACES_OF_3.chain([PLACE_OF_2, PLACE_OF_1]).find(has_block),
        4 => (found.kept_4 >> slot & 1 == 1).then_some(PLACE_OF_4),
        _ => (found.kept_5 >> slot & 1 == 1).then_some(PLACE_OF_5),
    };
    place.map(masks)
}

/// Both masks, and what their nodes weigh.
fn signers(
    words: &[u64],
    nodes: usize,
    meaning: u64,
    slot: usize,
    block: u64,
) -> ([u64; MASK], [u64; MASK], u64) {
    let (head, rows) = words.split_at(STAKES + nodes);
    let cells = &rows[slot * row_words(nodes)..][cells_at(nodes)..row_words(nodes)];
    let (mut a, mut b, mut weight) = ([0; MASK], [0; MASK], 0);
    for (node, (words, stake)) in cells.chunks_exact(CELL).zip(&head[STAKES..]).enumerate() {
        let cell = cell(words);
        let (first, fallback) = match meaning {
            1 | 2 => (cell[NOTAR] == block, false),
            3 => (cell[NOTAR] == block, names(cell, block)),
            4 => (cell[SKIP] != 0, cell[SKIP_FALLBACK] != 0),
            _ => (cell[FINAL_VOTE] != 0, false),
        };
        let bit = 1 << (node % 64);
        if first {
            a[node / 64] |= bit;
            weight += stake;
        } else if fallback {
            b[node / 64] |= bit;
            weight += stake;
        }
    }
    (a, b, weight)
}

fn put_numbers<'a>(buffer: &mut [u8], numbers: impl Iterator<Item = &'a u64>) -> usize {
    let mut written = 0;
    for &number in numbers {
        written += put_number(&mut buffer[written..], number);
    }
    written
}

fn put_number(buffer: &mut [u8], mut number: u64) -> usize {
    let mut written = 0;
    while number > 0x7F {
        buffer[written] = number as u8 | 0x80;
        number >>= 7;
        written += 1;
    }
    buffer[written] = number as u8;
    written + 1
}
