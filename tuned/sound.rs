//! The test of a record, refusal 17.

use super::card::Card;
use super::checker::{judge, Table};
use super::layout::*;
use super::weights::{notar_of, Blocks};

/// What the test found on the way.
#[derive(Clone, Copy)]
pub struct Found {
    pub nodes: usize,
    /// Bit s: a certificate of kind 4, or one of kind 5, is kept for slot s.
    pub kept_4: u32,
    pub kept_5: u32,
    /// Of each slot, the weight of all notar votes and that of the nodes that name
    /// a block, by notar or notar-fallback.
    pub notar: [u64; LAST_SLOT + 1],
    pub naming: [u64; LAST_SLOT + 1],
}

impl Found {
    pub fn nothing(nodes: usize) -> Found {
        let none = [0; LAST_SLOT + 1];
        Found { nodes, kept_4: 0, kept_5: 0, notar: none, naming: none }
    }
}

/// None is 17.
pub fn sound(words: &[u64]) -> Option<Found> {
    match nodes_of(words.len())? {
        nodes @ 0..=8 => rows_fit::<16>(words, nodes),
        nodes @ 9..=64 => rows_fit::<128>(words, nodes),
        nodes => rows_fit::<4096>(words, nodes),
    }
}

/// One table of blocks for all rows, made where one asks for it.
fn rows_fit<const PLACES: usize>(words: &[u64], nodes: usize) -> Option<Found> {
    let (head, rows) = words.split_at(STAKES + nodes);
    if !head_fits(head, nodes) {
        return None;
    }
    let mut found = Found::nothing(nodes);
    let mut blocks = None::<Blocks<PLACES>>;
    for (slot, row) in rows.chunks_exact(row_words(nodes)).enumerate() {
        if is_blank(row) {
            continue;
        }
        if slot == 0 {
            return None;
        }
        let (used, sums) = row_fits(slot, row, head, &mut blocks)?;
        found.notar[slot] = sums.notar;
        found.naming[slot] = sums.naming();
        found.kept_4 |= (used >> PLACE_OF_4 & 1) << slot;
        found.kept_5 |= (used >> PLACE_OF_5 & 1) << slot;
    }
    Some(found)
}

/// Or-ing a few words at a time, so that a row with votes is left at its front.
fn is_blank(words: &[u64]) -> bool {
    let parts = words.chunks_exact(32);
    let or = |part: &[u64]| part.iter().fold(0, |all, word| all | word);
    let rest = or(parts.remainder());
    rest == 0 && parts.into_iter().all(|part| or(part) == 0)
}

fn head_fits(head: &[u64], nodes: usize) -> bool {
    head[COUNT] == nodes as u64
        && head[OWN] < nodes as u64
        && head[GENESIS] != 0
        && head[ARMED..ARMED + WINDOWS].iter().all(|&flag| flag <= 1)
        && total_of(&head[STAKES..]) == Some(head[TOTAL])
}

/// The places with certificates, a bit each, and what was summed; None is 17.
fn row_fits<const PLACES: usize>(
    slot: usize,
    row: &[u64],
    head: &[u64],
    blocks: &mut Option<Blocks<PLACES>>,
) -> Option<(u32, Sums)> {
    let (row_head, cells) = row.split_at(cells_at(head.len() - STAKES));
    let fits = row_head[TIMED_OUT] <= 1
        && row_head[CLASH] <= 1
        && blocks_fit(slot, &row_head[..BLOCKS], head[GENESIS]);
    let sums = votes_fit(&Card::of(row_head), cells, head, blocks).filter(|_| fits)?;
    Some((certificates_fit(slot, row_head, head)?, sums))
}

/// Each accepted by the checker; those of kind 3 from the front, no block twice.
fn certificates_fit(slot: usize, row_head: &[u64], head: &[u64]) -> Option<u32> {
    if is_blank(&row_head[CERTIFICATES..]) {
        return Some(0);
    }
    let nodes = head.len() - STAKES;
    let table = Table { stakes: &head[STAKES..], total: head[TOTAL] };
    let mut used = 0;
    for (place, words) in certificates(row_head, nodes).enumerate() {
        let (block, masks) = (words[0], &words[1..]);
        if is_blank(masks) {
            if block != 0 {
                return None;
            }
            continue;
        }
        let (a, b) = masks.split_at(mask_words(nodes));
        judge(&table, kind_at(place, nodes), slot as u64, block, a, b).ok()?;
        used |= 1 << place;
    }
    let of_3 = used >> PLACES_OF_3.start;
    let blocks = PLACES_OF_3.map(|place| certified(row_head, nodes, place));
    (of_3 & (of_3 + 1) == 0 && no_block_twice(blocks)).then_some(used)
}

fn no_block_twice(blocks: impl Iterator<Item = u64> + Clone) -> bool {
    let kept = blocks.take_while(|&block| block != 0);
    kept.clone().enumerate().all(|(place, block)| kept.clone().take(place).all(|earlier| earlier != block))
}

/// The packet's kind of the certificates in a place.
fn kind_at(place: usize, nodes: usize) -> u64 {
    let meaning = [1, 2, 4, 5].get(place).copied().unwrap_or(3);
    meaning + if nodes > MOST_SMALL { 10 } else { 0 }
}

/// Filled from the front, no number twice, each with a parent that 5 and 11 let
/// pass.
fn blocks_fit(slot: usize, blocks: &[u64], genesis: u64) -> bool {
    let used = blocks.chunks_exact(BLOCK).take_while(|block| block[0] != 0).count();
    let (kept, free) = blocks.split_at(used * BLOCK);
    free.iter().fold(0, |all, word| all | word) == 0
        && kept.chunks_exact(BLOCK).enumerate().all(|(place, block)| {
            let &[number, parent_slot, parent] = <&[u64; BLOCK]>::try_from(block).expect("three words");
            parent != 0
                && parent_slot < slot as u64
                && (parent_slot != 0 || parent == genesis)
                && kept.chunks_exact(BLOCK).take(place).all(|earlier| earlier[0] != number)
        })
}

fn cell_fits(cell: &Cell) -> bool {
    let &[notar, skip, first, second, third, skip_fallback, final_vote] = cell;
    (skip | skip_fallback | final_vote) <= 1
        && (notar == 0 || skip == 0)
        && (second == 0 || (first != 0 && second != first))
        && (third == 0 || (second != 0 && third != second && third != first))
}

/// Every cell, the card by a recount, and own fallbacks; None is 17.
fn votes_fit<const PLACES: usize>(
    card: &Card,
    cells: &[u64],
    head: &[u64],
    blocks: &mut Option<Blocks<PLACES>>,
) -> Option<Sums> {
    let (stakes, total) = (&head[STAKES..], head[TOTAL]);
    let sums = sum(cells, stakes, card.leader).filter(|sums| sums.agree(card))?;
    if !sums.has_majority() {
        let blocks = blocks.get_or_insert_with(Blocks::new);
        if blocks.has_rival(cells, stakes, card.leader, card.weight) {
            return None;
        }
    }
    let backs = |&block: &u64| {
        let weight = || if block == card.leader { card.weight } else { notar_of(block, cells, stakes) };
        block == 0 || card.backs(weight(), total)
    };
    let own = cell(&cells[CELL * head[OWN] as usize..][..CELL]);
    own[FALLBACKS].iter().all(backs).then_some(sums)
}

/// What the votes of a slot weigh, in one pass; the card's own block is weighed
/// in it.
#[derive(Default)]
struct Sums {
    skip: u64,
    final_votes: u64,
    skip_certificate: u64,
    notar: u64,
    leader: u64,
    /// Of the nodes that name a block by notar-fallback alone.
    falling_back: u64,
}

/// None where a cell is out of range. Most have no skip, no skip-fallback and no
/// third fallback.
fn sum(cells: &[u64], stakes: &[u64], leader: u64) -> Option<Sums> {
    let mut sums = Sums::default();
    for (words, &stake) in cells.chunks_exact(CELL).zip(stakes) {
        let cell = cell(words);
        let &[notar, skip, first, second, third, skip_fallback, final_vote] = cell;
        if skip | third | skip_fallback != 0 {
            if !cell_fits(cell) {
                return None;
            }
            // Flags are 0 or 1.
            sums.skip += stake * skip;
            sums.skip_certificate += stake * (skip | skip_fallback);
        } else if second != 0 && (first == 0 || second == first) {
            return None;
        }
        if final_vote > 1 {
            return None;
        }
        sums.final_votes += stake * final_vote;
        if notar != 0 {
            sums.notar += stake;
            sums.leader += if notar == leader { stake } else { 0 };
        } else if first != 0 {
            sums.falling_back += stake;
        }
    }
    Some(sums)
}

impl Sums {
    /// All but that no other block leads.
    fn agree(&self, card: &Card) -> bool {
        let Sums { skip, final_votes, skip_certificate, leader: weight, .. } = *self;
        *card == Card { skip, final_votes, skip_certificate, leader: card.leader, weight }
            && (card.leader == 0) == (self.notar == 0)
    }

    /// No other block can lead, or there is none.
    fn has_majority(&self) -> bool {
        2 * self.leader > self.notar || self.notar == 0
    }

    fn naming(&self) -> u64 {
        self.notar + self.falling_back
    }
}
