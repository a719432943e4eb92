//! Where everything stands in a record's words: a head with the stakes, then a
//! row for each slot from 0, with four places for blocks, three words of its
//! own, a tally card, thirteen places for certificates and a cell for each node.

pub const COUNT: usize = 0;
pub const TOTAL: usize = 1;
pub const OWN: usize = 2;
pub const GENESIS: usize = 3;
/// One flag for each window.
pub const ARMED: usize = 4;
pub const WINDOWS: usize = 4;
pub const STAKES: usize = 8;

pub const LAST_SLOT: usize = 16;
pub const WINDOW: usize = 4;

/// A place for a block is its number, its parent's slot and its parent.
pub const BLOCK: usize = 3;
pub const BLOCKS: usize = 4 * BLOCK;
pub const TIMED_OUT: usize = 12;
pub const FINAL: usize = 13;
/// The mark of another final block.
pub const CLASH: usize = 14;
/// A card is the weights of skip, of final and of the skip certificate, the
/// leading notar block and its weight.
pub const CARD: usize = 15;
pub const CARD_WORDS: usize = 5;

/// A place for a certificate is its block and masks A and B; with neither mask
/// it is free. The first four are those of kinds 1, 2, 4 and 5, the rest of kind 3.
pub const CERTIFICATES: usize = CARD + CARD_WORDS;
pub const CERTIFICATE_PLACES: usize = 13;
pub const PLACE_OF_1: usize = 0;
pub const PLACE_OF_2: usize = 1;
pub const PLACE_OF_4: usize = 2;
pub const PLACE_OF_5: usize = 3;
pub const PLACES_OF_3: std::ops::Range<usize> = 4..CERTIFICATE_PLACES;

/// A cell is a notar block, a skip flag, three fallback blocks, a skip-fallback
/// flag and a final flag.
pub const CELL: usize = 7;
pub const NOTAR: usize = 0;
pub const SKIP: usize = 1;
pub const FALLBACKS: std::ops::Range<usize> = 2..5;
pub const SKIP_FALLBACK: usize = 5;
pub const FINAL_VOTE: usize = 6;

pub const MOST_NODES: usize = 2048;
pub const MOST_SMALL: usize = 64;
pub const MOST_TOTAL: u64 = 1 << 48;
pub const OUTBOX_WORDS: usize = 480;

pub type Cell = [u64; CELL];

pub fn record_words(nodes: usize) -> usize {
    STAKES + nodes + (LAST_SLOT + 1) * row_words(nodes)
}

pub fn row_words(nodes: usize) -> usize {
    cells_at(nodes) + CELL * nodes
}

/// Where the cells of a row begin.
pub fn cells_at(nodes: usize) -> usize {
    CERTIFICATES + CERTIFICATE_PLACES * place_words(nodes)
}

pub fn place_words(nodes: usize) -> usize {
    1 + 2 * mask_words(nodes)
}

pub fn mask_words(nodes: usize) -> usize {
    if nodes > MOST_SMALL {
        MOST_NODES / 64
    } else {
        1
    }
}

/// The nodes of a ring whose records have so many words; within a family every
/// node adds as many.
pub fn nodes_of(words: usize) -> Option<usize> {
    let is_large = words >= record_words(MOST_SMALL + 1);
    let known = if is_large { MOST_SMALL + 1 } else { 1 };
    let nodes = known + words.checked_sub(record_words(known))? / (record_words(2) - record_words(1));
    (nodes <= MOST_NODES && record_words(nodes) == words).then_some(nodes)
}

/// The certificates of a row.
pub fn certificates(row: &[u64], nodes: usize) -> std::slice::ChunksExact<'_, u64> {
    row[CERTIFICATES..cells_at(nodes)].chunks_exact(place_words(nodes))
}

/// The block of a certificate's place; 0 in a free one.
pub fn certified(row: &[u64], nodes: usize, place: usize) -> u64 {
    row[CERTIFICATES + place * place_words(nodes)]
}

pub fn cell(words: &[u64]) -> &Cell {
    words.try_into().expect("a cell has seven words")
}

pub fn no_initial(cell: &Cell) -> bool {
    cell[NOTAR] | cell[SKIP] == 0
}

pub fn is_first(slot: usize) -> bool {
    slot % WINDOW == 1
}

pub fn window_of(slot: usize) -> usize {
    (slot - 1) / WINDOW
}

/// Weight reaches so many fifths of the total; neither product is near 64 bits.
pub fn reaches(weight: u64, fifths: u64, total: u64) -> bool {
    5 * weight >= fifths * total
}

/// The total of a table; None where it breaks the sizes. One pass: with every
/// word below 2^49 the sum of 2,048 cannot wrap.
pub fn total_of(stakes: &[u64]) -> Option<u64> {
    if stakes.is_empty() || stakes.len() > MOST_NODES {
        return None;
    }
    let (mut all, mut sum, mut some_zero) = (0, 0u64, false);
    for &stake in stakes {
        all |= stake;
        sum = sum.wrapping_add(stake);
        some_zero |= stake == 0;
    }
    (!some_zero && all <= 2 * MOST_TOTAL - 1 && sum <= MOST_TOTAL).then_some(sum)
}
