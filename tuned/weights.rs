//! What the votes of one slot weigh beside its card.

use super::layout::*;

/// Blocks with their notar weights, of one slot at a time: a table found by a
/// product. A place belongs to the slot at hand where its weight bears that
/// slot's mark, so the table is never cleared.
pub struct Blocks<const PLACES: usize> {
    places: [(u64, u64); PLACES],
    mark: u64,
}

/// Above every weight.
const MARK: u64 = 1 << 56;

const PRODUCT: u64 = 0x9E37_79B9_7F4A_7C15;

/// A number that falls on the same place of the table as every other one from
/// here, whatever its size: the places are bits 40 and up of the product.
pub fn on_one_place(random: u64) -> u64 {
    const INVERSE: u64 = 0xF1DE_83E1_9937_733D;
    INVERSE.wrapping_mul(random & !(0xFFF << 40) | 1)
}

impl<const PLACES: usize> Blocks<PLACES> {
    pub fn new() -> Self {
        Blocks { places: [(0, 0); PLACES], mark: 0 }
    }

    /// Whether another block than the leading one, which has so much, leads.
    /// Where numbers fall together too often they are sorted.
    pub fn has_rival(&mut self, cells: &[u64], stakes: &[u64], leader: u64, weight: u64) -> bool {
        self.mark += MARK;
        let mut steps = 4 * stakes.len();
        for (words, &stake) in cells.chunks_exact(CELL).zip(stakes) {
            let block = words[NOTAR];
            if block == 0 || block == leader {
                continue;
            }
            match self.add(block, stake, &mut steps) {
                Some(sum) if leads(block, sum, leader, weight) => return true,
                Some(_) => {}
                None => return sorted_has_rival(cells, stakes, leader, weight),
            }
        }
        false
    }

    /// The block's weight with the stake; None where no step beyond a taken place
    /// is left. There are always free places.
    #[inline(always)]
    fn add(&mut self, block: u64, stake: u64, steps: &mut usize) -> Option<u64> {
        let mut at = (block.wrapping_mul(PRODUCT) >> 40) as usize % PLACES;
        loop {
            let (kept, weight) = &mut self.places[at];
            if *weight < self.mark {
                (*kept, *weight) = (block, self.mark);
            }
            if *kept == block {
                *weight += stake;
                return Some(*weight - self.mark);
            }
            *steps = steps.checked_sub(1)?;
            at = (at + 1) % PLACES;
        }
    }
}

fn leads(block: u64, sum: u64, leader: u64, weight: u64) -> bool {
    sum > weight || (sum == weight && block < leader)
}

fn sorted_has_rival(cells: &[u64], stakes: &[u64], leader: u64, weight: u64) -> bool {
    let votes = cells.chunks_exact(CELL).zip(stakes).map(|(words, &stake)| (words[NOTAR], stake));
    let mut votes: Vec<(u64, u64)> = votes.filter(|vote| vote.0 != 0 && vote.0 != leader).collect();
    votes.sort_unstable();
    let (mut last, mut sum) = (0, 0);
    votes.into_iter().any(|(block, stake)| {
        sum = if block == last { sum + stake } else { stake };
        last = block;
        leads(block, sum, leader, weight)
    })
}

/// Of names that come one by one with their weights, those that have most: more
/// than a seventh of all weight is always among them (Misra and Gries).
#[derive(Default)]
struct Hitters {
    names: [u64; HITTERS],
    weights: [u64; HITTERS],
    /// What was taken off every weight: a name has that much more at most.
    off: u64,
}

const HITTERS: usize = 6;

impl Hitters {
    #[inline(always)]
    fn add(&mut self, name: u64, weight: u64) {
        for (known, sum) in self.names.iter().zip(&mut self.weights) {
            if *known == name {
                *sum += weight;
                return;
            }
        }
        let (mut at, mut least) = (0, self.weights[0]);
        for (other, &sum) in self.weights.iter().enumerate().skip(1) {
            if sum < least {
                (at, least) = (other, sum);
            }
        }
        let taken = least.min(weight);
        self.off += taken;
        for sum in &mut self.weights {
            *sum -= taken;
        }
        if weight > taken {
            (self.names[at], self.weights[at]) = (name, weight - taken);
        }
    }

    /// Those that may have so many fifths, each with its weight if that is known.
    fn reaching(&self, fifths: u64, total: u64) -> impl Iterator<Item = (u64, Option<u64>)> + '_ {
        let both = self.names.iter().zip(&self.weights);
        let heavy = both.filter(move |(&name, &sum)| name != 0 && reaches(sum + self.off, fifths, total));
        heavy.map(|(&name, &sum)| (name, Some(sum).filter(|_| self.off == 0)))
    }
}

/// The blocks that a fifth of the stake notarized, lowest first, with their
/// weights. More than five there cannot be.
#[derive(Clone, Copy, Default)]
pub struct Heavy {
    blocks: [(u64, u64); 5],
    count: usize,
}

impl Heavy {
    pub fn of(cells: &[u64], stakes: &[u64], total: u64) -> Heavy {
        let mut hitters = Hitters::default();
        for (words, &stake) in cells.chunks_exact(CELL).zip(stakes) {
            if words[NOTAR] != 0 {
                hitters.add(words[NOTAR], stake);
            }
        }
        let mut heavy = Heavy::default();
        for (block, known) in hitters.reaching(1, total) {
            let weight = known.unwrap_or_else(|| notar_of(block, cells, stakes));
            if reaches(weight, 1, total) {
                heavy.blocks[heavy.count] = (block, weight);
                heavy.count += 1;
            }
        }
        heavy.blocks[..heavy.count].sort_unstable();
        heavy
    }

    pub fn one(block: u64, weight: u64) -> Heavy {
        Heavy { blocks: [(block, weight), (0, 0), (0, 0), (0, 0), (0, 0)], count: 1 }
    }

    pub fn blocks(&self) -> &[(u64, u64)] {
        &self.blocks[..self.count]
    }
}

/// What notarized one block.
pub fn notar_of(block: u64, cells: &[u64], stakes: &[u64]) -> u64 {
    let cells = cells.chunks_exact(CELL).zip(stakes);
    cells.filter(|(words, _)| words[NOTAR] == block).map(|(_, stake)| stake).sum()
}

/// What stands behind one block by notar and notar-fallback votes.
pub fn behind(block: u64, cells: &[u64], stakes: &[u64]) -> u64 {
    let cells = cells.chunks_exact(CELL).zip(stakes);
    cells.filter(|(words, _)| names(cell(words), block)).map(|(_, stake)| stake).sum()
}

pub fn names(cell: &Cell, block: u64) -> bool {
    cell[NOTAR] == block || cell[FALLBACKS].contains(&block)
}

/// Whether any block has 60 percent behind it so. A node names four at most, so
/// of all weight of names such a block has more than a seventh.
pub fn some_behind(cells: &[u64], stakes: &[u64], total: u64) -> bool {
    let mut hitters = Hitters::default();
    for (words, &stake) in cells.chunks_exact(CELL).zip(stakes) {
        let cell = cell(words);
        if cell[NOTAR] != 0 {
            hitters.add(cell[NOTAR], stake);
        }
        for &block in cell[FALLBACKS].iter().take_while(|&&block| block != 0) {
            if block != cell[NOTAR] {
                hitters.add(block, stake);
            }
        }
    }
    let reaching = |(block, known): (u64, Option<u64>)| {
        reaches(known.unwrap_or_else(|| behind(block, cells, stakes)), 3, total)
    };
    let is_some = hitters.reaching(3, total).any(reaching);
    is_some
}
