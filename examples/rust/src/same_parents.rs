//! Which blocks two records keep with two parents.

use crate::face;
use crate::record::Record;
use crate::refusal::Refusal;
use crate::words::{Block, Slot};

const LINE_WORDS: usize = 5;
/// Two for each pair of four places, in each slot.
const MOST_LINES: usize = 512;

impl Record {
    /// The blocks that this record and the other keep with two parents, slots ascending: each as this record has it, and as the
    /// other has it. Nobody is to blame for one: hosts number blocks.
    pub fn told_twice(&self, other: &Record) -> Result<Vec<(Block, Block)>, Refusal> {
        let mut list = [0; MOST_LINES * LINE_WORDS];
        let (number, lines) = face::same_parents(self.words(), other.words(), &mut list);
        Refusal::check(number, 0)?;
        let pairs = list[..lines * LINE_WORDS].chunks_exact(2 * LINE_WORDS);
        Ok(pairs.map(|pair| (block(&pair[..LINE_WORDS]), block(&pair[LINE_WORDS..]))).collect())
    }
}

fn block(line: &[u64]) -> Block {
    Block {
        slot: Slot(line[0] as usize),
        number: line[1],
        parent_slot: Slot(line[2] as usize),
        parent: line[3],
    }
}
