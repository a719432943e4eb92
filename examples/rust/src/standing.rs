//! Which own votes of a record do not stand on what the record holds.

use crate::face;
use crate::record::Record;
use crate::refusal::Refusal;
use crate::words::Vote;

const LINE_WORDS: usize = 5;
/// Six votes in each slot.
const MOST_LINES: usize = 96;

/// The rule that casts a vote.
#[derive(Clone, Copy, Debug, PartialEq, Eq)]
pub enum Rule {
    /// Notar votes.
    B = 2,
    /// Final votes.
    C = 3,
    /// Notar-fallback votes.
    D = 4,
    /// Skip-fallback votes.
    E = 5,
}

/// An own vote that does not stand.
#[derive(Clone, Copy, Debug, PartialEq, Eq)]
pub struct Fallen {
    /// The vote.
    pub vote: Vote,
    /// The rule that casts such a vote.
    pub rule: Rule,
}

impl Record {
    /// The own votes that do not stand, ascending by slot and kind. A record that the library left has none: one that has
    /// some was altered, or not made by the library.
    pub fn fallen(&self) -> Result<Vec<Fallen>, Refusal> {
        let mut list = [0; MOST_LINES * LINE_WORDS];
        let (number, lines) = face::stands(self.words(), &mut list);
        Refusal::check(number, 0)?;
        Ok(list.chunks_exact(LINE_WORDS).take(lines).filter_map(fallen).collect())
    }
}

fn fallen(line: &[u64]) -> Option<Fallen> {
    let vote = Vote::of_words([line[2], line[1], line[0], line[3]])?;
    let rule = [Rule::B, Rule::C, Rule::D, Rule::E].into_iter().find(|&rule| rule as u64 == line[4])?;
    Some(Fallen { vote, rule })
}
