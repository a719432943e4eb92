//! Which stored votes of two records differ.

use crate::face;
use crate::record::Record;
use crate::refusal::Refusal;
use crate::words::Vote;

const LINE_WORDS: usize = 5;
const NO_ROOM: u64 = 9;

/// One of two records.
#[derive(Clone, Copy, Debug, PartialEq, Eq)]
pub enum Side {
    /// The first.
    First = 1,
    /// The second.
    Second = 2,
}

/// A vote that one record has and the other has not.
#[derive(Clone, Copy, Debug, PartialEq, Eq)]
pub struct Difference {
    /// The vote.
    pub vote: Vote,
    /// The record that has it.
    pub side: Side,
}

/// What a comparison found.
#[derive(Clone, Debug, PartialEq, Eq)]
pub enum Comparison {
    /// The stake tables differ, and no vote was compared.
    OtherStakes,
    /// Every vote that differs, ascending by slot, node, kind and block; none where the stored votes are equal.
    Votes(Vec<Difference>),
}

/// Compares the stored votes of two records. A refusal comes with the side whose record is bad.
pub fn differences(first: &Record, second: &Record) -> Result<Comparison, (Side, Refusal)> {
    // An empty list has room where nothing differs; else the library says how many lines it needs.
    let (mut list, mut answer) = (Vec::new(), face::differ(first.words(), second.words(), &mut []));
    if answer.0 == NO_ROOM {
        list.resize(answer.1 * LINE_WORDS, 0);
        answer = face::differ(first.words(), second.words(), &mut list);
    }
    let (number, beside) = answer;
    Refusal::check(number, 0).map_err(|refusal| (side(beside as u64).unwrap_or(Side::First), refusal))?;
    Ok(list
        .chunks_exact(LINE_WORDS)
        .map(difference)
        .collect::<Option<_>>()
        .map_or(Comparison::OtherStakes, Comparison::Votes))
}

fn side(number: u64) -> Option<Side> {
    [Side::First, Side::Second].into_iter().find(|&side| side as u64 == number)
}

/// None for the one line of neither side, which says that the stake tables differ.
fn difference(line: &[u64]) -> Option<Difference> {
    let vote = Vote::of_words([line[2], line[1], line[0], line[3]])?;
    Some(Difference { vote, side: side(line[4])? })
}
