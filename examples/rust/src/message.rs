//! Votes as messages between members.

use crate::face;
use crate::refusal::Refusal;
use crate::words::Vote;

const VOTE_BYTES: usize = 16;

/// The bytes of a vote, in a ring of so many nodes.
pub fn write_vote(node_count: usize, vote: Vote) -> Result<Vec<u8>, Refusal> {
    let Vote { kind, node, slot, block } = vote;
    let mut message = vec![0; VOTE_BYTES];
    let (number, written) = face::write_vote(&mut message, node_count, kind as u64, node.0, slot.0, block);
    Refusal::check(number, 0)?;
    message.truncate(written);
    Ok(message)
}

/// The vote of a message, in a ring of so many nodes.
pub fn read_vote(node_count: usize, message: &[u8]) -> Result<Vote, Refusal> {
    let (number, words) = face::read_vote(node_count, message);
    Refusal::check(number, 0)?;
    Ok(Vote::of_words(words).expect("a kind of the header"))
}
