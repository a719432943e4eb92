//! The node's operations once more, tuned as a good programmer would tune them
//! by hand, for `measure`: a column that says what the work itself costs. It
//! takes a record in lent words, as the product does, tests it at every call
//! and trusts nothing in it. It stands apart from the model, whose rules know nothing
//! of it and which its tests hold it against; it is compiled with the model,
//! whose command `measure` runs both.
//!
//! What makes it quick is plain. A row without votes is found by or-ing its
//! words. A card is recounted in the pass that tests the cells, and rules read
//! it and two more sums of that pass. Where no block has half of the notar
//! stake, blocks are weighed by a small table; where numbers were chosen to fall
//! on one place of it, they are sorted. The blocks that rules A and D can take
//! are found by six counters. In a tray, a vote has the rules of other slots asked
//! only where it may have made a certificate that one of them waits for. Masks are
//! stepped through from signer to signer. Whether a block is certified is read off
//! the places' blocks, without their masks.

mod card;
mod checker;
mod inputs;
mod layout;
mod rules;
mod sound;
#[cfg(test)]
mod tests;
mod weights;
mod writer;

pub use checker::check_certificate;
#[cfg(test)]
pub use checker::{check_proof, Check};
#[cfg(test)]
pub use inputs::card;
pub use inputs::{block, look, start, store_certificate, store_vote, take_certificate, timeout, tray, vote};
pub use layout::{record_words, OUTBOX_WORDS};
pub use rules::ASKS_EVERY_SLOT;
pub use weights::on_one_place;
pub use writer::write_certificate;
