//! Why a call was not done.

use crate::face;
use crate::words::Weight;
use std::error::Error;
use std::fmt;

/// A refusal. It has changed none of the record, the outbox and the buffers.
#[derive(Clone, Copy, Debug, PartialEq, Eq, Hash)]
#[allow(missing_docs)] // Display has a sentence for each.
pub enum Refusal {
    BadSizes,
    BadNode,
    BadSlot,
    BadKind,
    BadBlock,
    OwnName,
    AlreadyKept,
    OtherStands,
    NoRoom,
    NotArmed,
    BadParent,
    BadLength,
    BadNumber,
    BadSigners,
    /// With the least further stake that would reach the threshold, 0 where the call does not tell it.
    TooLight {
        missing: Weight,
    },
    NotAProof,
    BadRecord,
    NotHeld,
    /// A number that this wrapper does not know: the library is of another header.
    Unknown(u64),
}

/// Every refusal in the order of its number, from 1 on.
const ALL: [Refusal; 18] = {
    use Refusal::*;
    [
        BadSizes,
        BadNode,
        BadSlot,
        BadKind,
        BadBlock,
        OwnName,
        AlreadyKept,
        OtherStands,
        NoRoom,
        NotArmed,
        BadParent,
        BadLength,
        BadNumber,
        BadSigners,
        TooLight { missing: Weight(0) },
        NotAProof,
        BadRecord,
        NotHeld,
    ]
};

/// Bytes that hold the text of any number.
const TEXT_BYTES: usize = 512;

impl Refusal {
    /// What a number of the library says: nothing is wrong with 0. The figure beside it belongs to 15 alone.
    pub(crate) fn check(number: u64, missing: u64) -> Result<(), Refusal> {
        if number == 0 {
            return Ok(());
        }
        Err(match ALL.get(number as usize - 1) {
            Some(Refusal::TooLight { .. }) => Refusal::TooLight { missing: Weight(missing) },
            Some(&refusal) => refusal,
            None => Refusal::Unknown(number),
        })
    }

    /// The refusal of a number of the header; None for 0, and for numbers that it has not.
    pub fn of_number(number: u64) -> Option<Refusal> {
        Refusal::check(number, 0).err().filter(|refusal| !matches!(refusal, Refusal::Unknown(_)))
    }

    /// Its number in the header.
    pub fn number(self) -> u64 {
        let same = |other: &Refusal| std::mem::discriminant(other) == std::mem::discriminant(&self);
        match self {
            Refusal::Unknown(number) => number,
            _ => 1 + ALL.iter().position(same).expect("one of all") as u64,
        }
    }
}

/// The library's sentence for the number, and what is missing where it is known.
impl fmt::Display for Refusal {
    fn fmt(&self, out: &mut fmt::Formatter<'_>) -> fmt::Result {
        let mut text = [0; TEXT_BYTES];
        let (_, written) = face::refusal_text(&mut text, self.number());
        out.write_str(&String::from_utf8_lossy(&text[..written]))?;
        match self {
            Refusal::TooLight { missing: Weight(0) } => Ok(()),
            Refusal::TooLight { missing } => write!(out, " {} is missing.", missing.0),
            Refusal::Unknown(number) => write!(out, " It is {number}."),
            _ => Ok(()),
        }
    }
}

impl Error for Refusal {}
