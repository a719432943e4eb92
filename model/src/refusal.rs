//! The numbers on the panel other than 0, by name.

#[derive(Clone, Copy, PartialEq, Eq, Debug)]
pub enum Refusal {
    Sizes,
    NoSuchNode,
    NoSuchSlot,
    NoSuchKind,
    BlockNumber,
    OwnName,
    AlreadyKept,
    AnotherStands,
    NotArmed,
    WrongParent,
    PacketLength,
    PacketNumber,
    Signers,
    /// With the weight that is missing.
    TooLight(u64),
    NotAProof,
    NoNode,
    NotHeld,
}

impl Refusal {
    pub fn number(self) -> u64 {
        match self {
            Refusal::Sizes => 1,
            Refusal::NoSuchNode => 2,
            Refusal::NoSuchSlot => 3,
            Refusal::NoSuchKind => 4,
            Refusal::BlockNumber => 5,
            Refusal::OwnName => 6,
            Refusal::AlreadyKept => 7,
            Refusal::AnotherStands => 8,
            // 9 is about lent memory, of which the model has none.
            Refusal::NotArmed => 10,
            Refusal::WrongParent => 11,
            Refusal::PacketLength => 12,
            Refusal::PacketNumber => 13,
            Refusal::Signers => 14,
            Refusal::TooLight(_) => 15,
            Refusal::NotAProof => 16,
            Refusal::NoNode => 17,
            Refusal::NotHeld => 18,
        }
    }
}
