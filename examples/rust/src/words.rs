//! The rules' words: slots, nodes, weights, votes, blocks, certificates, tally cards, and what an outbox tells.

/// A slot, 1 to 16; 0 is genesis's.
#[derive(Clone, Copy, Debug, PartialEq, Eq, PartialOrd, Ord, Hash)]
pub struct Slot(pub usize);

/// A node's number, from 0.
#[derive(Clone, Copy, Debug, PartialEq, Eq, PartialOrd, Ord, Hash)]
pub struct Node(pub usize);

/// Stake, of one node or of several together.
#[derive(Clone, Copy, Debug, PartialEq, Eq, PartialOrd, Ord, Hash)]
pub struct Weight(pub u64);

/// Kinds of votes.
#[derive(Clone, Copy, Debug, PartialEq, Eq, PartialOrd, Ord, Hash)]
pub enum VoteKind {
    /// For a block, as the initial vote of the slot.
    Notar = 1,
    /// For a block, beside another initial vote.
    NotarFallback = 2,
    /// Against every block, as the initial vote of the slot.
    Skip = 3,
    /// Against every block, beside an initial vote for one.
    SkipFallback = 4,
    /// For finality of the block that was notarized.
    Final = 5,
}

impl VoteKind {
    pub(crate) fn of_number(number: u64) -> Option<VoteKind> {
        use VoteKind::*;
        [Notar, NotarFallback, Skip, SkipFallback, Final].into_iter().find(|&kind| kind as u64 == number)
    }
}

/// A vote. Kinds other than the two notar kinds carry block 0.
#[derive(Clone, Copy, Debug, PartialEq, Eq, PartialOrd, Ord, Hash)]
pub struct Vote {
    /// What is voted.
    pub kind: VoteKind,
    /// Who votes.
    pub node: Node,
    /// In which slot.
    pub slot: Slot,
    /// For which block, or 0.
    pub block: u64,
}

impl Vote {
    /// Kind, node, slot, block: the four words of a tray and the four numbers of a message.
    pub(crate) fn words(self) -> [u64; 4] {
        [self.kind as u64, self.node.0 as u64, self.slot.0 as u64, self.block]
    }

    /// The votes that a node's seven words in a slot tell: notar and notar-fallbacks by their blocks, the others by a 1.
    pub(crate) fn of_cell(slot: Slot, node: Node, words: [u64; 7]) -> Vec<Vote> {
        use VoteKind::*;
        let kinds = [Notar, Skip, NotarFallback, NotarFallback, NotarFallback, SkipFallback, Final];
        let stored = kinds.into_iter().zip(words).filter(|&(_, word)| word != 0);
        let block = |kind, word| if matches!(kind, Notar | NotarFallback) { word } else { 0 };
        stored.map(|(kind, word)| Vote { kind, node, slot, block: block(kind, word) }).collect()
    }

    /// None where the words have no kind of a vote.
    pub(crate) fn of_words([kind, node, slot, block]: [u64; 4]) -> Option<Vote> {
        let kind = VoteKind::of_number(kind)?;
        Some(Vote { kind, node: Node(node as usize), slot: Slot(slot as usize), block })
    }
}

/// A block with its parent. Numbers are not 0; genesis stands in slot 0.
#[derive(Clone, Copy, Debug, PartialEq, Eq, Hash)]
pub struct Block {
    /// The block's slot.
    pub slot: Slot,
    /// Its number.
    pub number: u64,
    /// Its parent's slot, below its own.
    pub parent_slot: Slot,
    /// Its parent's number.
    pub parent: u64,
}

impl Block {
    /// The blocks in a slot's places, three words each; a place without a number is empty.
    pub(crate) fn of_places(slot: Slot, words: [u64; 12]) -> Vec<Block> {
        let kept = words.chunks_exact(3).filter(|place| place[0] != 0);
        let block = |place: &[u64]| Block {
            slot,
            number: place[0],
            parent_slot: Slot(place[1] as usize),
            parent: place[2],
        };
        kept.map(block).collect()
    }
}

/// What a slot is marked with.
#[derive(Clone, Copy, Debug, PartialEq, Eq, Hash)]
pub struct Marks {
    /// Its timeout was taken.
    pub timed_out: bool,
    /// Another final block was told of it, [`Event::Conflict`].
    pub conflict: bool,
}

/// Whose record it is, and of which ring.
#[derive(Clone, Copy, Debug, PartialEq, Eq, Hash)]
pub struct Head {
    /// The own number; a watcher's is the number of nodes.
    pub own: Node,
    /// How many nodes the stake table has.
    pub nodes: usize,
    /// All their stake.
    pub stake: Weight,
    /// Genesis's number.
    pub genesis: u64,
}

/// What a slot's stored votes weigh for a block. Kept certificates add nothing.
#[derive(Clone, Copy, Debug, PartialEq, Eq, Hash)]
pub struct BlockWeights {
    /// Its notar votes.
    pub notar: Weight,
    /// Those who count in its notar-fallback certificate, by either vote for it, each node once.
    pub notar_fallback: Weight,
    /// The slot's skip votes.
    pub skip: Weight,
    /// The least further stake with which it would have rule D's weights; 0 where it has them.
    pub missing: Weight,
}

/// Kinds of certificates: who counts, and which part of the stake they reach. A ring of more than 64 nodes writes 10 more; the
/// wrapper adds and takes them off.
#[derive(Clone, Copy, Debug, PartialEq, Eq, PartialOrd, Ord, Hash)]
pub enum CertificateKind {
    /// Notar, 80 percent.
    FastFinal = 1,
    /// Notar, 60 percent.
    Notar = 2,
    /// Notar or notar-fallback, 60 percent.
    NotarFallback = 3,
    /// Skip or skip-fallback, 60 percent; block 0.
    Skip = 4,
    /// Final, 60 percent; block 0.
    Final = 5,
}

impl CertificateKind {
    pub(crate) fn of_number(number: u64) -> Option<CertificateKind> {
        use CertificateKind::*;
        [FastFinal, Notar, NotarFallback, Skip, Final].into_iter().find(|&kind| kind as u64 == number % 10)
    }
}

/// A slot's tally card: what its stored votes weigh, the own ones among them.
#[derive(Clone, Copy, Debug, PartialEq, Eq, Hash)]
pub struct Card {
    /// Of its skip votes.
    pub skip: Weight,
    /// Of its final votes.
    pub final_votes: Weight,
    /// Of those who count in its skip certificate, by skip or skip-fallback.
    pub skip_certificate: Weight,
    /// The block with the most notar weight, the lowest where several have as much, and that weight; None without a notar vote.
    pub leader: Option<(u64, Weight)>,
}

impl Card {
    pub(crate) fn of_words([skip, final_votes, skip_certificate, leader, weight]: [u64; 5]) -> Card {
        Card {
            skip: Weight(skip),
            final_votes: Weight(final_votes),
            skip_certificate: Weight(skip_certificate),
            leader: (leader != 0).then_some((leader, Weight(weight))),
        }
    }
}

/// One record of an outbox: what the node did.
#[derive(Clone, Copy, Debug, PartialEq, Eq, Hash)]
pub enum Event {
    /// The node has cast this vote, which the host sends to the other members.
    Cast {
        /// What was voted.
        kind: VoteKind,
        /// In which slot.
        slot: Slot,
        /// For which block, or 0.
        block: u64,
    },
    /// The block is final in the slot, by certificates or as an ancestor of such a block.
    Final {
        /// The slot.
        slot: Slot,
        /// Its block.
        block: u64,
    },
    /// The window that the slot begins is armed: its timeouts begin.
    Armed {
        /// The window's first slot.
        slot: Slot,
    },
    /// The block is final too in a slot that has another final block; told once for a slot.
    Conflict {
        /// The slot.
        slot: Slot,
        /// The newcomer.
        block: u64,
    },
}

impl Event {
    /// The vote where one was cast, in the name of the record's own node.
    pub fn vote(self, own: Node) -> Option<Vote> {
        match self {
            Event::Cast { kind, slot, block } => Some(Vote { kind, node: own, slot, block }),
            _ => None,
        }
    }

    /// None where the kind is none of an outbox's record.
    pub(crate) fn of_words(kind: u64, slot: u64, block: u64) -> Option<Event> {
        let slot = Slot(slot as usize);
        match kind {
            6 => Some(Event::Final { slot, block }),
            7 => Some(Event::Armed { slot }),
            8 => Some(Event::Conflict { slot, block }),
            _ => VoteKind::of_number(kind).map(|kind| Event::Cast { kind, slot, block }),
        }
    }
}
