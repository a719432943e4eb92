//! Mail between firms: a queue by simulated time, in which some arrives late, twice or never.

use crate::random::Random;
use quointrowel::{Block, Node, Slot};
use std::collections::BTreeMap;
use std::rc::Rc;

/// Hosts look at their mail so often: times are rounded up to it. All times are milliseconds.
pub const TRAY_TIME: u64 = 20;

/// Mail takes from the first to the first and second together; late mail so much more, and unacknowledged mail is sent again after.
const LEAST_TIME: u64 = 8;
const SPREAD: u64 = 45;
const LATE_LEAST: u64 = 100;
const LATE_SPREAD: u64 = 400;
const AGAIN_AFTER: u64 = 250;

/// What is in a piece of mail.
#[derive(Clone, Copy, Debug, PartialEq, Eq, PartialOrd, Ord)]
pub enum Kind {
    /// A vote message.
    Vote,
    /// A block with its parent: four words, since blocks are the host's.
    Block,
    /// A certificate's packet.
    Certificate,
    /// A finality proof's packet.
    Proof,
    /// A slot and a number: send me that block.
    Ask,
}

pub const KINDS: [Kind; 5] = [Kind::Vote, Kind::Block, Kind::Certificate, Kind::Proof, Kind::Ask];

/// A piece of mail: its kind and its bytes.
#[derive(Debug, PartialEq, Eq)]
pub struct Piece {
    pub kind: Kind,
    pub bytes: Vec<u8>,
}

impl Piece {
    pub fn of_block(block: Block) -> Piece {
        let words = [block.slot.0 as u64, block.number, block.parent_slot.0 as u64, block.parent];
        Piece { kind: Kind::Block, bytes: words.iter().flat_map(|word| word.to_le_bytes()).collect() }
    }

    pub fn of_ask(slot: Slot, number: u64) -> Piece {
        let words = [slot.0 as u64, number];
        Piece { kind: Kind::Ask, bytes: words.iter().flat_map(|word| word.to_le_bytes()).collect() }
    }

    /// The words of a block or an ask; None where the bytes are not so many.
    fn words<const COUNT: usize>(&self) -> Option<[u64; COUNT]> {
        let words = self.bytes.chunks_exact(8).map(|word| u64::from_le_bytes(word.try_into().unwrap()));
        words.collect::<Vec<_>>().try_into().ok().filter(|_| self.bytes.len() == 8 * COUNT)
    }

    pub fn block(&self) -> Option<Block> {
        let [slot, number, parent_slot, parent] = self.words()?;
        Some(Block { slot: Slot(slot as usize), number, parent_slot: Slot(parent_slot as usize), parent })
    }

    pub fn ask(&self) -> Option<(Slot, u64)> {
        let [slot, number] = self.words()?;
        Some((Slot(slot as usize), number))
    }
}

/// To whom a letter goes.
#[derive(Clone, Copy, Debug, PartialEq, Eq)]
pub enum To {
    Everyone,
    One(Node),
}

/// What a host wants sent.
#[derive(Clone, Debug)]
pub struct Letter {
    pub to: To,
    pub piece: Rc<Piece>,
}

impl Letter {
    pub fn new(to: To, piece: Piece) -> Letter {
        Letter { to, piece: Rc::new(piece) }
    }
}

/// A piece under way.
#[derive(Clone, Debug)]
pub struct Mail {
    pub from: Node,
    pub to: Node,
    pub piece: Rc<Piece>,
}

/// How many pieces of a kind were sent, and what became of them.
#[derive(Clone, Copy, Debug, Default, PartialEq, Eq)]
pub struct Count {
    pub sent: u64,
    pub late: u64,
    pub twice: u64,
    pub lost: u64,
    pub again: u64,
}

impl Count {
    pub fn add(&mut self, other: Count) {
        self.sent += other.sent;
        self.late += other.late;
        self.twice += other.twice;
        self.lost += other.lost;
        self.again += other.again;
    }
}

/// Shares of mail, in percent; how much is late is said with each piece.
#[derive(Clone, Copy, Debug)]
pub struct Shares {
    pub twice: u64,
    pub lost: u64,
}

/// What the post hands over at a moment.
#[derive(Default)]
pub struct Arrivals {
    /// Pieces that arrive.
    pub mail: Vec<Mail>,
    /// Pieces that nobody acknowledged, back at their senders.
    pub unacknowledged: Vec<Mail>,
}

/// The queue.
pub struct Post {
    queue: BTreeMap<u64, Arrivals>,
    random: Random,
    shares: Shares,
    pub counts: [Count; KINDS.len()],
}

impl Post {
    pub fn new(shares: Shares, random: Random) -> Post {
        Post { queue: BTreeMap::new(), random, shares, counts: [Count::default(); KINDS.len()] }
    }

    /// The next moment at which something arrives.
    pub fn next(&self) -> Option<u64> {
        self.queue.keys().next().copied()
    }

    pub fn arrivals(&mut self, now: u64) -> Arrivals {
        self.queue.remove(&now).unwrap_or_default()
    }

    fn at(&mut self, time: u64) -> &mut Arrivals {
        self.queue.entry(time.div_ceil(TRAY_TIME) * TRAY_TIME).or_default()
    }

    /// Sends a piece through the rough mail, late with so many percent.
    pub fn send(&mut self, now: u64, mail: Mail, late: u64) {
        let kind = mail.piece.kind as usize;
        self.counts[kind].sent += 1;
        if self.random.percent(self.shares.lost) {
            self.counts[kind].lost += 1;
            return self.bounce(now, mail);
        }
        if self.random.percent(self.shares.twice) {
            self.counts[kind].twice += 1;
            let time = now + self.transit() + self.transit();
            self.at(time).mail.push(mail.clone());
        }
        let mut time = now + self.transit();
        if self.random.percent(late) {
            self.counts[kind].late += 1;
            time += LATE_LEAST + self.random.below(LATE_SPREAD);
        }
        self.at(time).mail.push(mail);
    }

    /// Mail of lying firms: never late, twice or lost by chance, since they see to it themselves.
    pub fn send_promptly(&mut self, now: u64, mail: Mail) {
        self.counts[mail.piece.kind as usize].sent += 1;
        self.at(now + 1).mail.push(mail);
    }

    /// No acknowledgement will come: the sender learns it after a while.
    pub fn bounce(&mut self, now: u64, mail: Mail) {
        self.at(now + AGAIN_AFTER).unacknowledged.push(mail);
    }

    pub fn count_again(&mut self, kind: Kind) {
        self.counts[kind as usize].again += 1;
    }

    fn transit(&mut self) -> u64 {
        LEAST_TIME + self.random.below(SPREAD)
    }
}
