//! What the bench sees of a host: the numbers it was answered, what its outbox told, and what its record was fed.

use quointrowel::{Block, Event, Node, Refusal, Slot, Vote};
use std::collections::BTreeMap;

/// A function of the library, as the table names it.
#[derive(Clone, Copy, Debug, PartialEq, Eq, PartialOrd, Ord)]
pub enum Function {
    Tray,
    TrayVote,
    Block,
    Timeout,
    Look,
    Take,
    Message,
    Certificate,
    Proof,
    Check,
    Reader,
    Differ,
}

pub const FUNCTIONS: [(Function, &str); 12] = [
    (Function::Tray, "tray"),
    (Function::TrayVote, "  its votes"),
    (Function::Block, "block"),
    (Function::Timeout, "timeout"),
    (Function::Look, "look"),
    (Function::Take, "take"),
    (Function::Message, "read a vote message"),
    (Function::Certificate, "write a certificate"),
    (Function::Proof, "write a proof"),
    (Function::Check, "check a proof"),
    (Function::Reader, "read off the record"),
    (Function::Differ, "differ"),
];

pub const NUMBERS: usize = 19;

/// How often each function was answered each number, and whose mail it was where it was neither 0 nor 7.
#[derive(Clone, Debug)]
pub struct Answers {
    pub counts: [[u64; NUMBERS]; FUNCTIONS.len()],
    pub others: BTreeMap<(Function, u64, Option<Node>), u64>,
}

impl Answers {
    pub fn new() -> Answers {
        Answers { counts: [[0; NUMBERS]; FUNCTIONS.len()], others: BTreeMap::new() }
    }

    pub fn add(&mut self, other: &Answers) {
        for (mine, theirs) in self.counts.iter_mut().flatten().zip(other.counts.iter().flatten()) {
            *mine += theirs;
        }
        for (&key, count) in &other.others {
            *self.others.entry(key).or_default() += count;
        }
    }

    /// Calls of the library: a tray is one, whatever it holds.
    pub fn calls(&self) -> u64 {
        let votes: u64 = self.counts[Function::TrayVote as usize].iter().sum();
        self.counts.iter().flatten().sum::<u64>() - votes
    }

    pub fn votes(&self) -> u64 {
        self.counts[Function::TrayVote as usize].iter().sum()
    }
}

/// What a record accepted, in its order, and what it cast.
#[derive(Clone, Debug, PartialEq, Eq)]
pub enum Fed {
    Vote(Vote),
    Block(Block),
    Certificate(Vec<u8>),
}

/// All of it.
#[derive(Clone, Debug)]
pub struct Seen {
    pub answers: Answers,
    /// What the outbox told, and when.
    pub told: Vec<(u64, Event)>,
    /// What a watcher of this firm is fed; None where nobody watches it.
    pub journal: Option<Vec<Fed>>,
    /// Slots whose timeout was accepted.
    pub timed_out: Vec<Slot>,
    pub restarts: u64,
}

impl Seen {
    pub fn new(is_watched: bool) -> Seen {
        let journal = is_watched.then(Vec::new);
        Seen { answers: Answers::new(), told: Vec::new(), journal, timed_out: Vec::new(), restarts: 0 }
    }

    /// Notes an answer, about the mail of the firm that is named.
    pub fn answer<T>(&mut self, function: Function, answer: &Result<T, Refusal>, whose: Option<Node>) {
        let number = answer.as_ref().err().map_or(0, |refusal| refusal.number());
        self.answers.counts[function as usize][(number as usize).min(NUMBERS - 1)] += 1;
        if number != 0 && number != 7 {
            *self.answers.others.entry((function, number, whose)).or_default() += 1;
        }
    }

    pub fn fed(&mut self, fed: Option<Fed>) {
        if let Some(journal) = &mut self.journal {
            journal.extend(fed);
        }
    }
}
