//! Blocks at a host: those that are announced, those that wait, those that others voted for and that never came, and the ones that a
//! leader builds.

use super::{Host, SLOT_TIME};
use crate::agreed::{number_in, SLOTS, WINDOW};
use crate::mail::{Letter, Mail, Piece, To};
use crate::seen::Function;
use quointrowel::{differences, Block, CertificateKind, Comparison, Node, Slot, Vote, VoteKind};
use std::collections::BTreeMap;

/// How many blocks of a slot may wait, so that liars do not fill the memory; and when a missing one is asked of the next voter, in ms.
const MOST_WAITING: usize = 8;
const ASK_AGAIN: u64 = 200;
const NOTE_WORDS: usize = 5;

/// What a host knows of blocks.
#[derive(Default)]
pub struct Blocks {
    announced: BTreeMap<(Slot, u64), Block>,
    waiting: Vec<Block>,
    /// What the stored notar votes weigh: it tells when the record is worth asking.
    counted: BTreeMap<(Slot, u64), u64>,
    /// Blocks that are missing: when to ask next, and whom.
    missing: BTreeMap<(Slot, u64), (u64, usize)>,
    /// Slots in which something came since the blocks were looked through.
    stirred: [bool; SLOTS + 1],
    /// The next block that this firm builds, and when.
    building: Option<(Slot, u64)>,
}

impl Blocks {
    /// A block has come. Of those that wait a few of a slot are kept, and every one that was asked for.
    pub fn hear(&mut self, block: Block) {
        let key = (block.slot, block.number);
        let is_asked_for = self.missing.remove(&key).is_some();
        let beside = self.waiting.iter().filter(|other| other.slot == block.slot).count();
        let is_known = !(1..=SLOTS).contains(&block.slot.0) || self.knows(key);
        if !is_known && (is_asked_for || beside < MOST_WAITING) {
            self.stirred[block.slot.0] = true;
            self.waiting.push(block);
        }
    }

    fn knows(&self, key: (Slot, u64)) -> bool {
        self.announced.contains_key(&key) || self.waiting.iter().any(|block| (block.slot, block.number) == key)
    }

    /// A vote that the record stored.
    pub fn count(&mut self, vote: Vote, stake: u64) {
        self.stirred[vote.slot.0] = true;
        if vote.kind == VoteKind::Notar {
            *self.counted.entry((vote.slot, vote.block)).or_default() += stake;
        }
    }

    pub fn counted(&self, slot: Slot, number: u64) -> u64 {
        self.counted.get(&(slot, number)).copied().unwrap_or(0)
    }

    /// The waiting blocks of slots in which something came.
    pub fn take_waiting(&mut self) -> Vec<Block> {
        let (stirred, still) = self.waiting.iter().partition(|block| self.stirred[block.slot.0]);
        self.waiting = still;
        stirred
    }

    pub fn wait(&mut self, block: Block) {
        self.waiting.push(block);
    }

    pub fn announced(&mut self, block: Block) {
        self.announced.insert((block.slot, block.number), block);
    }

    pub fn has_announced(&self, slot: Slot) -> bool {
        self.announced.keys().any(|key| key.0 == slot)
    }

    /// When a block is to be built or asked for.
    pub fn due(&self) -> Option<u64> {
        let asks = self.missing.values().map(|&(at, _)| at);
        asks.chain(self.building.map(|(_, at)| at)).min()
    }

    /// A leader begins with the first block of its window that it has not built yet.
    pub fn begin_window(&mut self, first: Slot, now: u64) {
        let mut slots = (first.0..first.0 + WINDOW).map(Slot);
        self.building = slots.find(|&slot| !self.knows((slot, number_in(slot)))).map(|slot| (slot, now));
    }

    /// The known blocks as words, to be stored beside the record.
    pub fn notes(&self) -> Vec<u64> {
        let known = self.announced.values().map(|block| (block, 1)).chain(self.waiting.iter().map(|block| (block, 0)));
        let note = |(b, told): (&Block, u64)| [b.slot.0 as u64, b.number, b.parent_slot.0 as u64, b.parent, told];
        known.flat_map(note).collect()
    }
}

impl Host {
    /// After a fall: the blocks that were noted, the own ones to be sent again, and the votes that the record stores.
    pub(super) fn take_up_blocks(&mut self, notes: &[u64]) {
        for note in notes.chunks_exact(NOTE_WORDS) {
            let (slot, parent_slot) = (Slot(note[0] as usize), Slot(note[2] as usize));
            let block = Block { slot, number: note[1], parent_slot, parent: note[3] };
            match note[4] {
                0 => self.blocks.wait(block),
                _ => self.blocks.announced(block),
            }
            if self.agreed.leader(slot) == self.own {
                self.letters.push(Letter::new(To::Everyone, Piece::of_block(block)));
            }
        }
        for vote in self.stored_votes() {
            self.blocks.count(vote, self.agreed.stakes[vote.node.0]);
        }
        self.blocks.stirred = [true; SLOTS + 1];
    }

    /// Every stored vote: those that the record has and a blank one has not.
    fn stored_votes(&mut self) -> Vec<Vote> {
        let found = differences(&self.record, &self.agreed.blank).map_err(|(_, refusal)| refusal);
        self.seen.answer(Function::Differ, &found, None);
        match found {
            Ok(Comparison::Votes(lines)) => lines.into_iter().map(|line| line.vote).collect(),
            _ => Vec::new(),
        }
    }

    /// Who voted notar for the block, by the record.
    pub(super) fn voters(&mut self, slot: Slot, number: u64) -> Vec<Node> {
        let names = |vote: &Vote| vote.kind == VoteKind::Notar && vote.slot == slot && vote.block == number;
        self.stored_votes().into_iter().filter(names).map(|vote| vote.node).collect()
    }

    /// A block that may be announced and never came is asked of one of its voters after the other.
    pub(super) fn ask_for_missing(&mut self, now: u64) {
        let is_absent = |&key: &(Slot, u64)| {
            self.blocks.stirred[key.0 .0] && !self.blocks.knows(key) && !self.blocks.missing.contains_key(&key)
        };
        let absent: Vec<_> = self.blocks.counted.keys().copied().filter(is_absent).collect();
        for key in absent {
            if self.has_weights(key.0, key.1) {
                self.blocks.missing.insert(key, (now + SLOT_TIME / 4, self.own.0));
            }
        }
        self.blocks.stirred = [false; SLOTS + 1];
        let is_due = |&(&key, &(at, turn)): &(&(Slot, u64), &(u64, usize))| (at <= now).then_some((key, turn));
        let due: Vec<_> = self.blocks.missing.iter().filter_map(|entry| is_due(&entry)).collect();
        for (key, turn) in due {
            let voters = self.voters(key.0, key.1);
            self.letters.push(Letter::new(To::One(voters[turn % voters.len()]), Piece::of_ask(key.0, key.1)));
            self.blocks.missing.insert(key, (now + ASK_AGAIN, turn + 1));
        }
    }

    pub(super) fn hear(&mut self, mail: &Mail) {
        if let Some(block) = mail.piece.block() {
            self.blocks.hear(block);
        }
    }

    pub(super) fn answer_ask(&mut self, mail: &Mail) {
        let known = mail.piece.ask().and_then(|key| self.blocks.announced.get(&key));
        self.letters.extend(known.map(|&block| Letter::new(To::One(mail.from), Piece::of_block(block))));
    }

    /// A leader builds the blocks of its window, a slot time apart: the first upon a ready parent, each other upon the one before.
    pub(super) fn build(&mut self, now: u64) {
        while let Some((slot, at)) = self.blocks.building.filter(|&(_, at)| at <= now) {
            let before = Slot(slot.0 - 1);
            let parent = if slot.0 % WINDOW == 1 { self.ready_parent(slot) } else { Some((before, number_in(before))) };
            let Some((parent_slot, parent)) = parent else {
                self.blocks.building = Some((slot, now + SLOT_TIME / 4));
                return;
            };
            let block = Block { slot, number: number_in(slot), parent_slot, parent };
            self.blocks.hear(block);
            self.is_unstored = true;
            self.letters.push(Letter::new(To::Everyone, Piece::of_block(block)));
            self.blocks.building = (slot.0 % WINDOW != 0).then_some((Slot(slot.0 + 1), at + SLOT_TIME));
        }
    }

    /// The highest block that holds a certificate and above which every slot holds the skip certificate.
    fn ready_parent(&mut self, first: Slot) -> Option<(Slot, u64)> {
        for slot in (1..first.0).rev().map(Slot) {
            let numbers: Vec<u64> = self.blocks.counted.keys().filter(|key| key.0 == slot).map(|key| key.1).collect();
            for number in numbers {
                if self.certificate(CertificateKind::NotarFallback, slot, number).is_some() {
                    return Some((slot, number));
                }
            }
            self.certificate(CertificateKind::Skip, slot, 0)?;
        }
        Some((Slot(0), self.agreed.genesis))
    }
}
