//! The model host: what a member firm's host does around its record, and the part to read before writing one.
//!
//! - The record is stored BEFORE anything that a call made is sent (`wake`), and a host that starts again begins with the stored
//!   record, reads its own votes off it and sends them again (`resume`): nothing that was sent before a fall is contradicted after.
//! - Votes are taken in trays; a slot of an armed window is timed out where the own node has no initial vote in it.
//! - Blocks are announced by the README's policy, asked of the record (`may_announce`).
//! - Certificates and proofs that are held are handed on. The host never looks inside a record, a certificate or a proof.
//!
//! `host/blocks.rs` has a leader's own blocks and blocks that never came, `host/packets.rs` the handing on of packets.

mod blocks;
mod packets;

use crate::agreed::{slots, window, Agreed, SLOTS, WINDOW, WINDOWS};
use crate::mail::{Kind, Letter, Mail, Piece, To};
use crate::seen::{Fed, Function, Seen};
use crate::store::Store;
use blocks::Blocks;
use quointrowel::{
    check_proof, read_vote, write_vote, Block, CertificateKind, Event, Node, Outbox, Record, Refusal, Slot, Vote, VoteKind,
};
use std::io;
use std::rc::Rc;

/// In ms: between a leader's blocks; and from a window's arming to its first slot's timeout, each later one a slot time later.
pub const SLOT_TIME: u64 = 200;
const PATIENCE: u64 = 500;

/// One firm's host, with its record.
pub struct Host {
    own: Node,
    agreed: Rc<Agreed>,
    store: Store,
    record: Record,
    outbox: Outbox,
    blocks: Blocks,
    /// The own initial votes by slot, 0 for a skip; and since when each window is armed.
    initial: [Option<u64>; SLOTS + 1],
    armed: [Option<u64>; WINDOWS],
    /// Whether something was made since the record was stored, and what is sent once it is.
    is_unstored: bool,
    letters: Vec<Letter>,
    pub seen: Seen,
}

impl Host {
    /// A fresh member.
    pub fn start(own: Node, agreed: &Rc<Agreed>, store: Store, seen: Seen) -> io::Result<Host> {
        let record = Record::start(&agreed.stakes, own, agreed.genesis).expect("stakes that were looked through");
        let mut host = Host::around(own, agreed, store, record, seen);
        host.put_away()?;
        Ok(host)
    }

    /// The same member after a fall: what matters is read off what was stored, and all own votes are sent again.
    pub fn resume(own: Node, agreed: &Rc<Agreed>, store: Store, mut seen: Seen, now: u64) -> io::Result<Host> {
        let kept = store.load()?;
        seen.restarts += 1;
        let mut host = Host::around(own, agreed, store, kept.record, seen);
        host.take_up_blocks(&kept.notes);
        for slot in slots() {
            for vote in host.ask(|record| record.kept_votes(slot, own)) {
                host.send_vote(vote);
            }
            if slot.0 % WINDOW == 1 && host.ask(|record| record.is_armed(slot)) {
                host.arm(slot, now);
            }
        }
        Ok(host)
    }

    fn around(own: Node, agreed: &Rc<Agreed>, store: Store, record: Record, seen: Seen) -> Host {
        Host {
            own,
            agreed: Rc::clone(agreed),
            store,
            record,
            outbox: Outbox::new(),
            blocks: Blocks::default(),
            initial: [None; SLOTS + 1],
            armed: [None; WINDOWS],
            is_unstored: false,
            letters: Vec::new(),
            seen,
        }
    }

    /// Takes the mail that has come, does what is due, stores the record, and only then gives out what is to be sent. The flag tells
    /// whether something was stored.
    pub fn wake(&mut self, now: u64, mail: &[Mail]) -> io::Result<(Vec<Letter>, bool)> {
        if self.armed == [None; WINDOWS] {
            self.call(now, Function::Look, None, None, |record, outbox| record.look(outbox));
        }
        self.take_votes(now, mail);
        for piece in mail {
            self.take_piece(now, piece);
        }
        self.build(now);
        self.announce(now);
        self.ask_for_missing(now);
        self.time_out(now);
        let is_stored = self.keep()?;
        Ok((std::mem::take(&mut self.letters), is_stored))
    }

    /// Nobody acknowledged this piece: it is sent again, as often as it takes.
    pub fn send_again(&self, mail: Mail) -> Letter {
        Letter { to: To::One(mail.to), piece: mail.piece }
    }

    /// When this host wants to wake though no mail comes.
    pub fn due(&self) -> Option<u64> {
        slots().filter_map(|slot| self.deadline(slot)).chain(self.blocks.due()).min()
    }

    /// The votes among the mail, in one tray.
    fn take_votes(&mut self, now: u64, mail: &[Mail]) {
        let mut votes = Vec::new();
        for piece in mail.iter().filter(|mail| mail.piece.kind == Kind::Vote) {
            let vote = read_vote(self.agreed.stakes.len(), &piece.piece.bytes);
            self.seen.answer(Function::Message, &vote, Some(piece.from));
            // A vote is signed by its voter: what comes from another is not fed.
            votes.extend(vote.ok().filter(|vote| vote.node == piece.from));
        }
        if votes.is_empty() {
            return;
        }
        let answers = self.record.tray(&mut self.outbox, &votes);
        self.seen.answer(Function::Tray, &answers, None);
        for (vote, answer) in votes.into_iter().zip(answers.unwrap_or_default()) {
            self.seen.answer(Function::TrayVote, &answer, Some(vote.node));
            if answer.is_ok() {
                self.blocks.count(vote, self.agreed.stakes[vote.node.0]);
                self.seen.fed(Some(Fed::Vote(vote)));
            }
        }
        self.heed(now);
    }

    fn take_piece(&mut self, now: u64, mail: &Mail) {
        let bytes = &mail.piece.bytes;
        match mail.piece.kind {
            Kind::Vote => {}
            Kind::Block => self.hear(mail),
            Kind::Certificate => {
                let fed = Fed::Certificate(bytes.clone());
                self.call(now, Function::Take, Some(mail.from), Some(fed), |record, outbox| record.take(outbox, bytes));
            }
            Kind::Proof => self.seen.answer(Function::Check, &check_proof(&self.agreed.stakes, bytes), Some(mail.from)),
            Kind::Ask => self.answer_ask(mail),
        }
    }

    /// Feeds the blocks that may be announced, in the order of their coming.
    fn announce(&mut self, now: u64) {
        for block in self.blocks.take_waiting() {
            if !self.may_announce(block) {
                self.blocks.wait(block);
                continue;
            }
            let leader = self.agreed.leader(block.slot);
            let fed = Some(Fed::Block(block));
            if self.call(now, Function::Block, Some(leader), fed, |record, outbox| record.block(outbox, block)) {
                self.blocks.announced(block);
                self.is_unstored = true;
            }
        }
    }

    /// The policy: a slot's first block as it comes, a further one only once it has rule D's weights in this record.
    fn may_announce(&mut self, block: Block) -> bool {
        !self.blocks.has_announced(block.slot) || self.has_weights(block.slot, block.number)
    }

    /// Whether the block has rule D's weights. The record is asked, where what was counted beside it says that it is worth asking.
    fn has_weights(&mut self, slot: Slot, number: u64) -> bool {
        let counted = self.blocks.counted(slot, number);
        if !self.agreed.reaches(1, counted) {
            return false;
        }
        let card = self.ask(|record| record.card(slot));
        if !self.agreed.has_rule_d_weights(counted, card.skip.0) {
            return false;
        }
        let notar = match card.leader {
            Some((leader, weight)) if leader == number => weight.0,
            _ => self.voters(slot, number).into_iter().map(|node| self.agreed.stakes[node.0]).sum(),
        };
        self.agreed.has_rule_d_weights(notar, card.skip.0)
    }

    /// The slots of armed windows whose time is out and in which the own node has no initial vote.
    fn time_out(&mut self, now: u64) {
        for slot in slots() {
            if self.deadline(slot).is_some_and(|at| at <= now) {
                let done = self.call(now, Function::Timeout, None, None, |record, outbox| record.timeout(outbox, slot));
                self.seen.timed_out.extend(done.then_some(slot));
            }
        }
    }

    fn deadline(&self, slot: Slot) -> Option<u64> {
        let armed = self.armed[window(slot)].filter(|_| self.initial[slot.0].is_none());
        armed.map(|at| at + PATIENCE + SLOT_TIME * ((slot.0 - 1) % WINDOW) as u64)
    }

    /// A call that fills the outbox, about the mail of the firm that is named, and what follows from what it made.
    fn call(
        &mut self,
        now: u64,
        function: Function,
        whose: Option<Node>,
        fed: Option<Fed>,
        call: impl FnOnce(&mut Record, &mut Outbox) -> Result<(), Refusal>,
    ) -> bool {
        let answer = call(&mut self.record, &mut self.outbox);
        self.seen.answer(function, &answer, whose);
        if answer.is_ok() {
            self.seen.fed(fed);
            self.heed(now);
        }
        answer.is_ok()
    }

    /// What the last call made: votes to send, windows to time out, certificates and proofs to hand on.
    fn heed(&mut self, now: u64) {
        let events: Vec<Event> = self.outbox.events().collect();
        self.is_unstored |= !events.is_empty();
        for event in events {
            self.seen.told.push((now, event));
            if let Some(vote) = event.vote(self.own) {
                self.seen.fed(Some(Fed::Vote(vote)));
                self.blocks.count(vote, self.agreed.stakes[self.own.0]);
                self.send_vote(vote);
            }
            match event {
                Event::Cast { kind: VoteKind::Final, slot, .. } => {
                    let packet = self.initial[slot.0].and_then(|b| self.certificate(CertificateKind::Notar, slot, b));
                    self.hand_on(Kind::Certificate, slot, packet);
                }
                Event::Final { slot, block } => {
                    let packet = self.proof(slot, block);
                    self.hand_on(Kind::Proof, slot, packet);
                }
                Event::Armed { slot } => {
                    self.arm(slot, now);
                    let packet = self.certificate(CertificateKind::Skip, Slot((slot.0 - 1).max(1)), 0);
                    self.hand_on(Kind::Certificate, slot, packet);
                }
                _ => {}
            }
        }
    }

    fn arm(&mut self, first: Slot, now: u64) {
        self.armed[window(first)] = Some(now);
        if self.agreed.leader(first) == self.own {
            self.blocks.begin_window(first, now);
        }
    }

    /// Notes an own vote where it is initial, and has it sent to everyone.
    fn send_vote(&mut self, vote: Vote) {
        if matches!(vote.kind, VoteKind::Notar | VoteKind::Skip) {
            self.initial[vote.slot.0] = Some(vote.block);
        }
        let bytes = write_vote(self.agreed.stakes.len(), vote).expect("an own vote");
        self.letters.push(Letter::new(To::Everyone, Piece { kind: Kind::Vote, bytes }));
    }

    /// Asks the record by a reader.
    fn ask<T>(&mut self, reader: impl FnOnce(&Record) -> Result<T, Refusal>) -> T {
        let answer = reader(&self.record);
        self.seen.answer(Function::Reader, &answer, None);
        answer.expect("a record that the library left, and a slot of the ring")
    }

    /// Stores the record where something was made since; whether it was.
    fn keep(&mut self) -> io::Result<bool> {
        let is_unstored = std::mem::take(&mut self.is_unstored);
        if is_unstored {
            self.put_away()?;
        }
        Ok(is_unstored)
    }

    /// Stores the record, with the blocks that are known.
    pub fn put_away(&mut self) -> io::Result<()> {
        self.store.save(&self.record, &self.blocks.notes())
    }

    /// The firm's fall: what was stored stays, and what the bench saw.
    pub fn fall(self) -> (Store, Seen) {
        (self.store, self.seen)
    }

    pub fn record(&self) -> &Record {
        &self.record
    }
}
