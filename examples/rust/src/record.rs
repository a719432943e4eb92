//! A node's record, and the outbox that its calls fill.

use crate::checker::Checked;
use crate::face;
use crate::refusal::Refusal;
use crate::words::{Block, BlockWeights, Card, CertificateKind, Event, Head, Marks, Node, Slot, Vote, Weight};

/// Words of a line in a list, and lines of certificates that a slot keeps at most.
const LINE_WORDS: usize = 5;
const MOST_CERTIFICATES: usize = 13;

/// Bytes that hold a certificate, and a proof, of any ring.
const CERTIFICATE_BYTES: usize = 768;
const PROOF_BYTES: usize = 1536;

/// A ring has so many nodes at most.
const MOST_NODES: usize = 2048;

/// Up to so many nodes certificates have the kinds 1 to 5; with more, 10 is added.
const MOST_SMALL: usize = 64;
const LARGE_KINDS: u64 = 10;

/// What a call made: the events of the last one that was given this outbox.
#[derive(Clone, Debug)]
pub struct Outbox {
    words: Vec<u64>,
    made: usize,
}

impl Outbox {
    /// An empty outbox with room for every call.
    pub fn new() -> Outbox {
        Outbox { words: vec![0; face::outbox_words()], made: 0 }
    }

    /// What the last call made, in order; nothing after a refusal.
    pub fn events(&self) -> impl Iterator<Item = Event> + '_ {
        let records = self.words.chunks_exact(3).take(self.made);
        records.map(|r| Event::of_words(r[0], r[1], r[2]).expect("a record of a kind of the header"))
    }

    /// The events of another one behind these.
    fn join(&mut self, more: &Outbox) {
        self.words.truncate(3 * self.made);
        self.words.extend(&more.words[..3 * more.made]);
        self.made += more.made;
        self.words.resize(self.words.len().max(face::outbox_words()), 0);
    }

    /// The number of a call and how many records it made.
    fn filled(&mut self, (number, made): face::Counted) -> Result<(), Refusal> {
        self.made = made;
        Refusal::check(number, 0)
    }
}

impl Default for Outbox {
    fn default() -> Outbox {
        Outbox::new()
    }
}

/// One node: its pool of votes and its voter. Its words may be stored and taken up again; the library looks through them at every
/// call, and refuses with [`Refusal::BadRecord`] what is no record.
#[derive(Clone, Debug, PartialEq, Eq)]
pub struct Record {
    words: Vec<u64>,
}

impl Record {
    /// A fresh node with its own number, in a ring of these stakes, of nodes 0, 1 and so on.
    pub fn start(stakes: &[u64], own: Node, genesis: u64) -> Result<Record, Refusal> {
        let mut words = vec![0; face::record_words(stakes.len())];
        Refusal::check(face::start(&mut words, stakes, own.0, genesis), 0)?;
        Ok(Record { words })
    }

    /// A fresh watcher of a ring of these stakes: a node that has no own number and never votes. It takes votes in every node's
    /// name and refuses timeouts with [`Refusal::BadKind`].
    pub fn watch(stakes: &[u64], genesis: u64) -> Result<Record, Refusal> {
        let mut words = vec![0; face::record_words(stakes.len())];
        Refusal::check(face::watch(&mut words, stakes, genesis), 0)?;
        Ok(Record { words })
    }

    /// Words that were stored.
    pub fn from_words(words: Vec<u64>) -> Record {
        Record { words }
    }

    /// The words, to be stored.
    pub fn words(&self) -> &[u64] {
        &self.words
    }

    /// How many nodes the ring has, by the length of the words; None where no ring has a record so long.
    pub fn nodes(&self) -> Option<usize> {
        (1..=MOST_NODES).find(|&nodes| face::record_words(nodes) == self.words.len())
    }

    /// Another node's vote, its signature verified by the host.
    pub fn vote(&mut self, outbox: &mut Outbox, vote: Vote) -> Result<(), Refusal> {
        let Vote { kind, node, slot, block } = vote;
        let done = face::vote(&mut self.words, &mut outbox.words, kind as u64, node.0, slot.0, block);
        outbox.filled(done)
    }

    /// Other nodes' votes in one call, each as if it came alone; one answer a vote.
    pub fn tray(&mut self, outbox: &mut Outbox, votes: &[Vote]) -> Result<Vec<Result<(), Refusal>>, Refusal> {
        let votes: Vec<u64> = votes.iter().flat_map(|vote| vote.words()).collect();
        let mut answers = vec![0; votes.len() / 4];
        let done = face::tray(&mut self.words, &mut outbox.words, &votes, &mut answers);
        outbox.filled(done)?;
        Ok(answers.into_iter().map(|answer| Refusal::check(answer, 0)).collect())
    }

    /// A block with its parent.
    pub fn block(&mut self, outbox: &mut Outbox, block: Block) -> Result<(), Refusal> {
        let Block { slot, number, parent_slot, parent } = block;
        let done = face::block(&mut self.words, &mut outbox.words, slot.0, number, parent_slot.0, parent);
        outbox.filled(done)
    }

    /// Whether announcing a block now is right, by the policy that keeps the ring going: a slot's first block as it comes, a further
    /// one once it has rule D's weights in this record. Where it is true [`block`](Record::block) takes it; where it would refuse
    /// the block, so does this.
    pub fn may_announce(&self, block: Block) -> Result<bool, Refusal> {
        let Block { slot, number, parent_slot, parent } = block;
        let (answer, now) = face::may_announce(&self.words, slot.0, number, parent_slot.0, parent);
        Refusal::check(answer, 0)?;
        Ok(now != 0)
    }

    /// A slot's time is out.
    pub fn timeout(&mut self, outbox: &mut Outbox, slot: Slot) -> Result<(), Refusal> {
        let done = face::timeout(&mut self.words, &mut outbox.words, slot.0);
        outbox.filled(done)
    }

    /// Only runs the rules.
    pub fn look(&mut self, outbox: &mut Outbox) -> Result<(), Refusal> {
        let done = face::look(&mut self.words, &mut outbox.words);
        outbox.filled(done)
    }

    /// A certificate that another node wrote, its signatures verified by the host: it is checked in full and kept. Of one that is
    /// too light [`check_certificate`](crate::check_certificate) tells how much is missing.
    pub fn take(&mut self, outbox: &mut Outbox, packet: &[u8]) -> Result<(), Refusal> {
        let done = face::take(&mut self.words, &mut outbox.words, packet);
        outbox.filled(done)
    }

    /// How many bytes the first certificate of a finality proof has: all of them where it is the only one.
    pub fn split_proof(&self, packet: &[u8]) -> Result<usize, Refusal> {
        let (number, first) = face::split_proof(&self.words, packet);
        Refusal::check(number, 0)?;
        Ok(first)
    }

    /// A finality proof that another node wrote, its signatures verified by the host: its certificates are taken one after the
    /// other, and one that is kept already is passed over. The outbox has the events of both. Nothing is taken of a proof that is
    /// refused: by the proof checker, or with [`Refusal::OtherStands`] where another block's certificate is kept in the place of
    /// the first; the second never meets that. After it the block is final here.
    pub fn take_proof(&mut self, outbox: &mut Outbox, packet: &[u8]) -> Result<(), Refusal> {
        outbox.made = 0;
        let (first, second) = packet.split_at(self.split_proof(packet)?);
        self.take_new(outbox, first)?;
        if !second.is_empty() {
            let mut more = Outbox::new();
            self.take_new(&mut more, second)?;
            outbox.join(&more);
        }
        Ok(())
    }

    /// A certificate; one that is kept already changes nothing.
    fn take_new(&mut self, outbox: &mut Outbox, packet: &[u8]) -> Result<(), Refusal> {
        match self.take(outbox, packet) {
            Err(Refusal::AlreadyKept) => Ok(()),
            taken => taken,
        }
    }

    /// The bytes of a certificate that is held, by the stored votes or as one that is kept. Block 0 for skip and final.
    pub fn write_certificate(
        &self,
        kind: CertificateKind,
        slot: Slot,
        block: u64,
    ) -> Result<Vec<u8>, Refusal> {
        let kind = kind as u64 + if self.is_large() { LARGE_KINDS } else { 0 };
        let mut packet = vec![0; CERTIFICATE_BYTES];
        let (number, written) = face::write_certificate(&self.words, &mut packet, kind, slot.0, block);
        Refusal::check(number, 0)?;
        packet.truncate(written);
        Ok(packet)
    }

    /// The bytes of a finality proof of the block.
    pub fn write_proof(&self, slot: Slot, block: u64) -> Result<Vec<u8>, Refusal> {
        let mut packet = vec![0; PROOF_BYTES];
        let (number, written) = face::write_proof(&self.words, &mut packet, slot.0, block);
        Refusal::check(number, 0)?;
        packet.truncate(written);
        Ok(packet)
    }

    /// A slot's tally card.
    pub fn card(&self, slot: Slot) -> Result<Card, Refusal> {
        let (number, values) = face::card(&self.words, slot.0);
        Refusal::check(number, 0)?;
        Ok(Card::of_words(values))
    }

    /// A slot's final block, by certificates or as an ancestor of such a block; None where there is none.
    pub fn final_block(&self, slot: Slot) -> Result<Option<u64>, Refusal> {
        let (number, block) = face::final_block(&self.words, slot.0);
        Refusal::check(number, 0)?;
        Ok((block != 0).then_some(block))
    }

    /// Whether a slot's window is armed, so that its timeouts are taken.
    pub fn is_armed(&self, slot: Slot) -> Result<bool, Refusal> {
        let (number, armed) = face::is_armed(&self.words, slot.0);
        Refusal::check(number, 0)?;
        Ok(armed != 0)
    }

    /// The stored votes of a node in a slot, the own node's too: the initial vote, then its fallbacks, then its final vote.
    pub fn kept_votes(&self, slot: Slot, node: Node) -> Result<Vec<Vote>, Refusal> {
        let (number, words) = face::kept_votes(&self.words, slot.0, node.0);
        Refusal::check(number, 0)?;
        Ok(Vote::of_cell(slot, node, words))
    }

    /// The blocks that a slot keeps, four at most, in the order in which they were announced.
    pub fn kept_blocks(&self, slot: Slot) -> Result<Vec<Block>, Refusal> {
        let (number, words) = face::kept_blocks(&self.words, slot.0);
        Refusal::check(number, 0)?;
        Ok(Block::of_places(slot, words))
    }

    /// What a slot is marked with.
    pub fn slot_marks(&self, slot: Slot) -> Result<Marks, Refusal> {
        let (number, [timed_out, conflict]) = face::slot_marks(&self.words, slot.0);
        Refusal::check(number, 0)?;
        Ok(Marks { timed_out: timed_out != 0, conflict: conflict != 0 })
    }

    /// Whose record it is, and of which ring.
    pub fn head(&self) -> Result<Head, Refusal> {
        let (number, [own, nodes, stake, genesis]) = face::head(&self.words);
        Refusal::check(number, 0)?;
        Ok(Head { own: Node(own as usize), nodes: nodes as usize, stake: Weight(stake), genesis })
    }

    /// The certificates from other firms that a slot keeps: fast-final, notar, skip and final, one each, then those of kind
    /// notar-fallback in the order in which they were taken.
    pub fn kept_certificates(&self, slot: Slot) -> Result<Vec<Checked>, Refusal> {
        let mut list = [0; MOST_CERTIFICATES * LINE_WORDS];
        let (number, lines) = face::kept_certificates(&self.words, slot.0, &mut list);
        Refusal::check(number, 0)?;
        let words = list.chunks_exact(LINE_WORDS).take(lines);
        Ok(words.map(|line| Checked::of_words(line.try_into().expect("a line's words"))).collect())
    }

    /// What a slot's stored votes weigh for a block.
    pub fn block_weights(&self, slot: Slot, block: u64) -> Result<BlockWeights, Refusal> {
        let (number, weights) = face::block_weights(&self.words, slot.0, block);
        Refusal::check(number, 0)?;
        let [notar, notar_fallback, skip, missing] = weights.map(Weight);
        Ok(BlockWeights { notar, notar_fallback, skip, missing })
    }

    /// A record's length tells how many nodes its ring has.
    fn is_large(&self) -> bool {
        self.words.len() > face::record_words(MOST_SMALL)
    }
}
