//! Two nodes that send each other their votes, as messages, until both have a final block.

use quointrowel::*;
use std::collections::VecDeque;

const STAKES: [u64; 2] = [1, 1];

/// A member: its record, what has arrived, and what it was told.
struct Member {
    own: Node,
    record: Record,
    outbox: Outbox,
    arrived: VecDeque<Vec<u8>>,
    told: Vec<Event>,
}

impl Member {
    fn new(own: usize) -> Member {
        let own = Node(own);
        let record = Record::start(&STAKES, own, 1).unwrap();
        Member { own, record, outbox: Outbox::new(), arrived: VecDeque::new(), told: Vec::new() }
    }

    /// Sends the votes of the last call to the other member.
    fn send(&mut self, other: &mut Member) {
        for event in self.outbox.events() {
            self.told.push(event);
            if let Some(vote) = event.vote(self.own) {
                other.arrived.push_back(write_vote(STAKES.len(), vote).unwrap());
            }
        }
    }

    /// Takes the next message, and sends what the node does about it.
    fn take(&mut self, other: &mut Member) -> bool {
        let message = match self.arrived.pop_front() {
            Some(message) => message,
            None => return false,
        };
        let vote = read_vote(STAKES.len(), &message).unwrap();
        assert_eq!(vote.node, other.own);
        self.record.vote(&mut self.outbox, vote).unwrap();
        self.send(other);
        true
    }

    fn has_final(&self, slot: usize, block: u64) -> bool {
        self.told.contains(&Event::Final { slot: Slot(slot), block })
    }
}

/// Both get the blocks of a window, each upon the one before; then the mail goes round until none is left.
fn exchange() -> (Member, Member) {
    let (mut a, mut b) = (Member::new(0), Member::new(1));
    for slot in 1..=4 {
        let parent = if slot == 1 { 1 } else { 10 + slot as u64 - 1 };
        let block = Block { slot: Slot(slot), number: 10 + slot as u64, parent_slot: Slot(slot - 1), parent };
        a.record.block(&mut a.outbox, block).unwrap();
        a.send(&mut b);
        b.record.block(&mut b.outbox, block).unwrap();
        b.send(&mut a);
    }
    assert!(!a.has_final(1, 11) && !b.has_final(1, 11), "no block is final before the mail");
    while a.take(&mut b) || b.take(&mut a) {}
    (a, b)
}

#[test]
fn both_have_the_same_final_blocks() {
    let (a, b) = exchange();
    for slot in 1..=4 {
        assert!(a.has_final(slot, 10 + slot as u64) && b.has_final(slot, 10 + slot as u64), "slot {slot}");
    }
    assert_eq!(differences(&a.record, &b.record), Ok(Comparison::Votes(vec![])));
}

#[test]
fn what_one_writes_the_other_accepts() {
    let (a, b) = exchange();
    for (writer, slot) in [(&a, 1), (&b, 2), (&a, 3), (&b, 4)] {
        let block = 10 + slot as u64;
        let proof = writer.record.write_proof(Slot(slot), block).unwrap();
        let said = check_proof(&STAKES, &proof).unwrap();
        assert_eq!((said.slot, said.block, said.signers, said.weight), (Slot(slot), block, 2, Weight(2)));
        let kind = CertificateKind::NotarFallback;
        let certificate = writer.record.write_certificate(kind, Slot(slot), block).unwrap();
        assert_eq!(check_certificate(&STAKES, &certificate).map(|said| said.kind), Ok(kind));
        assert_eq!(check_proof(&STAKES, &certificate), Err(Refusal::NotAProof));
    }
    assert_eq!(a.record.write_certificate(CertificateKind::Skip, Slot(1), 0), Err(Refusal::NotHeld));
}
