//! Certificates from other members: a node that has no vote learns of finality by a certificate alone.

use quointrowel::*;

const STAKES: [u64; 3] = [4, 3, 3];

/// Node 1, with a notar vote of every node for block 7 of slot 1.
fn writer() -> Record {
    let mut record = Record::start(&STAKES, Node(1), 1).unwrap();
    let mut outbox = Outbox::new();
    record.block(&mut outbox, Block { slot: Slot(1), number: 7, parent_slot: Slot(0), parent: 1 }).unwrap();
    for node in [0, 2] {
        let vote = Vote { kind: VoteKind::Notar, node: Node(node), slot: Slot(1), block: 7 };
        record.vote(&mut outbox, vote).unwrap();
    }
    record
}

#[test]
fn a_certificate_alone_makes_a_block_final() {
    let writer = writer();
    let certificate = writer.write_certificate(CertificateKind::FastFinal, Slot(1), 7).unwrap();
    let mut record = Record::start(&STAKES, Node(2), 1).unwrap();
    let mut outbox = Outbox::new();
    assert_eq!(record.write_proof(Slot(1), 7), Err(Refusal::NotHeld));
    record.take(&mut outbox, &certificate).unwrap();
    assert!(outbox.events().any(|event| event == Event::Final { slot: Slot(1), block: 7 }));

    assert_eq!(record.write_proof(Slot(1), 7), writer.write_proof(Slot(1), 7));
    for kind in [CertificateKind::FastFinal, CertificateKind::Notar, CertificateKind::NotarFallback] {
        let written = record.write_certificate(kind, Slot(1), 7).unwrap();
        assert_eq!(check_certificate(&STAKES, &written).map(|said| (said.kind, said.signers)), Ok((kind, 3)));
    }
    let votes = |card: Card| (card.skip, card.final_votes, card.skip_certificate, card.leader);
    let none = (Weight(0), Weight(0), Weight(0), None);
    assert_eq!(record.card(Slot(1)).map(votes), Ok(none), "a kept certificate is no vote");
}

#[test]
fn a_refused_certificate_changes_nothing() {
    let certificate = writer().write_certificate(CertificateKind::FastFinal, Slot(1), 7).unwrap();
    let mut record = Record::start(&STAKES, Node(2), 1).unwrap();
    let mut outbox = Outbox::new();
    record.take(&mut outbox, &certificate).unwrap();
    let kept = record.clone();
    assert_eq!(record.take(&mut outbox, &certificate), Err(Refusal::AlreadyKept));
    assert_eq!(record.take(&mut outbox, &[1, 1, 8, 7, 0]), Err(Refusal::OtherStands));
    assert_eq!(record.take(&mut outbox, &[1, 2, 8, 3, 0]), Err(Refusal::TooLight { missing: Weight(0) }));
    assert_eq!(record.take(&mut outbox, &[1, 2, 8, 15, 0]), Err(Refusal::BadSigners));
    assert_eq!(record.take(&mut outbox, &[11, 2, 8, 7, 0]), Err(Refusal::BadLength));
    assert_eq!(record.take(&mut outbox, &certificate[1..]), Err(Refusal::BadLength));
    assert_eq!(record, kept);
    assert_eq!(outbox.events().count(), 0);
}

#[test]
fn up_to_nine_of_the_third_kind_are_kept() {
    let mut record = Record::start(&STAKES, Node(2), 1).unwrap();
    let mut outbox = Outbox::new();
    for block in 21..=29 {
        assert_eq!(record.take(&mut outbox, &[3, 2, block, 1, 2]), Ok(()));
    }
    assert_eq!(record.take(&mut outbox, &[3, 2, 30, 1, 2]), Err(Refusal::OtherStands));
    assert_eq!(
        record.write_certificate(CertificateKind::NotarFallback, Slot(2), 29),
        Ok(vec![3, 2, 29, 1, 2])
    );
}
