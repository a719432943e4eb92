//! A ring of 100 nodes: its certificates have masks of 32 words, which the wrapper's callers need not know.

use quointrowel::*;

const NODES: usize = 100;

/// Votes of nodes 1 to `last` in slot 1.
fn votes(kind: VoteKind, last: usize, block: u64) -> Vec<Vote> {
    (1..=last).map(|node| Vote { kind, node: Node(node), slot: Slot(1), block }).collect()
}

#[test]
fn a_ring_of_100() {
    let stakes = [1; NODES];
    let mut record = Record::start(&stakes, Node(0), 1).unwrap();
    let mut outbox = Outbox::new();
    let answers = record.tray(&mut outbox, &votes(VoteKind::Notar, 60, 7)).unwrap();
    assert!(answers.iter().all(Result::is_ok));
    assert_eq!(record.write_proof(Slot(1), 7), Err(Refusal::NotHeld));
    record.tray(&mut outbox, &votes(VoteKind::Final, 60, 0)).unwrap();
    assert!(outbox.events().any(|event| event == Event::Final { slot: Slot(1), block: 7 }));

    let notar = record.write_certificate(CertificateKind::Notar, Slot(1), 7).unwrap();
    assert_eq!(notar[0], 12);
    let said = check_certificate(&stakes, &notar).unwrap();
    assert_eq!((said.kind, said.signers, said.weight), (CertificateKind::Notar, 60, Weight(60)));
    assert_eq!(check_certificate(&stakes[..64], &notar), Err(Refusal::BadKind));

    let proof = record.write_proof(Slot(1), 7).unwrap();
    assert_eq!(check_proof(&stakes, &proof), Ok(said));
    let answers = record.tray(&mut outbox, &votes(VoteKind::Notar, 80, 7)).unwrap();
    assert_eq!(answers.iter().filter(|&&answer| answer == Err(Refusal::AlreadyKept)).count(), 60);
    let shorter = record.write_proof(Slot(1), 7).unwrap();
    assert_eq!(
        check_proof(&stakes, &shorter).map(|said| (said.kind, said.signers)),
        Ok((CertificateKind::FastFinal, 80))
    );
    assert!(shorter.len() < proof.len());
}
