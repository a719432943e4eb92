//! Bench cases B1 and B9 of the scope document, and what else a host of one small ring meets.

use quointrowel::*;

/// B1's node: one node, stake 5, genesis 1, and block 7 in slot 1.
fn b1() -> (Record, Outbox) {
    let mut record = Record::start(&[5], Node(0), 1).unwrap();
    let mut outbox = Outbox::new();
    record.block(&mut outbox, Block { slot: Slot(1), number: 7, parent_slot: Slot(0), parent: 1 }).unwrap();
    (record, outbox)
}

fn cast(kind: VoteKind, slot: usize, block: u64) -> Event {
    Event::Cast { kind, slot: Slot(slot), block }
}

fn vote(kind: VoteKind, node: usize, slot: usize, block: u64) -> Vote {
    Vote { kind, node: Node(node), slot: Slot(slot), block }
}

#[test]
fn b1_one_node_finalizes_its_block() {
    let (_, outbox) = b1();
    let told: Vec<Event> = outbox.events().collect();
    assert_eq!(
        told,
        [
            Event::Armed { slot: Slot(1) },
            cast(VoteKind::Notar, 1, 7),
            cast(VoteKind::Final, 1, 0),
            Event::Final { slot: Slot(1), block: 7 },
        ]
    );
}

#[test]
fn b9_its_proof_and_the_longer_one() {
    let (record, _) = b1();
    let proof = record.write_proof(Slot(1), 7).unwrap();
    assert_eq!(proof, [0x01, 0x01, 0x07, 0x01, 0x00]);
    let said = |kind| Checked { kind, slot: Slot(1), block: 7, signers: 1, weight: Weight(5) };
    assert_eq!(check_proof(&[5], &proof), Ok(said(CertificateKind::FastFinal)));

    let longer = [0x02, 0x01, 0x07, 0x01, 0x00, 0x05, 0x01, 0x00, 0x01, 0x00];
    assert_eq!(check_proof(&[5], &longer), Ok(said(CertificateKind::Notar)));
    assert_eq!(check_proof(&[5], &longer[..9]), Err(Refusal::BadLength));
    assert_eq!(check_proof(&[], &longer), Err(Refusal::BadSizes));
    let unsigned = [0x02, 0x01, 0x07, 0x01, 0x00, 0x05, 0x01, 0x00, 0x00, 0x00];
    assert_eq!(check_proof(&[5], &unsigned), Err(Refusal::TooLight { missing: Weight(3) }));
}

#[test]
fn a_proof_comes_byte_by_byte() {
    let proof = b1().0.write_proof(Slot(1), 7).unwrap();
    let mut arriving = ProofInPieces::new();
    assert_eq!(arriving.end(), Err(Refusal::BadLength));
    for byte in &proof {
        arriving.piece(&[5], &[*byte]).unwrap();
    }
    assert_eq!(arriving.end(), check_proof(&[5], &proof));
    assert_eq!(arriving.piece(&[0], &proof), Err(Refusal::BadSizes));
}

#[test]
fn a_refusal_changes_nothing() {
    let (mut record, mut outbox) = b1();
    let before = record.clone();
    assert_eq!(record.vote(&mut outbox, vote(VoteKind::Notar, 0, 1, 7)), Err(Refusal::OwnName));
    assert_eq!(record.vote(&mut outbox, vote(VoteKind::Skip, 1, 1, 0)), Err(Refusal::BadNode));
    assert_eq!(record.timeout(&mut outbox, Slot(17)), Err(Refusal::BadSlot));
    assert_eq!(record.timeout(&mut outbox, Slot(9)), Err(Refusal::NotArmed));
    assert_eq!(record.write_proof(Slot(2), 7), Err(Refusal::NotHeld));
    assert_eq!(record, before);
    assert_eq!(outbox.events().count(), 0);
    assert_eq!(Record::start(&[1, 0], Node(0), 1), Err(Refusal::BadSizes));
}

#[test]
fn a_record_is_stored_and_taken_up_again() {
    let (record, mut outbox) = b1();
    let mut again = Record::from_words(record.words().to_vec());
    assert_eq!(again.timeout(&mut outbox, Slot(2)), Ok(()));
    assert_eq!(outbox.events().next(), Some(cast(VoteKind::Skip, 2, 0)));
    let mut cut = Record::from_words(record.words()[1..].to_vec());
    assert_eq!(cut.look(&mut outbox), Err(Refusal::BadRecord));
}

#[test]
fn a_tray_answers_each_vote() {
    let mut record = Record::start(&[4, 3, 3], Node(0), 1).unwrap();
    let mut outbox = Outbox::new();
    let first = vote(VoteKind::Notar, 1, 1, 7);
    let votes = [first, vote(VoteKind::Notar, 0, 1, 7), first, vote(VoteKind::Skip, 2, 1, 0)];
    let answers = record.tray(&mut outbox, &votes).unwrap();
    assert_eq!(answers, [Ok(()), Err(Refusal::OwnName), Err(Refusal::AlreadyKept), Ok(())]);
    assert_eq!(record.tray(&mut outbox, &[]), Ok(vec![]));
}

#[test]
fn a_card_tells_what_votes_weigh() {
    let mut record = Record::start(&[4, 3, 3], Node(0), 1).unwrap();
    let mut outbox = Outbox::new();
    let card = |skip, final_votes, skip_certificate, leader: Option<(u64, u64)>| Card {
        skip: Weight(skip),
        final_votes: Weight(final_votes),
        skip_certificate: Weight(skip_certificate),
        leader: leader.map(|(block, weight)| (block, Weight(weight))),
    };
    assert_eq!(record.card(Slot(2)), Ok(card(0, 0, 0, None)));
    record.vote(&mut outbox, vote(VoteKind::Notar, 1, 2, 9)).unwrap();
    assert_eq!(record.card(Slot(2)), Ok(card(0, 0, 0, Some((9, 3)))));
    let more = [
        vote(VoteKind::Notar, 2, 2, 8),
        vote(VoteKind::Final, 2, 2, 0),
        vote(VoteKind::SkipFallback, 1, 2, 0),
        vote(VoteKind::Skip, 2, 3, 0),
        vote(VoteKind::SkipFallback, 2, 3, 0),
    ];
    assert_eq!(record.tray(&mut outbox, &more), Ok(vec![Ok(()); 5]));
    assert_eq!(record.card(Slot(2)), Ok(card(0, 3, 3, Some((8, 3)))));
    assert_eq!(record.card(Slot(3)), Ok(card(3, 0, 3, None)));
    assert_eq!(record.card(Slot(17)), Err(Refusal::BadSlot));
    assert_eq!(Record::from_words(vec![]).card(Slot(1)), Err(Refusal::BadRecord));
}

#[test]
fn a_record_is_read() {
    let (record, _) = b1();
    assert_eq!(record.final_block(Slot(1)), Ok(Some(7)));
    assert_eq!(record.final_block(Slot(2)), Ok(None));
    assert_eq!([4, 5].map(|slot| record.is_armed(Slot(slot))), [Ok(true), Ok(false)]);
    let own = vec![vote(VoteKind::Notar, 0, 1, 7), vote(VoteKind::Final, 0, 1, 0)];
    assert_eq!(record.kept_votes(Slot(1), Node(0)), Ok(own));
    assert_eq!(record.kept_votes(Slot(16), Node(0)), Ok(vec![]));
    assert_eq!(record.kept_votes(Slot(1), Node(1)), Err(Refusal::BadNode));
    assert_eq!(record.kept_votes(Slot(0), Node(1)), Err(Refusal::BadSlot));
    let cut = Record::from_words(record.words()[1..].to_vec());
    assert_eq!(cut.final_block(Slot(1)), Err(Refusal::BadRecord));
    assert_eq!(cut.is_armed(Slot(0)), Err(Refusal::BadRecord));
}

#[test]
fn own_votes_stand_on_what_a_record_holds() {
    let (mut record, mut outbox) = (Record::start(&[4, 3, 3], Node(0), 1).unwrap(), Outbox::new());
    let (notar, last) = (vote(VoteKind::Notar, 2, 1, 9), vote(VoteKind::Final, 2, 1, 0));
    record.vote(&mut outbox, notar).unwrap();
    record.vote(&mut outbox, last).unwrap();
    assert_eq!(record.fallen(), Ok(vec![]));
    // The words under another member's number: its votes do not stand on them.
    let mut words = record.words().to_vec();
    words[2] = 2;
    let found = vec![Fallen { vote: notar, rule: Rule::B }, Fallen { vote: last, rule: Rule::C }];
    assert_eq!(Record::from_words(words).fallen(), Ok(found));
    assert_eq!(Record::from_words(vec![]).fallen(), Err(Refusal::BadRecord));
}

#[test]
fn a_record_tells_of_the_votes_that_others_count_it_for() {
    let start = |own| Record::start(&[4, 3, 3], Node(own), 1).unwrap();
    let (mut tokyo, zurich, mut outbox) = (start(0), start(2), Outbox::new());
    let (notar, last) = (vote(VoteKind::Notar, 2, 1, 9), vote(VoteKind::Final, 2, 1, 0));
    assert_eq!(tokyo.lacked_by(&zurich), Ok(vec![]));
    tokyo.vote(&mut outbox, notar).unwrap();
    let stored = Lacked { vote: notar, certificate: None };
    assert_eq!(tokyo.lacked_by(&zurich), Ok(vec![stored]));
    assert_eq!(zurich.lacked_by(&tokyo), Ok(vec![]));
    // A proof for block 9 that tokyo and zurich signed.
    let proof = [2, 1, 9, 5, 0, 5, 1, 0, 5, 0];
    let counted = [(notar, CertificateKind::Notar), (last, CertificateKind::Final)];
    let counted = counted.map(|(vote, kind)| Lacked { vote, certificate: Some(kind) });
    assert_eq!(zurich.lacks_of(&proof), Ok(counted.to_vec()));
    assert_eq!(zurich.lacks_of(&proof[..9]), Err(Refusal::BadLength));
    assert_eq!(Record::start(&[4, 3, 2], Node(2), 1).unwrap().lacked_by(&tokyo), Err(Refusal::BadSizes));
}

#[test]
fn one_number_with_two_parents_is_told_of_both_sides() {
    let start = |own| Record::start(&[4, 3, 3], Node(own), 1).unwrap();
    let (mut tokyo, mut zurich, mut outbox) = (start(0), start(2), Outbox::new());
    let block =
        |slot, number, parent| Block { slot: Slot(slot), number, parent_slot: Slot(slot - 1), parent };
    for (slot, number) in [(2, 7), (2, 8), (6, 8), (16, 7)] {
        tokyo.block(&mut outbox, block(slot, number, 5)).unwrap();
    }
    for (slot, number, parent) in [(16, 7, 6), (6, 8, 5), (6, 9, 6), (2, 8, 6)] {
        zurich.block(&mut outbox, block(slot, number, parent)).unwrap();
    }
    let told = vec![(block(2, 8, 5), block(2, 8, 6)), (block(16, 7, 5), block(16, 7, 6))];
    assert_eq!(tokyo.told_twice(&zurich), Ok(told));
    assert_eq!(tokyo.told_twice(&tokyo), Ok(vec![]));
    assert_eq!(Record::start(&[4, 3, 2], Node(2), 1).unwrap().told_twice(&tokyo), Err(Refusal::BadSizes));
    assert_eq!(tokyo.told_twice(&Record::from_words(vec![])), Err(Refusal::BadRecord));
}

#[test]
fn what_the_votes_weigh_for_a_block_is_read() {
    let (mut record, mut outbox) = (Record::start(&[1; 10], Node(0), 1).unwrap(), Outbox::new());
    let mut vote = |kind, node, block| {
        let vote = Vote { kind, node: Node(node), slot: Slot(2), block };
        assert_eq!(record.vote(&mut outbox, vote), Ok(()));
    };
    vote(VoteKind::Notar, 1, 7);
    vote(VoteKind::NotarFallback, 1, 7);
    vote(VoteKind::NotarFallback, 2, 7);
    (3..7).for_each(|node| vote(VoteKind::Skip, node, 0));
    let weights = |notar, notar_fallback, skip, missing| BlockWeights {
        notar: Weight(notar),
        notar_fallback: Weight(notar_fallback),
        skip: Weight(skip),
        missing: Weight(missing),
    };
    assert_eq!(record.block_weights(Slot(2), 7), Ok(weights(1, 2, 4, 1)));
    assert_eq!(record.block_weights(Slot(2), 9), Ok(weights(0, 0, 4, 2)));
    assert_eq!(record.block_weights(Slot(3), 7), Ok(weights(0, 0, 0, 4)));
    assert_eq!(record.block_weights(Slot(2), 0), Err(Refusal::BadBlock));
    assert_eq!(record.block_weights(Slot(17), 0), Err(Refusal::BadSlot));
    let cut = Record::from_words(record.words()[1..].to_vec());
    assert_eq!(cut.block_weights(Slot(17), 0), Err(Refusal::BadRecord));
}

#[test]
fn kept_certificates_are_told_as_they_were_checked() {
    const STAKES: [u64; 5] = [1, 2, 3, 4, 5];
    let (mut record, mut outbox) = (Record::start(&STAKES, Node(0), 1).unwrap(), Outbox::new());
    let packets: [&[u8]; 4] = [&[3, 1, 7, 24, 0], &[5, 1, 0, 22, 0], &[3, 1, 9, 12, 16], &[2, 1, 7, 25, 0]];
    for packet in packets {
        assert_eq!(record.take(&mut outbox, packet), Ok(()));
    }
    let in_order = [3, 1, 0, 2].map(|n: usize| check_certificate(&STAKES, packets[n]).unwrap());
    assert_eq!(record.kept_certificates(Slot(1)), Ok(in_order.to_vec()));
    assert_eq!(record.kept_certificates(Slot(2)), Ok(vec![]));
    assert_eq!(record.kept_certificates(Slot(0)), Err(Refusal::BadSlot));
    let cut = Record::from_words(record.words()[1..].to_vec());
    assert_eq!(cut.kept_certificates(Slot(0)), Err(Refusal::BadRecord));
}

#[test]
fn what_a_record_keeps_is_read() {
    let (mut record, mut outbox) = (Record::start(&[2, 2, 3], Node(2), 9).unwrap(), Outbox::new());
    let block = |number, parent| Block { slot: Slot(2), number, parent_slot: Slot(1), parent };
    let announced = [block(8, 5), block(7, 6), block(11, 6), block(10, 5)];
    for block in announced {
        assert_eq!(record.block(&mut outbox, block), Ok(()));
    }
    assert_eq!(record.kept_blocks(Slot(2)), Ok(announced.to_vec()));
    assert_eq!(record.kept_blocks(Slot(1)), Ok(vec![]));
    assert_eq!(record.timeout(&mut outbox, Slot(3)), Ok(()));
    let marked = |slot| record.slot_marks(Slot(slot)).unwrap();
    assert_eq!([2, 3].map(marked), [false, true].map(|timed_out| Marks { timed_out, conflict: false }));
    assert_eq!(record.head(), Ok(Head { own: Node(2), nodes: 3, stake: Weight(7), genesis: 9 }));
    assert_eq!(Record::watch(&[2, 2, 3], 9).unwrap().head().map(|head| head.own), Ok(Node(3)));
    assert_eq!(record.kept_blocks(Slot(17)), Err(Refusal::BadSlot));
    assert_eq!(record.slot_marks(Slot(0)), Err(Refusal::BadSlot));
    let cut = Record::from_words(record.words()[1..].to_vec());
    assert_eq!(cut.kept_blocks(Slot(0)), Err(Refusal::BadRecord));
    assert_eq!(cut.slot_marks(Slot(0)), Err(Refusal::BadRecord));
    assert_eq!(cut.head(), Err(Refusal::BadRecord));
}

#[test]
fn two_records_are_compared() {
    let start = |own| Record::start(&[4, 3, 3], Node(own), 1).unwrap();
    let (mut tokyo, mut zurich, mut outbox) = (start(0), start(1), Outbox::new());
    assert_eq!(differences(&tokyo, &zurich), Ok(Comparison::Votes(vec![])));
    let (eight, nine) = (vote(VoteKind::Notar, 2, 1, 8), vote(VoteKind::Notar, 2, 1, 9));
    tokyo.vote(&mut outbox, nine).unwrap();
    zurich.vote(&mut outbox, eight).unwrap();
    let found =
        vec![Difference { vote: eight, side: Side::Second }, Difference { vote: nine, side: Side::First }];
    assert_eq!(differences(&tokyo, &zurich), Ok(Comparison::Votes(found)));
    let others = Record::start(&[4, 3, 2], Node(0), 1).unwrap();
    assert_eq!(differences(&tokyo, &others), Ok(Comparison::OtherStakes));
    let none = Record::from_words(vec![]);
    assert_eq!(differences(&tokyo, &none), Err((Side::Second, Refusal::BadRecord)));
}

/// A slot's first block as it comes, a further one with 40 percent, or with 20 and 60 with the skip votes; refused as the block is.
#[test]
fn blocks_are_announced_by_the_policy() {
    let mut record = Record::start(&[1; 5], Node(0), 1).unwrap();
    let mut outbox = Outbox::new();
    let of = |number| Block { slot: Slot(1), number, parent_slot: Slot(0), parent: 1 };
    let vote = |kind, node, block| Vote { kind, node: Node(node), slot: Slot(1), block };
    assert_eq!(record.may_announce(of(7)), Ok(true));
    record.block(&mut outbox, of(7)).unwrap();
    assert_eq!(record.may_announce(of(7)), Err(Refusal::AlreadyKept));
    assert_eq!(record.may_announce(of(8)), Ok(false));
    record.vote(&mut outbox, vote(VoteKind::Notar, 1, 8)).unwrap();
    assert_eq!(record.may_announce(of(8)), Ok(false));
    record.vote(&mut outbox, vote(VoteKind::Notar, 2, 8)).unwrap();
    assert_eq!(record.may_announce(of(8)), Ok(true));
    record.block(&mut outbox, of(8)).unwrap();
    assert_eq!(record.may_announce(Block { slot: Slot(17), ..of(9) }), Err(Refusal::BadSlot));
    assert_eq!(record.may_announce(of(0)), Err(Refusal::BadBlock));
    assert_eq!(record.may_announce(Block { parent: 2, ..of(9) }), Err(Refusal::BadParent));
    let cut = Record::from_words(record.words()[1..].to_vec());
    assert_eq!(cut.may_announce(of(9)), Err(Refusal::BadRecord));
}

/// A proof of two certificates, handed over as it is: the block is final, whatever of it was kept before.
#[test]
fn a_proof_is_taken_as_it_comes() {
    let stakes = [4, 3, 3];
    let mut outbox = Outbox::new();
    let mut writer = Record::start(&stakes, Node(0), 1).unwrap();
    let block = Block { slot: Slot(1), number: 7, parent_slot: Slot(0), parent: 1 };
    writer.block(&mut outbox, block).unwrap();
    for kind in [VoteKind::Notar, VoteKind::Final] {
        let block = if kind == VoteKind::Notar { 7 } else { 0 };
        writer.vote(&mut outbox, Vote { kind, node: Node(1), slot: Slot(1), block }).unwrap();
    }
    let proof = writer.write_proof(Slot(1), 7).unwrap();
    let notar = writer.write_certificate(CertificateKind::Notar, Slot(1), 7).unwrap();
    let last = writer.write_certificate(CertificateKind::Final, Slot(1), 0).unwrap();
    assert_eq!(proof, [notar.clone(), last.clone()].concat());
    for before in [vec![], vec![&notar], vec![&last], vec![&notar, &last]] {
        let mut record = Record::start(&stakes, Node(2), 1).unwrap();
        for packet in &before {
            record.take(&mut outbox, packet).unwrap();
        }
        assert_eq!(record.split_proof(&proof), Ok(notar.len()));
        record.take_proof(&mut outbox, &proof).unwrap();
        let told = outbox.events().filter(|event| matches!(event, Event::Final { .. })).count();
        assert_eq!(told, usize::from(before.len() < 2));
        assert_eq!(record.final_block(Slot(1)), Ok(Some(7)));
        assert_eq!(record.take(&mut outbox, &notar), Err(Refusal::AlreadyKept));
        assert_eq!(record.take(&mut outbox, &last), Err(Refusal::AlreadyKept));
    }
    // Half of it, and one whose first certificate finds another block's in its place: nothing is taken.
    let mut record = Record::start(&stakes, Node(2), 1).unwrap();
    assert_eq!(record.take_proof(&mut outbox, &notar), Err(Refusal::BadLength));
    let mut other = notar.clone();
    other[2] = 8;
    record.take(&mut outbox, &other).unwrap();
    let before = record.clone();
    assert_eq!(record.take_proof(&mut outbox, &proof), Err(Refusal::OtherStands));
    assert_eq!(outbox.events().count(), 0);
    assert_eq!(record, before);
}
