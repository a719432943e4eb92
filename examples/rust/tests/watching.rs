//! A watcher: a node that never votes, and follows another by what that one was given and what it cast.

use quointrowel::*;

const STAKES: [u64; 3] = [4, 3, 3];
const BLOCK: Block = Block { slot: Slot(1), number: 7, parent_slot: Slot(0), parent: 1 };

fn notar(node: usize) -> Vote {
    Vote { kind: VoteKind::Notar, node: Node(node), slot: Slot(1), block: 7 }
}

/// Gives the watcher the votes that node 0 cast in its last call.
fn follow(watcher: &mut Record, cast: &Outbox) {
    let mut outbox = Outbox::new();
    for vote in cast.events().filter_map(|event| event.vote(Node(0))) {
        watcher.vote(&mut outbox, vote).unwrap();
    }
}

#[test]
fn a_watcher_follows_a_node() {
    let mut node = Record::start(&STAKES, Node(0), 1).unwrap();
    let mut watcher = Record::watch(&STAKES, 1).unwrap();
    let (mut cast, mut told) = (Outbox::new(), Outbox::new());
    node.block(&mut cast, BLOCK).unwrap();
    watcher.block(&mut told, BLOCK).unwrap();
    assert_eq!(told.events().collect::<Vec<_>>(), [Event::Armed { slot: Slot(1) }]);
    follow(&mut watcher, &cast);
    for other in [1, 2] {
        node.vote(&mut cast, notar(other)).unwrap();
        follow(&mut watcher, &cast);
        watcher.vote(&mut told, notar(other)).unwrap();
    }
    assert_eq!(told.events().collect::<Vec<_>>(), [Event::Final { slot: Slot(1), block: 7 }]);
    assert_eq!(differences(&node, &watcher), Ok(Comparison::Votes(vec![])));
    assert_eq!(watcher.card(Slot(1)), node.card(Slot(1)));

    let proof = watcher.write_proof(Slot(1), 7).unwrap();
    assert_eq!(node.write_proof(Slot(1), 7), Ok(proof.clone()));
    assert_eq!(check_proof(&STAKES, &proof).map(|said| (said.block, said.signers)), Ok((7, 3)));
}

#[test]
fn it_takes_every_name_and_refuses_timeouts() {
    let mut watcher = Record::watch(&STAKES, 1).unwrap();
    let mut outbox = Outbox::new();
    for node in 0..STAKES.len() {
        assert_eq!(watcher.vote(&mut outbox, notar(node)), Ok(()));
    }
    assert_eq!(watcher.vote(&mut outbox, notar(STAKES.len())), Err(Refusal::BadNode));
    let before = watcher.clone();
    for slot in [0, 1, 17] {
        assert_eq!(watcher.timeout(&mut outbox, Slot(slot)), Err(Refusal::BadKind));
    }
    assert_eq!(watcher, before);
    assert_eq!(Record::watch(&STAKES, 0), Err(Refusal::BadSizes));
    assert_eq!(Record::watch(&[], 1), Err(Refusal::BadSizes));
}
