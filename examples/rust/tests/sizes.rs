//! What a record's length and a refusal's number tell.

use quointrowel::*;

#[test]
fn a_record_tells_how_many_nodes_its_ring_has() {
    for nodes in [1, 3, 64, 65, 100, 2048] {
        let record = Record::watch(&vec![1; nodes], 1).unwrap();
        assert_eq!(record.nodes(), Some(nodes));
        let mut longer = record.words().to_vec();
        longer.push(0);
        assert_eq!(Record::from_words(longer).nodes(), None);
    }
    assert_eq!(Record::from_words(Vec::new()).nodes(), None);
}

#[test]
fn a_number_tells_its_refusal() {
    for number in 1..=18 {
        assert_eq!(Refusal::of_number(number).map(Refusal::number), Some(number));
    }
    assert_eq!(Refusal::of_number(0), None);
    assert_eq!(Refusal::of_number(19), None);
}
