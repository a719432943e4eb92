//! The bench cases of the document, and corners that are easily missed.

use crate::cover::cover;
use crate::gen;
use crate::help;
use crate::message::{self, Message};
use crate::node::{Cert, Node, Record, Vote, LAST_SLOT};
use crate::packet::{check, check_proof, put_number, take_number, write_cert, write_proof, Checked};
use crate::panel::{lines, show_hex, Answer, Panel, LONGEST_LINE, MOST_LINES};
use crate::read::weights;
use crate::refusal::Refusal;
use crate::stakes::{Signers, Stakes, MOST_NODES, P20, P40, P60, P80};
use std::collections::BTreeSet;

// ---- helpers ----

fn node(own: u64, stakes: &[u64]) -> Node {
    Node::start(own, 1, stakes).unwrap()
}

fn ten() -> Node {
    node(0, &[1; 10])
}

fn shown(records: Vec<Record>) -> Vec<(u64, u64, u64)> {
    records.into_iter().map(|r| (r.kind, r.slot, r.block)).collect()
}

fn vote(node: &mut Node, kind: u64, from: u64, slot: u64, block: u64) -> Vec<(u64, u64, u64)> {
    shown(node.vote(kind, from, slot, block).unwrap())
}

fn votes(
    node: &mut Node,
    kind: u64,
    from: std::ops::RangeInclusive<u64>,
    slot: u64,
    block: u64,
) -> Vec<(u64, u64, u64)> {
    from.flat_map(|n| vote(node, kind, n, slot, block)).collect()
}

fn block(node: &mut Node, slot: u64, number: u64, parent_slot: u64, parent: u64) -> Vec<(u64, u64, u64)> {
    shown(node.block(slot, number, parent_slot, parent).unwrap())
}

fn timeout(node: &mut Node, slot: u64) -> Vec<(u64, u64, u64)> {
    shown(node.timeout(slot).unwrap())
}

fn look(node: &mut Node) -> Vec<(u64, u64, u64)> {
    shown(node.look())
}

fn refused<T: std::fmt::Debug>(result: Result<T, Refusal>) -> u64 {
    result.unwrap_err().number()
}

fn bytes(hex: &str) -> Vec<u8> {
    hex.split_whitespace().map(|byte| u8::from_str_radix(byte, 16).unwrap()).collect()
}

fn run(script: &str) -> Vec<String> {
    let mut panel = Panel::default();
    let answers = lines(script.as_bytes()).into_iter().filter_map(|line| panel.line(line));
    answers.flat_map(Answer::lines).collect()
}

// ---- bench cases ----

#[test]
fn b1_one_node_finalizes_its_block() {
    let mut n = node(0, &[5]);
    assert_eq!(block(&mut n, 1, 7, 0, 1), [(7, 1, 0), (1, 1, 7), (5, 1, 0), (6, 1, 7)]);
}

#[test]
fn b2_timeout_skips_the_armed_window() {
    let mut n = node(0, &[5]);
    assert_eq!(look(&mut n), [(7, 1, 0)]);
    assert_eq!(timeout(&mut n, 1), [(3, 1, 0), (3, 2, 0), (3, 3, 0), (3, 4, 0), (7, 5, 0)]);

    let mut unlooked = node(0, &[5]);
    assert_eq!(refused(unlooked.timeout(1)), 10);
}

#[test]
fn b3_thresholds_of_certificates() {
    let ten = Stakes::new(&[10]).unwrap();
    assert!(ten.reaches(6, P60) && !ten.reaches(5, P60));
    assert!(ten.reaches(8, P80) && !ten.reaches(7, P80));
    let eleven = Stakes::new(&[11]).unwrap();
    assert!(eleven.reaches(7, P60) && !eleven.reaches(6, P60));
    assert!(eleven.reaches(9, P80) && !eleven.reaches(8, P80));
}

#[test]
fn b3_as_held_certificates() {
    for (total, notar, fast) in [(10u64, 6u64, 8u64), (11, 7, 9)] {
        let mut n = node(0, &vec![1; total as usize]);
        for signed in 1..total {
            vote(&mut n, 1, signed, 2, 9);
            assert_eq!(n.holds(2, Cert::Notar(9)), signed >= notar, "{signed} of {total}");
            assert_eq!(n.holds(2, Cert::FastFinal(9)), signed >= fast, "{signed} of {total}");
        }
    }
}

#[test]
fn b4_no_fallback_after_the_own_final() {
    let mut n = ten();
    assert_eq!(block(&mut n, 1, 7, 0, 1), [(7, 1, 0), (1, 1, 7)]);
    assert_eq!(votes(&mut n, 1, 1..=4, 1, 7), []);
    assert_eq!(vote(&mut n, 1, 5, 1, 7), [(5, 1, 0)]);
    assert_eq!(votes(&mut n, 3, 6..=8, 1, 0), []);
    assert_eq!(vote(&mut n, 3, 9, 1, 0), [(3, 2, 0), (3, 3, 0), (3, 4, 0)]);
    assert!(!n.own_cell(1).skip_fallback);
}

#[test]
fn b5_three_fallbacks_lowest_first() {
    let mut n = ten();
    look(&mut n);
    assert_eq!(timeout(&mut n, 1)[0], (3, 1, 0));
    votes(&mut n, 3, 1..=2, 1, 0);
    // The order in which the blocks came is not theirs by number.
    assert_eq!(votes(&mut n, 1, 4..=5, 1, 23), []);
    assert_eq!(votes(&mut n, 1, 6..=7, 1, 21), []);
    assert_eq!(votes(&mut n, 1, 8..=9, 1, 22), []);
    assert_eq!(vote(&mut n, 3, 3, 1, 0), [(2, 1, 21), (2, 1, 22), (2, 1, 23)]);
}

#[test]
fn b6_two_votes_of_one_node_weigh_once() {
    let mut n = ten();
    votes(&mut n, 3, 1..=5, 3, 0);
    votes(&mut n, 4, 1..=5, 3, 0);
    assert!(!n.holds(3, Cert::Skip));
    assert_eq!(refused(write_cert(&n, 4, 3, 0)), 18);
    vote(&mut n, 4, 6, 3, 0);
    assert!(n.holds(3, Cert::Skip));
    assert_eq!(n.signers(3, Cert::Skip), (Signers::from([1, 2, 3, 4, 5]), Signers::from([6])));
}

#[test]
fn b7_kinds_2_and_4_side_by_side() {
    let mut n = node(9, &[1; 10]);
    votes(&mut n, 1, 0..=5, 2, 7);
    votes(&mut n, 3, 6..=8, 2, 0);
    look(&mut n);
    // The own node is the fourth that skips.
    assert_eq!(timeout(&mut n, 2)[..4], [(3, 1, 0), (3, 2, 0), (3, 3, 0), (3, 4, 0)]);
    assert!(n.holds(2, Cert::Notar(7)) && !n.holds(2, Cert::Skip));
    votes(&mut n, 4, 0..=1, 2, 0);
    assert!(n.holds(2, Cert::Notar(7)) && n.holds(2, Cert::Skip));
    assert!(write_cert(&n, 2, 2, 7).is_ok() && write_cert(&n, 4, 2, 0).is_ok());
}

#[test]
fn b8_numbers() {
    for (number, hex) in [(0, "00"), (127, "7F"), (128, "80 01"), (300, "AC 02")] {
        let mut packet = Vec::new();
        put_number(&mut packet, number);
        assert_eq!(packet, bytes(hex));
        assert_eq!(take_number(&mut packet.as_slice()), Ok(number));
    }
    assert_eq!(refused(take_number(&mut bytes("80 00").as_slice())), 13);
    assert_eq!(refused(check(&bytes("80 00"), &[5])), 13);
}

#[test]
fn b9_proofs() {
    let mut n = node(0, &[5]);
    block(&mut n, 1, 7, 0, 1);
    let proof = write_proof(&n, 1, 7).unwrap();
    assert_eq!(proof, bytes("01 01 07 01 00"));
    let answer = Checked { kind: 1, slot: 1, block: 7, count: 1, weight: 5 };
    assert_eq!(check_proof(&proof, &[5]), Ok(answer));
    let slow = bytes("02 01 07 01 00 05 01 00 01 00");
    assert_eq!(check_proof(&slow, &[5]), Ok(Checked { kind: 2, ..answer }));
}

#[test]
fn b10_parent_over_skipped_slots() {
    for missing in [None, Some(3), Some(4)] {
        let mut n = ten();
        look(&mut n);
        votes(&mut n, 1, 1..=3, 2, 7);
        votes(&mut n, 2, 4..=6, 2, 7);
        assert!(n.holds(2, Cert::NotarFallback(7)) && !n.holds(2, Cert::Notar(7)));
        for slot in [3, 4] {
            let voters = if missing == Some(slot) { 1..=5 } else { 1..=6 };
            votes(&mut n, 3, voters, slot, 0);
        }
        assert_eq!(n.ready(5, 2, 7), missing.is_none());
        assert_eq!(n.is_armed(5), missing.is_none());
        let voted = block(&mut n, 5, 50, 2, 7);
        assert_eq!(voted.contains(&(1, 5, 50)), missing.is_none());
    }
}

/// Nodes 0, 1 stand by block 7, nodes 2, 3 by block 8, and node 4 shows each
/// side another vote.
#[test]
fn b11_a_faulty_fifth_gives_two_proofs() {
    let side = |own: u64, block_number: u64, fellow: u64| {
        let mut n = node(own, &[1; 5]);
        block(&mut n, 1, block_number, 0, 1);
        vote(&mut n, 1, fellow, 1, block_number);
        assert_eq!(vote(&mut n, 1, 4, 1, block_number)[0], (5, 1, 0));
        vote(&mut n, 5, fellow, 1, 0);
        assert_eq!(vote(&mut n, 5, 4, 1, 0), [(6, 1, block_number)]);
        write_proof(&n, 1, block_number).unwrap()
    };
    let one = side(0, 7, 1);
    let other = side(2, 8, 3);
    assert_eq!(check_proof(&one, &[1; 5]).unwrap().block, 7);
    assert_eq!(check_proof(&other, &[1; 5]).unwrap().block, 8);
}

// ---- sizes ----

#[test]
fn start_refuses_what_breaks_the_sizes() {
    let start =
        |own, genesis, stakes: &[u64]| Node::start(own, genesis, stakes).map(|_| ()).map_err(Refusal::number);
    assert_eq!(start(0, 1, &[]), Err(1));
    assert_eq!(start(0, 1, &[1; 2049]), Err(1));
    assert_eq!(start(63, u64::MAX, &[1; 64]), Ok(()));
    assert_eq!(start(64, 1, &[1; 64]), Err(1));
    assert_eq!(start(2047, 1, &[1; 2048]), Ok(()));
    assert_eq!(start(2048, 1, &[1; 2048]), Err(1));
    assert_eq!(start(0, 1, &[1 << 37; 2048]), Ok(()));
    assert_eq!(start(0, 1, &[(1 << 37) + 1; 2048]), Err(1));
    assert_eq!(start(1, 1, &[1]), Err(1));
    assert_eq!(start(0, 0, &[1]), Err(1));
    assert_eq!(start(0, 1, &[1, 0, 1]), Err(1));
    assert_eq!(start(0, 1, &[1 << 48]), Ok(()));
    assert_eq!(start(0, 1, &[1 << 48, 1]), Err(1));
    assert_eq!(start(0, 1, &[1 << 63, 1 << 63, 4]), Err(1));
}

#[test]
fn largest_total_does_not_overflow() {
    let half = 1 << 47;
    let stakes = Stakes::new(&[half, half]).unwrap();
    assert!(stakes.reaches(half, P40) && !stakes.reaches(half, P60));
    let fifth = ((1u64 << 48) + 4) / 5;
    assert!(stakes.reaches(fifth, P20) && !stakes.reaches(fifth - 1, P20));
}

#[test]
fn missing_is_the_least_weight_that_reaches() {
    for total in 1..=26 {
        let stakes = Stakes::new(&[total]).unwrap();
        for (fifths, threshold) in [(1, P20), (2, P40), (3, P60), (4, P80)] {
            for weight in 0..=total {
                let enough = |x: u64| 5 * (weight + x) >= fifths * total;
                let missing = stakes.missing(weight, threshold);
                assert!(enough(missing) && (missing == 0 || !enough(missing - 1)), "{weight} of {total}");
                assert_eq!(stakes.reaches(weight, threshold), missing == 0);
            }
        }
    }
    let most = Stakes::new(&[1 << 48]).unwrap();
    assert_eq!(most.missing(0, P80), 225_179_981_368_525);
    assert_eq!(most.missing(1 << 48, P80), 0);
}

// ---- refusals and their order ----

#[test]
fn vote_refusals_in_order() {
    let mut n = ten();
    assert_eq!(refused(n.vote(0, 99, 0, 7)), 4);
    assert_eq!(refused(n.vote(6, 99, 0, 7)), 4);
    assert_eq!(refused(n.vote(1, 99, 17, 0)), 3);
    assert_eq!(refused(n.vote(1, 10, 16, 0)), 2);
    assert_eq!(refused(n.vote(1, 0, 16, 0)), 6);
    assert_eq!(refused(n.vote(1, 1, 16, 0)), 5);
    assert_eq!(refused(n.vote(2, 1, 16, 0)), 5);
    for kind in 3..=5 {
        assert_eq!(refused(n.vote(kind, 1, 16, 7)), 5);
    }
    assert!(n.stored_votes().is_empty());
}

#[test]
fn repeats_and_second_votes() {
    let mut n = ten();
    vote(&mut n, 1, 1, 2, 7);
    assert_eq!(refused(n.vote(1, 1, 2, 7)), 7);
    assert_eq!(refused(n.vote(1, 1, 2, 8)), 8);
    assert_eq!(refused(n.vote(3, 1, 2, 0)), 8);
    vote(&mut n, 3, 2, 2, 0);
    assert_eq!(refused(n.vote(3, 2, 2, 0)), 7);
    assert_eq!(refused(n.vote(1, 2, 2, 7)), 8);
    for kind in [4, 5] {
        vote(&mut n, kind, 1, 2, 0);
        assert_eq!(refused(n.vote(kind, 1, 2, 0)), 7);
    }
    // A fallback to the block that the node notarized is stored.
    for b in [7, 9, 8] {
        vote(&mut n, 2, 1, 2, b);
    }
    for b in [7, 8, 9] {
        assert_eq!(refused(n.vote(2, 1, 2, b)), 7);
    }
    assert_eq!(refused(n.vote(2, 1, 2, 10)), 8);
    // Other slots and other nodes have places of their own.
    vote(&mut n, 1, 1, 3, 8);
    vote(&mut n, 2, 3, 2, 10);
}

#[test]
fn block_refusals_in_order() {
    let mut n = ten();
    assert_eq!(refused(n.block(0, 0, 0, 0)), 3);
    assert_eq!(refused(n.block(17, 0, 0, 0)), 3);
    assert_eq!(refused(n.block(2, 0, 2, 1)), 5);
    assert_eq!(refused(n.block(2, 5, 2, 0)), 5);
    assert_eq!(refused(n.block(2, 5, 2, 1)), 11);
    assert_eq!(refused(n.block(2, 5, u64::MAX, 1)), 11);
    assert_eq!(refused(n.block(2, 5, 0, 2)), 11);
    block(&mut n, 2, 5, 0, 1);
    assert_eq!(refused(n.block(2, 5, 0, 1)), 7);
    assert_eq!(refused(n.block(2, 5, 0, 2)), 11);
    assert_eq!(refused(n.block(2, 5, 1, 1)), 8);
    block(&mut n, 2, 6, 0, 1);
}

#[test]
fn timeout_refusals_in_order() {
    let mut n = ten();
    assert_eq!(refused(n.timeout(0)), 3);
    assert_eq!(refused(n.timeout(17)), 3);
    assert_eq!(refused(n.timeout(1)), 10);
    look(&mut n);
    timeout(&mut n, 2);
    assert_eq!(refused(n.timeout(2)), 7);
    assert_eq!(refused(n.timeout(5)), 10);
    assert_eq!(timeout(&mut n, 1), []);
}

#[test]
fn a_refused_input_runs_no_rule() {
    let mut n = ten();
    assert_eq!(refused(n.vote(1, 0, 1, 7)), 6);
    assert_eq!(refused(n.timeout(4)), 10);
    assert_eq!(look(&mut n), [(7, 1, 0)]);
}

#[test]
fn writer_refusals_in_order() {
    let n = ten();
    assert_eq!(refused(write_cert(&n, 0, 0, 0)), 4);
    assert_eq!(refused(write_cert(&n, 6, 17, 0)), 4);
    assert_eq!(refused(write_cert(&n, 1, 17, 0)), 3);
    assert_eq!(refused(write_cert(&n, 3, 16, 0)), 5);
    assert_eq!(refused(write_cert(&n, 4, 16, 1)), 5);
    assert_eq!(refused(write_cert(&n, 5, 16, 0)), 18);
    assert_eq!(refused(write_proof(&n, 0, 0)), 3);
    assert_eq!(refused(write_proof(&n, 1, 0)), 5);
    assert_eq!(refused(write_proof(&n, 1, 1)), 18);
}

// ---- trays ----

/// Two nodes, the second fed singly what the first gets in one tray.
fn tray_and_singly(start: &str, votes: &[&str]) {
    let tray = run(&format!("{start}\ntray {}\nvotes\nlook", votes.join(" ")));
    let lines: Vec<String> = votes.iter().map(|vote| format!("vote {vote}")).collect();
    let singly = run(&format!("{start}\n{}\nvotes\nlook", lines.join("\n")));
    let (starts, single) = (start.lines().count(), &singly[start.lines().count()..]);
    let answered: Vec<Vec<&str>> =
        single[..votes.len()].iter().map(|line| line.split(' ').collect()).collect();
    let records: Vec<&str> = answered.iter().flat_map(|answer| answer.iter().skip(2).copied()).collect();
    let numbers: Vec<&str> = answered.iter().map(|answer| answer[0]).collect();
    let mut wanted = vec!["0".to_string(), records.len().to_string()];
    wanted.extend(records.iter().map(|record| record.to_string()));
    assert_eq!(tray[starts], format!("{} : {}", wanted.join(" "), numbers.join(" ")));
    assert_eq!(tray[starts + 1..], single[votes.len()..]);
}

#[test]
fn a_tray_equals_its_votes_singly() {
    let b4 = "start 0 1 1 1 1 1 1 1 1 1 1 1\nblock 1 7 0 1";
    tray_and_singly(b4, &["1 1 1 7", "1 2 1 7", "1 3 1 7", "1 4 1 7", "1 5 1 7", "3 6 1 0", "3 7 1 0"]);
    // Refused ones in the middle, the own name, a repeat, another in its place.
    let mixed =
        ["3 6 1 0", "3 6 1 0", "1 6 1 7", "1 0 1 7", "9 1 1 7", "3 7 99 0", "3 99 1 0", "3 7 1 5", "3 7 1 0"];
    tray_and_singly(b4, &mixed);
    tray_and_singly("start 0 1 1 1", &["9 9 9 9"]);
}

#[test]
fn trays_that_take_nothing() {
    let start = "start 0 1 1 1 1";
    // An empty run is no look; a broken one takes none of its whole votes.
    let script = format!("{start}\ntray\ntray 3 1 1 0 3\ntray 3\nvotes\nlook\ntray 3 1 1 0");
    assert_eq!(run(&script), ["0", "0 0", "12", "12", "0 1 7,1,0", "0 0 : 0"]);
    assert_eq!(run("tray\ntray 1\ntray 3 1 1 0\ntray x"), ["17", "17", "17", "?"]);
    // All refused: no rule is run.
    assert_eq!(run(&format!("{start}\ntray 3 0 1 0 9 9 9 9\nlook"))[1..], ["0 0 : 6 4", "0 1 7,1,0"]);
}

// ---- voting ----

#[test]
fn timeout_for_a_slot_with_a_vote_casts_nothing() {
    let mut n = ten();
    block(&mut n, 1, 7, 0, 1);
    assert_eq!(timeout(&mut n, 1), []);
    assert_eq!(timeout(&mut n, 3), [(3, 2, 0), (3, 3, 0), (3, 4, 0)]);
    assert_eq!(refused(n.timeout(1)), 7);
}

#[test]
fn later_slot_needs_the_own_notar_next_door() {
    let mut n = ten();
    assert_eq!(block(&mut n, 2, 8, 1, 7), [(7, 1, 0)]);
    // Slot 1 goes to another block: no vote for slot 2.
    assert_eq!(block(&mut n, 1, 9, 0, 1), [(1, 1, 9)]);
    let mut m = ten();
    block(&mut m, 3, 30, 2, 8);
    block(&mut m, 2, 8, 1, 7);
    assert_eq!(block(&mut m, 1, 7, 0, 1), [(1, 1, 7), (1, 2, 8), (1, 3, 30)]);
    // A parent two slots down is of no use inside a window.
    assert_eq!(block(&mut m, 4, 40, 2, 8), []);
}

#[test]
fn first_slot_asks_for_the_kept_blocks_own_parent() {
    let mut n = ten();
    look(&mut n);
    // Armed by block 7, while the kept block builds on 8.
    assert_eq!(block(&mut n, 5, 50, 4, 8), []);
    assert_eq!(votes(&mut n, 1, 1..=6, 4, 7), [(7, 5, 0)]);
    assert_eq!(votes(&mut n, 2, 1..=5, 4, 8), []);
    assert_eq!(vote(&mut n, 2, 6, 4, 8), [(1, 5, 50)]);
}

#[test]
fn skips_through_every_window() {
    let mut n = node(0, &[5]);
    look(&mut n);
    for first in [1, 5, 9] {
        assert_eq!(*timeout(&mut n, first).last().unwrap(), (7, first + 4, 0));
    }
    // Genesis is ready over twelve skipped slots.
    assert_eq!(block(&mut n, 13, 9, 0, 1), [(1, 13, 9), (5, 13, 0), (6, 13, 9)]);
    assert_eq!(timeout(&mut n, 14), [(3, 14, 0), (3, 15, 0), (3, 16, 0)]);
}

#[test]
fn fallback_by_40() {
    let mut n = ten();
    block(&mut n, 1, 7, 0, 1);
    assert_eq!(votes(&mut n, 1, 1..=3, 1, 8), []);
    // 40 on 8 is also 40 beside the largest only if 7 is the larger: it is not.
    assert_eq!(vote(&mut n, 1, 4, 1, 8), [(3, 2, 0), (3, 3, 0), (3, 4, 0), (2, 1, 8)]);
}

#[test]
fn fallback_by_20_and_60() {
    let mut n = ten();
    look(&mut n);
    timeout(&mut n, 1);
    votes(&mut n, 3, 1..=3, 1, 0);
    assert_eq!(vote(&mut n, 1, 4, 1, 8), []);
    assert_eq!(vote(&mut n, 1, 5, 1, 8), [(2, 1, 8)]);
    // 19 percent is not enough, however much skips.
    let mut m = node(0, &[62, 19, 19]);
    look(&mut m);
    timeout(&mut m, 1);
    assert_eq!(vote(&mut m, 1, 1, 1, 8), []);
}

#[test]
fn skip_fallbacks_count_for_the_certificate_but_not_for_d() {
    let mut n = ten();
    look(&mut n);
    timeout(&mut n, 1);
    votes(&mut n, 4, 1..=5, 1, 0);
    assert!(n.holds(1, Cert::Skip));
    assert_eq!(votes(&mut n, 1, 6..=8, 1, 8), []);
}

#[test]
fn skip_fallback_by_skips_and_other_blocks() {
    let mut n = ten();
    block(&mut n, 1, 7, 0, 1);
    vote(&mut n, 1, 1, 1, 7);
    vote(&mut n, 1, 2, 1, 8);
    votes(&mut n, 3, 3..=4, 1, 0);
    assert_eq!(vote(&mut n, 3, 5, 1, 0), [(3, 2, 0), (3, 3, 0), (3, 4, 0), (4, 1, 0)]);
    // After the fallback the certificate for 7 brings no final vote.
    assert_eq!(votes(&mut n, 1, 6..=9, 1, 7), []);
    assert!(n.holds(1, Cert::Notar(7)) && !n.own_cell(1).final_vote);
}

/// All ways to split small totals over skip, four blocks and silence.
#[test]
fn no_slot_has_four_blocks_with_the_weights_of_d() {
    let mut three = 0;
    for total in 1u64..=20 {
        for skip in 0..=total {
            let enough = |notar: u64| {
                5 * notar >= 2 * total || (5 * notar >= total && 5 * (skip + notar) >= 3 * total)
            };
            let least = match (0..=total).find(|&notar| enough(notar)) {
                Some(least) => least,
                None => continue,
            };
            assert!(skip + 4 * least > total, "skip {skip} of {total}");
            three += u64::from(skip + 3 * least <= total);
        }
    }
    // Three blocks of a fifth each, with two fifths of skip.
    assert!(three > 0);
}

#[test]
fn both_fallbacks_in_one_slot() {
    let mut n = node(0, &[1, 2, 2]);
    block(&mut n, 1, 7, 0, 1);
    // D comes before E, and its skips leave E the fallback alone.
    assert_eq!(vote(&mut n, 1, 1, 1, 8), [(3, 2, 0), (3, 3, 0), (3, 4, 0), (2, 1, 8)]);
    assert_eq!(vote(&mut n, 3, 2, 1, 0), [(4, 1, 0)]);
}

#[test]
fn another_block_at_40_beside_an_own_final() {
    let mut n = ten();
    block(&mut n, 1, 7, 0, 1);
    assert_eq!(votes(&mut n, 1, 1..=5, 1, 7), [(5, 1, 0)]);
    assert_eq!(votes(&mut n, 1, 6..=8, 1, 8), []);
    assert_eq!(vote(&mut n, 1, 9, 1, 8), [(3, 2, 0), (3, 3, 0), (3, 4, 0)]);
}

#[test]
fn fallback_in_a_first_slot_to_a_block_never_announced() {
    let mut n = ten();
    look(&mut n);
    timeout(&mut n, 4);
    assert_eq!(votes(&mut n, 1, 1..=4, 1, 99), [(2, 1, 99)]);
}

/// Ten nodes of 1, the own one with skips in slots 1 to 4.
fn ten_skipping() -> Node {
    let mut n = ten();
    look(&mut n);
    timeout(&mut n, 1);
    n
}

#[test]
fn fallback_waits_for_the_block() {
    let mut n = ten_skipping();
    assert_eq!(votes(&mut n, 2, 1..=6, 2, 20), []);
    assert_eq!(votes(&mut n, 1, 1..=4, 3, 30), []);
    // Another number does not do, nor the same one in another slot.
    assert_eq!(block(&mut n, 3, 31, 2, 20), []);
    assert_eq!(block(&mut n, 4, 30, 2, 20), []);
    assert_eq!(block(&mut n, 3, 30, 2, 20), [(2, 3, 30)]);
}

#[test]
fn fallback_waits_for_the_parents_certificate() {
    let mut n = ten_skipping();
    // The parent need not be next door.
    assert_eq!(block(&mut n, 4, 40, 2, 20), []);
    assert_eq!(votes(&mut n, 1, 1..=4, 4, 40), []);
    // Kind 3 is asked for, by fallbacks alone or not.
    assert_eq!(votes(&mut n, 2, 1..=5, 2, 20), []);
    assert_eq!(vote(&mut n, 2, 6, 2, 20), [(2, 4, 40)]);
}

#[test]
fn a_timeout_in_another_slot_brings_the_fallback() {
    let mut n = ten();
    block(&mut n, 1, 10, 0, 1);
    block(&mut n, 3, 30, 2, 20);
    assert_eq!(votes(&mut n, 1, 1..=4, 3, 30), []);
    assert_eq!(votes(&mut n, 2, 1..=6, 2, 20), []);
    // Block and parent are there, the own initial vote comes last.
    assert_eq!(timeout(&mut n, 2), [(3, 2, 0), (3, 3, 0), (3, 4, 0), (2, 3, 30)]);
}

#[test]
fn the_skips_of_d_wait_too() {
    let mut n = ten();
    block(&mut n, 1, 10, 0, 1);
    assert_eq!(block(&mut n, 2, 20, 1, 10), [(1, 2, 20)]);
    assert_eq!(votes(&mut n, 1, 1..=4, 2, 21), []);
    assert_eq!(block(&mut n, 2, 21, 1, 11), []);
    assert_eq!(votes(&mut n, 2, 1..=5, 1, 11), []);
    assert_eq!(vote(&mut n, 2, 6, 1, 11), [(3, 3, 0), (3, 4, 0), (2, 2, 21)]);
}

#[test]
fn a_child_of_genesis_outside_a_first_slot_gets_no_fallback() {
    let mut n = ten_skipping();
    assert_eq!(block(&mut n, 2, 20, 0, 1), []);
    assert_eq!(votes(&mut n, 1, 1..=9, 2, 20), [(6, 2, 20)]);
    let mut first = ten_skipping();
    assert_eq!(block(&mut first, 1, 10, 0, 1), []);
    assert_eq!(votes(&mut first, 1, 1..=4, 1, 10), [(2, 1, 10)]);
}

#[test]
fn a_lower_block_that_waits_holds_no_higher_one_back() {
    let mut n = ten_skipping();
    votes(&mut n, 2, 1..=6, 2, 20);
    assert_eq!(votes(&mut n, 1, 1..=4, 3, 30), []);
    assert_eq!(block(&mut n, 3, 31, 2, 20), []);
    assert_eq!(votes(&mut n, 1, 5..=8, 3, 31), [(2, 3, 31)]);
    assert_eq!(block(&mut n, 3, 30, 2, 20), [(2, 3, 30)]);
}

#[test]
fn up_to_four_blocks_are_kept_each_with_one_parent() {
    let mut n = ten();
    for number in [20, 21, 22] {
        block(&mut n, 3, number, 2, 9);
    }
    assert_eq!(refused(n.block(3, 20, 2, 9)), 7);
    assert_eq!(refused(n.block(3, 21, 2, 8)), 8);
    assert_eq!(refused(n.block(3, 22, 1, 9)), 8);
    block(&mut n, 3, 23, 0, 1);
    assert_eq!(refused(n.block(3, 24, 2, 9)), 8);
    assert_eq!(refused(n.block(3, 23, 0, 1)), 7);
    // Another slot has places of its own, and the number another parent there.
    block(&mut n, 4, 20, 0, 1);
}

#[test]
fn rule_b_looks_at_the_first_block_alone() {
    let mut n = ten();
    assert_eq!(block(&mut n, 2, 20, 1, 11), [(7, 1, 0)]);
    assert_eq!(block(&mut n, 2, 21, 1, 10), []);
    // The second would do, the first does not.
    assert_eq!(block(&mut n, 1, 10, 0, 1), [(1, 1, 10)]);
    let mut m = ten();
    block(&mut m, 2, 20, 1, 10);
    block(&mut m, 2, 19, 1, 11);
    assert_eq!(block(&mut m, 1, 10, 0, 1), [(1, 1, 10), (1, 2, 20)]);
}

#[test]
fn no_fallback_before_the_own_initial_vote() {
    let mut n = ten();
    look(&mut n);
    assert_eq!(votes(&mut n, 1, 1..=5, 1, 8), []);
    assert_eq!(timeout(&mut n, 1), [(3, 1, 0), (3, 2, 0), (3, 3, 0), (3, 4, 0), (2, 1, 8)]);
}

#[test]
fn fallback_votes_are_no_stake_for_d() {
    let mut n = ten();
    look(&mut n);
    timeout(&mut n, 1);
    assert_eq!(votes(&mut n, 2, 1..=9, 1, 8), []);
    assert!(n.holds(1, Cert::NotarFallback(8)) && !n.holds(1, Cert::Notar(8)));
}

#[test]
fn finality_is_recorded_once_and_needs_no_own_vote() {
    let mut n = ten();
    look(&mut n);
    votes(&mut n, 5, 1..=6, 4, 0);
    assert_eq!(votes(&mut n, 1, 1..=6, 4, 7), [(6, 4, 7), (7, 5, 0)]);
    assert_eq!(votes(&mut n, 1, 7..=9, 4, 7), []);
    let mut fast = ten();
    look(&mut fast);
    assert_eq!(votes(&mut fast, 1, 1..=8, 3, 7), [(6, 3, 7)]);
}

// ---- ancestors ----

/// Eight of ten nodes for the block, which makes it final.
fn fast_final(node: &mut Node, slot: u64, number: u64) -> Vec<(u64, u64, u64)> {
    let made = votes(node, 1, 1..=8, slot, number);
    made.into_iter().filter(|&(kind, ..)| kind == 6 || kind == 8).collect()
}

#[test]
fn a_chain_is_final_with_its_last_block() {
    let mut n = ten_skipping();
    block(&mut n, 1, 10, 0, 1);
    for slot in 2..=4 {
        block(&mut n, slot, 10 * slot, slot - 1, 10 * (slot - 1));
    }
    assert_eq!(fast_final(&mut n, 4, 40), [(6, 4, 40), (6, 3, 30), (6, 2, 20), (6, 1, 10)]);
    assert_eq!(look(&mut n), []);
}

#[test]
fn a_missing_block_halts_the_walk() {
    let mut n = ten_skipping();
    block(&mut n, 1, 10, 0, 1);
    block(&mut n, 2, 20, 1, 10);
    block(&mut n, 4, 40, 3, 30);
    assert_eq!(fast_final(&mut n, 4, 40), [(6, 4, 40), (6, 3, 30)]);
    // Another block of that slot is of no use.
    assert_eq!(block(&mut n, 3, 31, 2, 20), []);
    assert_eq!(block(&mut n, 3, 30, 2, 20), [(6, 2, 20), (6, 1, 10)]);
}

#[test]
fn the_walk_passes_over_slots_and_windows() {
    let mut n = ten_skipping();
    block(&mut n, 13, 130, 6, 60);
    block(&mut n, 6, 60, 2, 20);
    block(&mut n, 2, 20, 0, 1);
    assert_eq!(fast_final(&mut n, 13, 130), [(6, 13, 130), (6, 6, 60), (6, 2, 20)]);
}

#[test]
fn the_walk_goes_on_past_what_is_final() {
    let mut n = ten_skipping();
    block(&mut n, 4, 40, 3, 30);
    block(&mut n, 3, 30, 2, 20);
    assert_eq!(fast_final(&mut n, 2, 20), [(6, 2, 20)]);
    assert_eq!(fast_final(&mut n, 4, 40), [(6, 4, 40), (6, 3, 30)]);
    // From the lowest final slot up, each walk only as far as it records.
    assert_eq!(block(&mut n, 2, 20, 1, 10), [(6, 1, 10)]);
}

#[test]
fn a_walk_against_a_final_block_ends_there() {
    let mut n = ten_skipping();
    block(&mut n, 1, 10, 0, 1);
    block(&mut n, 3, 30, 2, 20);
    block(&mut n, 2, 20, 1, 10);
    assert_eq!(fast_final(&mut n, 2, 21), [(6, 2, 21)]);
    assert_eq!(fast_final(&mut n, 3, 30), [(6, 3, 30), (8, 2, 20)]);
    // Once for that slot, whichever block comes next.
    block(&mut n, 4, 40, 2, 22);
    assert_eq!(fast_final(&mut n, 4, 40), [(6, 4, 40)]);
    assert_eq!(look(&mut n), []);
}

#[test]
fn rule_f_against_a_block_that_the_walk_made_final() {
    let mut n = ten_skipping();
    block(&mut n, 3, 30, 2, 20);
    assert_eq!(fast_final(&mut n, 3, 30), [(6, 3, 30), (6, 2, 20)]);
    assert_eq!(fast_final(&mut n, 2, 21), [(8, 2, 21)]);
    block(&mut n, 4, 40, 2, 22);
    assert_eq!(fast_final(&mut n, 4, 40), [(6, 4, 40)]);
}

#[test]
fn own_skips_of_a_timeout_come_before_the_rules() {
    let mut n = ten();
    look(&mut n);
    for slot in 1..=4 {
        votes(&mut n, 3, 1..=5, slot, 0);
    }
    assert_eq!(timeout(&mut n, 3), [(3, 1, 0), (3, 2, 0), (3, 3, 0), (3, 4, 0), (7, 5, 0)]);
}

// ---- which own votes do not stand ----

/// What is answered of a node with these votes laid in, by slot, node and vote.
fn stands(node: &Node, votes: &[(u64, usize, Vote)]) -> String {
    let mut panel = Panel::default();
    panel.node = Some(node.clone().with_votes(votes.to_vec()));
    panel.line(b"stands").unwrap().lines().concat()
}

#[test]
fn own_votes_that_the_rules_cast_stand() {
    assert_eq!(
        run("stands\nstart 0 1 5\nstands\nblock 1 7 0 1\nstands\nstands 1")[..],
        ["17 0", "0", "0 0", "0 4 7,1,0 1,1,7 5,1,0 6,1,7", "0 0", "?"]
    );
    // A block of each rule: B in a first and in a later slot, C, D upon a parent, E.
    let mut n = ten();
    block(&mut n, 1, 7, 0, 1);
    votes(&mut n, 1, 1..=5, 1, 7);
    block(&mut n, 2, 8, 1, 7);
    votes(&mut n, 1, 1..=4, 2, 9);
    block(&mut n, 2, 9, 1, 7);
    votes(&mut n, 3, 5..=8, 2, 0);
    let kinds: Vec<u64> = (1..=LAST_SLOT).flat_map(|slot| n.own_cell(slot).votes()).map(Vote::kind).collect();
    assert_eq!(kinds, [1, 5, 1, 2, 4, 3, 3]);
    assert_eq!(stands(&n, &[]), "0 0");
    // A watcher has none.
    assert_eq!(run("watch 1 1 1\nstands").last().unwrap(), "0 0");
}

#[test]
fn own_votes_on_nothing_fall_by_their_rules() {
    use Vote::*;
    let five = node(3, &[1; 5]);
    let own = |votes: &[Vote]| votes.iter().map(|&vote| (16, 3, vote)).collect::<Vec<_>>();
    let all = own(&[Notar(7), NotarFallback(8), NotarFallback(9), NotarFallback(10), SkipFallback, Final]);
    let lines = "16,3,1,7,2 16,3,2,8,4 16,3,2,9,4 16,3,2,10,4 16,3,4,0,5 16,3,5,0,3";
    assert_eq!(stands(&five, &all), format!("0 6 {lines}"));
    // A skip asks for nothing, and the votes of others are not asked about.
    assert_eq!(stands(&five, &own(&[Skip])), "0 0");
    assert_eq!(stands(&five, &[(1, 0, Notar(7)), (1, 0, Final)]), "0 0");
}

/// Each test with all that it asks for, and with one thing less.
#[test]
fn what_each_own_vote_stands_on() {
    use Vote::*;
    let five = node(0, &[1; 5]);
    let others = |kind: Vote, nodes: std::ops::Range<usize>| nodes.map(move |node| (1, node, kind));
    // D: another initial vote, and the weights.
    let d = |own: Vote, voters: usize| {
        let mut votes = vec![(1, 0, own), (1, 0, NotarFallback(7))];
        votes.extend(others(Notar(7), 1..1 + voters));
        stands(&five, &votes)
    };
    assert_eq!(d(Skip, 2), "0 0");
    assert_eq!(d(Skip, 1), "0 1 1,0,2,7,4");
    assert_eq!(d(Notar(7), 2), "0 2 1,0,1,7,2 1,0,2,7,4");
    // E: an own notar vote, and the weights; the notar vote itself falls here.
    let e = |own: Vote, skips: usize| {
        let mut votes = vec![(1, 0, own), (1, 0, SkipFallback)];
        votes.extend(others(Skip, 1..1 + skips));
        stands(&five, &votes)
    };
    assert_eq!(e(Notar(7), 2), "0 1 1,0,1,7,2");
    assert_eq!(e(Notar(7), 1), "0 2 1,0,1,7,2 1,0,4,0,5");
    assert_eq!(e(Skip, 2), "0 1 1,0,4,0,5");
    // C: kind 2, and no own fallback of either kind.
    let c = |more: &[Vote], voters: usize| {
        let mut votes = vec![(1, 0, Notar(7)), (1, 0, Final)];
        votes.extend(more.iter().map(|&vote| (1, 0, vote)));
        votes.extend(others(Notar(7), 1..1 + voters));
        stands(&five, &votes)
    };
    assert_eq!(c(&[], 2), "0 1 1,0,1,7,2");
    assert_eq!(c(&[], 1), "0 2 1,0,1,7,2 1,0,5,0,3");
    assert_eq!(c(&[SkipFallback], 2), "0 3 1,0,1,7,2 1,0,4,0,5 1,0,5,0,3");
    assert_eq!(c(&[NotarFallback(8)], 2), "0 3 1,0,1,7,2 1,0,2,8,4 1,0,5,0,3");
    // B: the block with a parent that fits; any kept block of that number will do.
    let mut kept = node(0, &[1; 5]).with_votes(vec![(1, 0, Notar(8))]);
    kept.block(1, 9, 0, 1).unwrap();
    assert_eq!(stands(&kept, &[]), "0 1 1,0,1,8,2");
    kept.block(1, 8, 0, 1).unwrap();
    assert_eq!(stands(&kept, &[]), "0 0");
}

// ---- which votes a record lacks ----

/// What is answered of one node beside another, each with these votes laid in.
fn vouched(first: Node, second: Node) -> String {
    let mut panel = Panel::default();
    panel.aside = Some(first);
    panel.node = Some(second);
    panel.line(b"vouched").unwrap().lines().concat()
}

#[test]
fn which_record_is_asked_and_what_is_refused() {
    let script =
        "vouched\nvouched -\nstart 1 1 6 4\nvouched\nvouched -\naside\nvouched\nvouched 1\nvouched 01 1";
    assert_eq!(run(script), ["17 1", "17 0", "0", "17 1", "12 0", "0", "0 0", "?", "?"]);
    // Node 0 stands aside and counts a vote of node 1, that is asked; turned round there is nothing.
    let counted = "start 0 1 6 4\nvote 3 1 2 0\naside\nstart 1 1 6 4\nvouched\naside\nstart 0 1 6 4\nvouched";
    assert_eq!(run(counted)[4..], ["0 1 2,1,3,0,0", "0", "0", "0 0"]);
    // Other stakes are no lines; own number and genesis are no part of them, and a watcher lacks nothing.
    let other =
        |start: &str| run(&format!("start 0 1 6 4\nvote 3 1 2 0\naside\n{start}\nvouched"))[4].clone();
    assert_eq!(other("start 1 1 6 5"), "1 0");
    assert_eq!(other("start 1 9 6 4"), "0 1 2,1,3,0,0");
    assert_eq!(other("start 0 1 6 4"), "0 0");
    assert_eq!(other("watch 1 6 4"), "0 0");
}

/// A watcher's record may show the votes of others.
#[test]
fn stored_votes_that_are_lacked() {
    use Vote::*;
    let all = [Notar(7), NotarFallback(9), NotarFallback(8), NotarFallback(10), SkipFallback, Final];
    let with =
        |node: Node, votes: &[Vote]| node.with_votes(votes.iter().map(|&vote| (16, 3, vote)).collect());
    let five = || node(3, &[1; 5]);
    let shows = || with(Node::watch(1, &[1; 5]).unwrap(), &all);
    let lines = ["16,3,1,7,0", "16,3,2,9,0", "16,3,2,8,0", "16,3,2,10,0", "16,3,4,0,0", "16,3,5,0,0"];
    // Notar-fallbacks as they came, not by number.
    assert_eq!(vouched(shows(), five()), format!("0 6 {}", lines.join(" ")));
    assert_eq!(vouched(shows(), with(five(), &all)), "0 0");
    // A vote for another block, or of another kind, does not do for one.
    assert_eq!(vouched(shows(), with(five(), &all[1..])), "0 1 16,3,1,7,0");
    assert_eq!(vouched(shows(), with(five(), &[Skip, NotarFallback(7), NotarFallback(8)])), {
        let lacked: Vec<&str> = [0, 1, 3, 4, 5].map(|i| lines[i]).to_vec();
        format!("0 5 {}", lacked.join(" "))
    });
    assert_eq!(vouched(with(five(), &[Skip]), five()), "0 1 16,3,3,0,0");
}

/// By the mask that names the firm; kinds 1, 2, 4 and 5, then 3.
#[test]
fn kept_certificates_that_count_what_is_lacked() {
    let take = |lines: &[&str]| {
        let taken: Vec<String> = lines.iter().map(|hex| format!("take {hex}\n")).collect();
        let script = format!("start 0 1 6 4\n{}aside\nstart 1 1 6 4\nvouched", taken.concat());
        run(&script).last().unwrap().clone()
    };
    // Kind 3 for 9 and 8, kinds 4, 5 and 2 of slot 3; 3 and 4 name node 1 by mask B.
    let of_slot = ["0303090102", "0303080102", "0403000102", "0503000300", "0203070300"];
    assert_eq!(take(&of_slot), "0 5 3,1,1,7,2 3,1,4,0,4 3,1,5,0,5 3,1,2,9,3 3,1,2,8,3");
    // By mask A kind 3 counts a notar vote, kind 4 a skip; who is not named is not asked.
    assert_eq!(take(&["0303090300", "0404000300"]), "0 2 3,1,1,9,3 4,1,3,0,4");
    assert_eq!(take(&["0303090100", "0503000100"]), "0 0");
    assert_eq!(take(&["0105070300"]), "0 1 5,1,1,7,1");
    // A record beside itself: a certificate may count its own node for what it did not cast.
    assert_eq!(run("start 1 1 6 4\ntake 0403000102\naside\nvouched").last().unwrap(), "0 1 3,1,4,0,4");
}

#[test]
fn packets_that_count_what_is_lacked() {
    let of = |hex: &str| run(&format!("start 1 1 6 4\nvouched {hex}")).last().unwrap().clone();
    assert_eq!(of("0203070300"), "0 1 3,1,1,7,2");
    assert_eq!(of("02030703000503000300"), "0 2 3,1,1,7,2 3,1,5,0,5");
    assert_eq!(of("0303090102"), "0 1 3,1,2,9,3");
    assert_eq!(of("0403000100"), "0 0");
    assert_eq!(run("watch 1 6 4\nvouched 0203070300").last().unwrap(), "0 0");
    // What the node has cast itself is not lacked.
    assert_eq!(run("start 1 1 1 4\nblock 1 7 0 1\nvouched 0101070300\nproof 1 7")[2], "0 0");
    // The checker's refusals, 15 with 0 beside it too.
    assert_eq!(
        ["-", "8000", "0203070200", "020307030005", "03030901020203070300"].map(of),
        ["12 0", "13 0", "15 0", "12 0", "16 0"]
    );
}

#[test]
fn large_rings_lack_by_kinds_1_to_5() {
    let stakes = vec!["1"; 65].join(" ");
    let masks = |named: bool| if named { "FFFFFFFFFFFFFFFFFF01" } else { "00" };
    let hex = format!("0D0309{}01{}", masks(true), "00".repeat(62));
    let script = format!("start 64 1 {stakes}\nvouched {hex}\nvouched 0303090300");
    assert_eq!(run(&script), ["0", "0 1 3,64,1,9,3", "4 0"]);
}

// ---- blocks with two parents ----

#[test]
fn which_records_have_parents_and_what_is_refused() {
    let script = "parents\nstart 1 1 6 4\nparents\naside\nparents\nparents 1\nstart 1 1 6 5\nparents";
    assert_eq!(run(script), ["17 1", "0", "17 1", "0", "0 0", "?", "0", "1 0"]);
    // Own number and genesis are no part of the tables, and watchers keep blocks too.
    let other = |start: &str| {
        run(&format!("start 0 1 6 4\nblock 2 8 1 7\naside\n{start}\nblock 2 8 1 9\nparents"))[5].clone()
    };
    for start in ["start 0 1 6 4", "start 1 1 6 4", "start 1 9 6 4", "watch 1 6 4"] {
        assert_eq!(other(start), "0 2 2,8,1,7,1 2,8,1,9,2");
    }
}

#[test]
fn blocks_that_are_kept_with_two_parents() {
    let parents = |first: &str, second: &str| {
        let blocks = |all: &str| all.split(';').map(|block| format!("block {block}\n")).collect::<String>();
        let (first, second) = (blocks(first), blocks(second));
        let script = format!("watch 1 6 4\n{first}aside\nwatch 1 6 4\n{second}parents");
        run(&script).last().unwrap().clone()
    };
    // One parent, another number or another slot of the block: nothing to tell.
    assert_eq!(parents("3 7 2 5", "3 7 2 5"), "0 0");
    assert_eq!(parents("3 7 2 5", "3 8 2 6"), "0 0");
    assert_eq!(parents("3 7 2 5", "4 7 2 6"), "0 0");
    // The parent's slot alone, its number alone, genesis among them.
    assert_eq!(parents("3 7 2 5", "3 7 1 5"), "0 2 3,7,2,5,1 3,7,1,5,2");
    assert_eq!(parents("3 7 2 5", "3 7 2 6"), "0 2 3,7,2,5,1 3,7,2,6,2");
    assert_eq!(parents("16 7 0 1", "16 7 15 1"), "0 2 16,7,0,1,1 16,7,15,1,2");
    // In the order of the first record's places, wherever the second has them; by slot.
    let (first, second) =
        ("5 4 4 1;5 3 4 1;5 2 4 1;5 9 4 1;1 9 0 1", "5 9 4 2;5 2 4 1;5 3 4 2;5 8 4 2;1 9 0 1");
    assert_eq!(parents(first, second), "0 4 5,3,4,1,1 5,3,4,2,2 5,9,4,1,1 5,9,4,2,2");
    assert_eq!(parents(second, first), "0 4 5,9,4,2,1 5,9,4,1,2 5,3,4,2,1 5,3,4,1,2");
    assert_eq!(parents("5 4 4 1;2 4 1 1", "2 4 1 2;5 4 4 2"), "0 4 2,4,1,1,1 2,4,1,2,2 5,4,4,1,1 5,4,4,2,2");
}

// ---- which votes differ ----

#[test]
fn equal_votes_differ_in_no_line() {
    let start = "start 0 1 1 1 1 1";
    let votes = ["vote 2 1 3 9", "vote 2 1 3 7", "vote 3 2 1 0"];
    let script = format!("{start}\n{}\naside\ndiffer", votes.join("\n"));
    assert_eq!(run(&script)[4..], ["0", "0 0"]);
    // The order of coming, own number and genesis play no part.
    let again =
        format!("{script}\nstart 3 5 1 1 1 1\ndiffer\nvote 3 2 1 0\nvote 2 1 3 7\nvote 2 1 3 9\ndiffer");
    assert_eq!(run(&again)[7], "0 3 1,2,3,0,1 3,1,2,7,1 3,1,2,9,1");
    assert_eq!(run(&again)[11], "0 0");
}

#[test]
fn votes_that_differ_in_order_with_their_sides() {
    let first =
        "start 0 1 1 1 1 1 1 1\nvote 1 2 16 7\nvote 2 2 1 9\nvote 5 1 1 0\nvote 2 1 1 8\nvote 3 3 1 0";
    let second =
        "start 0 1 1 1 1 1 1 1\nvote 1 2 16 6\nvote 4 2 1 0\nvote 2 1 1 8\nvote 3 3 1 0\nvote 2 1 1 7";
    let answers = run(&format!("{first}\naside\n{second}\ndiffer"));
    assert_eq!(answers.last().unwrap(), "0 6 1,1,2,7,2 1,1,5,0,1 1,2,2,9,1 1,2,4,0,2 16,2,1,6,2 16,2,1,7,1");
}

#[test]
fn other_tables_are_one_line() {
    for other in ["1 1 2", "1 1", "1 1 1 1"] {
        let answers = run(&format!("start 0 1 1 1 1\nlook\naside\nstart 0 1 {other}\nvote 3 1 1 0\ndiffer"));
        assert_eq!(answers.last().unwrap(), "0 1 0,0,0,0,0", "{other}");
    }
}

#[test]
fn differ_before_there_is_a_record() {
    let script = "aside\ndiffer\nstart 0 1 5\ndiffer\naside\nstart 9 1 5\ndiffer\naside 1\ndiffer 1";
    assert_eq!(run(script), ["17", "17 1", "0", "17 1", "0", "1", "0 0", "?", "?"]);
    // A copy: the node goes on, what is aside stays.
    assert_eq!(run("start 0 1 5\naside\nblock 1 7 0 1\ndiffer").last().unwrap(), "0 2 1,0,1,7,2 1,0,5,0,2");
}

/// More than there is room for is told by the number of lines alone.
#[test]
fn lines_up_to_the_most_and_past_it() {
    let voters = MOST_LINES / LAST_SLOT as usize;
    let mut stakes = vec![1; voters + 1];
    stakes[0] = 10 * MOST_LINES as u64;
    let skips = |slot| (1..=voters).map(move |node| (slot, node, Vote::Skip));
    let fresh = node(0, &stakes);
    let full = fresh.clone().with_votes((1..=LAST_SLOT).flat_map(skips).collect());
    for (aside, present, side) in [(&full, &fresh, 1), (&fresh, &full, 2)] {
        let mut panel = Panel::default();
        (panel.aside, panel.node) = (Some(aside.clone()), Some(present.clone()));
        let answer = |panel: &mut Panel| panel.line(b"differ").unwrap().lines().concat();
        let most = answer(&mut panel);
        assert!(most.starts_with(&format!("0 {MOST_LINES} 1,1,3,0,{side} 1,2,3,0,{side} ")));
        assert!(most.ends_with(&format!(" 16,{voters},3,0,{side}")));
        assert_eq!(most.split(' ').count(), 2 + MOST_LINES);
        assert_eq!(panel.line(b"vote 5 1 1 0").unwrap().lines(), ["0 1 7,1,0"]);
        assert_eq!(answer(&mut panel), format!("9 {}", MOST_LINES + 1));
    }
}

#[test]
fn only_votes_and_the_table_are_compared() {
    // Blocks, windows, timeouts and final blocks play no part.
    let first = "start 0 1 9 1\nvote 3 1 2 0\nblock 6 7 5 3\naside";
    assert_eq!(run(&format!("{first}\nstart 1 1 9 1\ndiffer")).last().unwrap(), "0 1 2,1,3,0,1");
    assert_eq!(run(&format!("{first}\nstart 0 1 9 1\nvote 3 1 2 0\ndiffer")).last().unwrap(), "0 0");
    // Stakes are compared place by place; their sum does not do.
    let other = format!("{first}\nstart 0 1 1 9\nvote 3 1 2 0\ndiffer");
    assert_eq!(run(&other).last().unwrap(), "0 1 0,0,0,0,0");
    // A refused start leaves both nodes, an accepted one leaves that aside.
    let refused = format!("{first}\nstart 0 0 9 1\ndiffer\nstart 0 1 9 1\ndiffer\naside\ndiffer");
    assert_eq!(run(&refused)[4..], ["1", "0 0", "0", "0 1 2,1,3,0,1", "0", "0 0"]);
}

#[test]
fn tables_of_two_families_are_other_tables() {
    let start = |nodes: usize| format!("start 0 1{}", " 1".repeat(nodes));
    for (first, second) in [(64, 65), (65, 64), (2047, 2048), (2048, 2048), (65, 65)] {
        let answer = run(&format!("{}\naside\n{}\ndiffer", start(first), start(second)));
        let expected = if first == second { "0 0" } else { "0 1 0,0,0,0,0" };
        assert_eq!(answer.last().unwrap(), expected, "{first} {second}");
    }
}

// ---- cards ----

fn card(node: &Node, slot: u64) -> [u64; 5] {
    let c = node.card(slot).unwrap();
    [c.skip, c.finals, c.skip_certificate, c.leader, c.leader_weight]
}

#[test]
fn a_card_weighs_each_node_once() {
    let mut n = node(0, &[1, 2, 4, 8, 16, 32]);
    assert_eq!(card(&n, 2), [0; 5]);
    vote(&mut n, 3, 1, 2, 0);
    vote(&mut n, 4, 1, 2, 0);
    assert_eq!(card(&n, 2), [2, 0, 2, 0, 0]);
    // Fallbacks before the skip, and of a node with a notar vote.
    vote(&mut n, 4, 2, 2, 0);
    assert_eq!(card(&n, 2), [2, 0, 6, 0, 0]);
    vote(&mut n, 3, 2, 2, 0);
    vote(&mut n, 1, 3, 2, 7);
    vote(&mut n, 4, 3, 2, 0);
    assert_eq!(card(&n, 2), [6, 0, 14, 7, 8]);
    vote(&mut n, 5, 3, 2, 0);
    vote(&mut n, 2, 4, 2, 9);
    assert_eq!(card(&n, 2), [6, 8, 14, 7, 8]);
    assert_eq!(card(&n, 1), [0; 5]);
    assert_eq!(card(&n, 3), [0; 5]);
}

#[test]
fn the_leader_is_the_heaviest_and_of_several_the_lowest() {
    let mut n = ten();
    vote(&mut n, 1, 1, 16, 8);
    assert_eq!(card(&n, 16)[3..], [8, 1]);
    vote(&mut n, 1, 2, 16, 9);
    assert_eq!(card(&n, 16)[3..], [8, 1]);
    vote(&mut n, 1, 3, 16, 7);
    assert_eq!(card(&n, 16)[3..], [7, 1]);
    vote(&mut n, 1, 4, 16, 9);
    assert_eq!(card(&n, 16)[3..], [9, 2]);
    vote(&mut n, 1, 5, 16, 8);
    assert_eq!(card(&n, 16)[3..], [8, 2]);
}

#[test]
fn own_votes_are_on_the_card() {
    let script = "card 1\nstart 0 1 5\ncard 0\ncard 17\nblock 1 7 0 1\ncard 1\ntimeout 2\ncard 2\ncard";
    let answers = ["17", "0", "3", "3", "0 4 7,1,0 1,1,7 5,1,0 6,1,7", "0 0 5 0 7 5"];
    assert_eq!(run(script)[..6], answers);
    assert_eq!(run(script)[7..], ["0 5 0 5 0 0", "?"]);
}

#[test]
fn refused_votes_leave_the_card() {
    let mut n = ten();
    vote(&mut n, 1, 1, 16, u64::MAX);
    vote(&mut n, 3, 2, 16, 0);
    let before = card(&n, 16);
    for (kind, from, block) in
        [(1, 1, u64::MAX), (1, 1, 7), (3, 1, 0), (3, 2, 0), (1, 2, 7), (1, 0, 7), (4, 3, 7)]
    {
        assert!(n.vote(kind, from, 16, block).is_err());
        assert_eq!(card(&n, 16), before);
    }
    // The top bit is no sign.
    vote(&mut n, 1, 3, 16, 1 << 63);
    assert_eq!(card(&n, 16), [1, 0, 1, 1 << 63, 1]);
}

// ---- what a host reads ----

#[test]
fn blocks_are_told_as_they_were_announced() {
    let script = "blocks 1\nstart 0 1 1 1 1 1 1\nblocks 1\nblock 5 9 0 1\nblock 5 8 2 7\nblocks 5\nblocks 0\nblocks 17";
    let told = run(script);
    assert_eq!(told[..3], ["17", "0", "0 0"]);
    assert_eq!(told[5..], ["0 2 9,0,1 8,2,7", "3", "3"]);
    let many = "start 0 1 1 1 1 1 1\nblock 2 9 0 1\nblock 2 8 1 7\nblock 2 7 1 7\nblock 2 6 1 9\nblock 2 5 1 9\nblocks 2";
    assert_eq!(run(many)[5..], ["8", "0 4 9,0,1 8,1,7 7,1,7 6,1,9"]);
}

#[test]
fn marks_of_a_slot() {
    let script = "marks 1\nstart 0 1 5\nmarks 0\nmarks 1\nlook\ntimeout 2\nmarks 2\nmarks 1";
    assert_eq!(run(script)[..4], ["17", "0", "3", "0 0 0 0 0"]);
    assert_eq!(run(script)[6..], ["0 1 1 0 0", "0 1 0 0 0"]);
    // The block is final by the own vote, and another by a certificate of the liar that the node is.
    let conflict = "start 0 1 5\nblock 1 7 0 1\nmarks 1\ntake 0101090100\nmarks 1";
    assert_eq!(run(conflict)[2..], ["0 1 0 7 0", "0 1 8,1,9", "0 1 0 7 1"]);
}

#[test]
fn a_head_tells_whose_record_it_is() {
    assert_eq!(
        run("head\nstart 1 9 2 3 4\nhead\nwatch 8 2 3\nhead"),
        ["17", "0", "0 1 3 9 9", "0", "0 2 2 5 8"]
    );
}

#[test]
fn kept_certificates_are_told_as_a_check_tells_them() {
    let script = "certificates 1\nstart 0 1 1 2 3 4 5\ncertificates 1\ncertificates 0\n\
                  take 0301071800\ntake 0501001600\ntake 0301091C00\ntake 0201071900\ncertificates 1\ncertificates 2";
    let told = run(script);
    assert_eq!(told[..4], ["17 0", "0", "0 0", "3 0"]);
    assert_eq!(told[8..], ["0 4 2,1,7,3,10 5,1,0,3,10 3,1,7,2,9 3,1,9,3,12", "0 0"]);
    // A fallback signer counts as any other.
    assert_eq!(run("start 0 1 1 2 3 4 5\ntake 0401000C10\ncertificates 1")[2], "0 1 4,1,0,3,12");
}

#[test]
fn weights_of_a_block_and_what_is_missing_to_rule_d() {
    let weights = |n: &Node, block| {
        let w = weights(n, 2, block).unwrap();
        [w.notar, w.notar_fallback, w.skip, w.missing]
    };
    let mut n = ten();
    assert_eq!(weights(&n, 7), [0, 0, 0, 4]);
    vote(&mut n, 2, 1, 2, 7);
    assert_eq!(weights(&n, 7), [0, 1, 0, 4]);
    // A node with both counts once.
    vote(&mut n, 1, 1, 2, 7);
    assert_eq!(weights(&n, 7), [1, 1, 0, 3]);
    vote(&mut n, 1, 2, 2, 8);
    votes(&mut n, 3, 3..=5, 2, 0);
    assert_eq!(weights(&n, 7), [1, 1, 3, 2]);
    vote(&mut n, 3, 6, 2, 0);
    assert_eq!(weights(&n, 7), [1, 1, 4, 1]);
    vote(&mut n, 3, 7, 2, 0);
    // With skip it has 60 and of its own not 20.
    assert_eq!(weights(&n, 7), [1, 1, 5, 1]);
    assert_eq!(weights(&n, 9), [0, 0, 5, 2]);
    vote(&mut n, 1, 8, 2, 7);
    assert_eq!(weights(&n, 7), [2, 2, 5, 0]);
    let refused = "weights 1 7\nstart 0 1 5\nweights 0 0\nweights 17 7\nweights 1 0\nweights 1 7";
    assert_eq!(run(refused), ["17", "0", "3", "3", "5", "0 0 0 0 2"]);
}

// ---- certificates from others ----

/// A small certificate with those signers.
fn cert_of(kind: u64, slot: u64, block: u64, a: u64, b: u64) -> Vec<u8> {
    let mut packet = Vec::new();
    [kind, slot, block, a, b].into_iter().for_each(|number| put_number(&mut packet, number));
    packet
}

fn take(node: &mut Node, packet: &[u8]) -> Vec<(u64, u64, u64)> {
    shown(node.take(packet).unwrap())
}

#[test]
fn a_certificate_arms_finalizes_and_lets_final_be_cast() {
    let mut n = ten();
    look(&mut n);
    assert_eq!(take(&mut n, &cert_of(3, 4, 40, 0b11_1110, 0b100_0000)), [(7, 5, 0)]);
    assert_eq!(take(&mut n, &cert_of(1, 2, 20, 0b1_1111_1110, 0)), [(6, 2, 20)]);
    // Kind 1 counts as 2 for the own final vote, and own signers are like others.
    let mut m = ten();
    block(&mut m, 1, 7, 0, 1);
    assert_eq!(take(&mut m, &cert_of(1, 1, 7, 0b11_1111_1111, 0)), [(5, 1, 0), (6, 1, 7)]);
    let mut k = ten();
    assert_eq!(take(&mut k, &cert_of(4, 1, 0, 0b11_1111, 0)), [(7, 1, 0)]);
    assert!(k.stored_votes().is_empty());
    assert!(k.holds(1, Cert::Skip));
}

#[test]
fn kinds_2_and_5_from_anywhere_make_a_block_final() {
    let mut n = ten();
    look(&mut n);
    assert_eq!(take(&mut n, &cert_of(5, 3, 0, 0b11_1111, 0)), []);
    assert_eq!(votes(&mut n, 1, 1..=6, 3, 30), [(6, 3, 30)]);
    let proof = write_proof(&n, 3, 30).unwrap();
    assert_eq!(proof, [cert_of(2, 3, 30, 0b111_1110, 0), cert_of(5, 3, 0, 0b11_1111, 0)].concat());
    // Two blocks with kind 2: the lowest is final, the other a conflict.
    let mut m = ten();
    look(&mut m);
    assert_eq!(take(&mut m, &cert_of(2, 3, 31, 0b11_1111, 0)), []);
    assert_eq!(votes(&mut m, 1, 1..=6, 3, 30), []);
    assert_eq!(take(&mut m, &cert_of(5, 3, 0, 0b11_1111, 0)), [(6, 3, 30), (8, 3, 31)]);
}

#[test]
fn a_kept_certificate_ends_the_wait_but_adds_no_weight() {
    let mut n = ten_skipping();
    block(&mut n, 3, 30, 2, 20);
    assert_eq!(votes(&mut n, 1, 1..=4, 3, 30), []);
    assert_eq!(take(&mut n, &cert_of(2, 2, 20, 0b11_1111, 0)), [(2, 3, 30)]);
    let mut m = ten_skipping();
    assert_eq!(take(&mut m, &cert_of(2, 1, 10, 0b11_1111, 0)), []);
    assert_eq!(card(&m, 1), [1, 0, 1, 0, 0]);
}

#[test]
fn take_refusals_in_order() {
    let mut n = ten();
    let no = |n: &mut Node, packet: &[u8]| refused(n.take(packet));
    assert_eq!(no(&mut n, &[]), 12);
    assert_eq!(no(&mut n, &cert_of(6, 0, 0, 0, 0)), 4);
    assert_eq!(no(&mut n, &cert_of(2, 1, 7, 0b1_1111, 0)), 15);
    let good = cert_of(2, 1, 7, 0b11_1111, 0);
    assert_eq!(no(&mut n, &[good.clone(), vec![0]].concat()), 12);
    take(&mut n, &good);
    // Other masks make no other certificate.
    assert_eq!(no(&mut n, &cert_of(2, 1, 7, 0b111_1111, 0)), 7);
    assert_eq!(no(&mut n, &cert_of(2, 1, 8, 0b111_1111, 0)), 8);
    assert_eq!(no(&mut n, &cert_of(2, 1, 8, 0, 0)), 15);
    take(&mut n, &cert_of(1, 1, 8, 0b1111_1111, 0));
    assert_eq!(no(&mut n, &cert_of(1, 1, 7, 0b1111_1111, 0)), 8);
    for kind in [4, 5] {
        take(&mut n, &cert_of(kind, 1, 0, 0b11_1111, 0));
        assert_eq!(no(&mut n, &cert_of(kind, 1, 0, 0b111_1111, 0)), 7);
    }
    for block in 1..=9 {
        take(&mut n, &cert_of(3, 1, block, 0b11_1111, 0));
    }
    assert_eq!(no(&mut n, &cert_of(3, 1, 9, 0b11_1111, 0)), 7);
    assert_eq!(no(&mut n, &cert_of(3, 1, 10, 0b11_1111, 0)), 8);
    take(&mut n, &cert_of(3, 2, 10, 0b11_1111, 0));
}

#[test]
fn the_writers_sources_in_order() {
    let mut n = ten();
    look(&mut n);
    take(&mut n, &cert_of(1, 2, 7, 0b1111_1111, 0));
    for kind in 1..=3 {
        assert_eq!(write_cert(&n, kind, 2, 7).unwrap(), cert_of(kind, 2, 7, 0b1111_1111, 0));
    }
    take(&mut n, &cert_of(2, 2, 7, 0b11_1111, 0));
    assert_eq!(write_cert(&n, 2, 2, 7).unwrap(), cert_of(2, 2, 7, 0b11_1111, 0));
    assert_eq!(write_cert(&n, 3, 2, 7).unwrap(), cert_of(3, 2, 7, 0b11_1111, 0));
    take(&mut n, &cert_of(3, 2, 7, 0b1, 0b11_1110));
    assert_eq!(write_cert(&n, 3, 2, 7).unwrap(), cert_of(3, 2, 7, 0b1, 0b11_1110));
    assert_eq!(write_proof(&n, 2, 7).unwrap(), cert_of(1, 2, 7, 0b1111_1111, 0));
    // The stored votes come first as soon as they reach.
    votes(&mut n, 2, 1..=5, 2, 7);
    assert_eq!(write_cert(&n, 3, 2, 7).unwrap(), cert_of(3, 2, 7, 0b1, 0b11_1110));
    votes(&mut n, 2, 6..=9, 2, 7);
    assert_eq!(write_cert(&n, 3, 2, 7).unwrap(), cert_of(3, 2, 7, 0, 0b11_1111_1110));
    assert_eq!(write_cert(&n, 2, 2, 7).unwrap(), cert_of(2, 2, 7, 0b11_1111, 0));
}

#[test]
fn kept_certificates_lead_over_to_the_next_window() {
    let mut n = ten();
    take(&mut n, &cert_of(2, 2, 20, 0b11_1111, 0));
    take(&mut n, &cert_of(4, 4, 0, 0b11_1111, 0));
    assert_eq!(block(&mut n, 5, 50, 2, 20), []);
    assert_eq!(take(&mut n, &cert_of(4, 3, 0, 0, 0b11_1111)), [(7, 5, 0), (1, 5, 50)]);
    assert_eq!(take(&mut n, &cert_of(2, 5, 50, 0b11_1111, 0)), [(5, 5, 0)]);
    assert_eq!(take(&mut n, &cert_of(5, 5, 0, 0b11_1111, 0)), [(6, 5, 50), (6, 2, 20)]);
}

#[test]
fn a_certificate_in_the_slot_brings_no_fallback() {
    // Neither rule D nor rule E weighs the signers of certificates.
    let mut n = ten();
    block(&mut n, 1, 7, 0, 1);
    assert_eq!(take(&mut n, &cert_of(2, 1, 8, 0b11_1111_1110, 0)), []);
    assert_eq!(take(&mut n, &cert_of(4, 1, 0, 0b11_1111_1110, 0)), []);
    assert_eq!(votes(&mut n, 1, 1..=3, 1, 8), []);
    assert_eq!(vote(&mut n, 1, 4, 1, 8), [(3, 2, 0), (3, 3, 0), (3, 4, 0), (2, 1, 8)]);
}

#[test]
fn a_kept_kind_1_is_preferred_to_votes_for_kinds_2_and_5() {
    let mut n = ten();
    look(&mut n);
    votes(&mut n, 1, 1..=6, 2, 7);
    votes(&mut n, 5, 1..=6, 2, 0);
    take(&mut n, &cert_of(1, 2, 7, 0b1111_1111, 0));
    assert_eq!(write_proof(&n, 2, 7).unwrap(), cert_of(1, 2, 7, 0b1111_1111, 0));
    assert_eq!(write_cert(&n, 2, 2, 7).unwrap(), cert_of(2, 2, 7, 0b111_1110, 0));
    // Certificates are no stored votes.
    let script = "start 0 1 1 1 1\naside\ntake 0402000700\ndiffer";
    assert_eq!(run(script).last().unwrap(), "0 0");
}

#[test]
fn take_on_the_panel() {
    let script =
        "take -\nstart 0 1 1 1 1\ntake 0401000100\ntake 0401000700\ntake 0401000300\ntake 04\ntake\ntake - 1";
    assert_eq!(run(script), ["17", "0", "15", "0 1 7,1,0", "7", "12", "?", "?"]);
    let large = show_hex(&wide_cert(14, 4, 0, &[(0, !0)], &[]));
    let script = format!("start 0 1 {}\ntake {large}\ncert 14 4 0\ntake 0404000300", "1 ".repeat(65));
    assert_eq!(run(&script), ["0", "0 1 7,1,0", &format!("0 {} {large}", large.len() / 2), "4"]);
}

// ---- watchers ----

#[test]
fn a_watcher_takes_any_name_and_runs_a_f_and_the_walk_alone() {
    let mut n = Node::watch(1, &[1; 10]).unwrap();
    assert_eq!(look(&mut n), [(7, 1, 0)]);
    assert_eq!(block(&mut n, 1, 10, 0, 1), []);
    assert_eq!(block(&mut n, 2, 20, 1, 10), []);
    assert_eq!(votes(&mut n, 1, 0..=6, 2, 20), []);
    assert_eq!(votes(&mut n, 3, 0..=9, 1, 0), []);
    assert_eq!(vote(&mut n, 1, 7, 2, 20), [(6, 2, 20), (6, 1, 10)]);
    assert_eq!(votes(&mut n, 2, 0..=9, 2, 21), []);
    assert_eq!(take(&mut n, &cert_of(3, 4, 40, 0b11_1111, 0)), [(7, 5, 0)]);
    assert_eq!(check_proof(&write_proof(&n, 2, 20).unwrap(), &[1; 10]).unwrap().block, 20);
    for slot in [0, 1, 2, 17] {
        assert_eq!(refused(n.timeout(slot)), 4);
    }
}

#[test]
fn a_watcher_on_the_panel() {
    let script = "watch 0 5\nwatch 1\ntimeout 1\nwatch 1 5\ntimeout 99\nvote 1 0 1 7\nvote 1 1 1 7\ntray 5 0 1 0\nwatch";
    let answers = ["1", "1", "17", "0", "4", "0 2 7,1,0 6,1,7", "2", "0 0 : 0", "?"];
    assert_eq!(run(script), answers);
    // A refused start leaves the watcher, and its votes compare with a node's.
    let script = "start 0 1 5\nblock 1 7 0 1\naside\nwatch 1 5\nstart 1 1 5\nvote 1 0 1 7\ndiffer\nvote 5 0 1 0\ndiffer";
    assert_eq!(run(script)[4..], ["1", "0 2 7,1,0 6,1,7", "0 1 1,0,5,0,1", "0 0", "0 0"]);
}

/// The voter's own votes fed as ordinary ones: same pool, same held.
#[test]
fn a_watcher_fed_one_slot_holds_the_same() {
    let mut voter = ten();
    let mut watcher = Node::watch(1, &[1; 10]).unwrap();
    block(&mut voter, 1, 7, 0, 1);
    votes(&mut voter, 1, 1..=5, 1, 7);
    votes(&mut voter, 3, 6..=9, 1, 0);
    block(&mut watcher, 1, 7, 0, 1);
    for (slot, from, stored) in voter.stored_votes() {
        vote(&mut watcher, stored.kind(), from as u64, slot, stored.block());
    }
    assert_eq!(watcher.stored_votes(), voter.stored_votes());
    for cert in [Cert::FastFinal(7), Cert::Notar(7), Cert::NotarFallback(7), Cert::Skip, Cert::Final] {
        assert_eq!(watcher.holds(1, cert), voter.holds(1, cert));
    }
}

/// A voter, and a watcher that is fed what the voter accepts and casts.
#[derive(Default)]
struct Watched {
    voter: Panel,
    watcher: Panel,
    own: String,
}

impl Watched {
    fn say(&mut self, line: &str) {
        let answer = self.voter.line(line.as_bytes()).map_or(String::new(), |answer| answer.lines().concat());
        let words: Vec<&str> = line.split_ascii_whitespace().collect();
        if answer.split(' ').next() != Some("0") {
            return;
        }
        match words[0] {
            "start" => {
                self.own = words[1].to_string();
                return self.feed(&format!("watch {}", words[2..].join(" ")));
            }
            "watch" => return self.feed(line),
            "vote" | "block" | "take" | "look" => self.feed(line),
            "tray" => {
                let answers = answer.split(" : ").nth(1).unwrap_or("").split(' ');
                let votes = words[1..].chunks(4).zip(answers).filter(|&(_, answer)| answer == "0");
                votes.for_each(|(vote, _)| self.feed(&format!("vote {}", vote.join(" "))));
            }
            "timeout" => {}
            _ => return,
        }
        for record in answer.split(' ').skip(2).take_while(|&word| word != ":") {
            if let [kind @ ("1" | "2" | "3" | "4" | "5"), slot, block] =
                record.split(',').collect::<Vec<_>>()[..]
            {
                self.feed(&format!("vote {kind} {} {slot} {block}", self.own));
            }
        }
    }

    fn feed(&mut self, line: &str) {
        let answer = self.watcher.line(line.as_bytes()).unwrap().lines().concat();
        assert!(answer.starts_with('0'), "{line}: {answer}");
    }
}

/// Every accepted line of many scripts, and the voter's own votes as ordinary
/// ones: same votes, blocks and certificates, and the same is held.
#[test]
fn a_watcher_fed_the_same_holds_the_same() {
    for seed in 0..200 {
        let mut both = Watched::default();
        for line in lines(gen::script(seed).text.as_bytes()) {
            both.say(&String::from_utf8_lossy(line));
        }
        if let (Some(voter), Some(watcher)) = (both.voter.node, both.watcher.node) {
            assert_eq!(watcher.stored_votes(), voter.stored_votes(), "seed {seed}");
            for slot in 1..=LAST_SLOT {
                assert_eq!(watcher.kept_blocks(slot), voter.kept_blocks(slot), "seed {seed}");
                assert_eq!(watcher.kept_certificates(slot), voter.kept_certificates(slot), "seed {seed}");
                for cert in certs_named(&voter, slot) {
                    assert_eq!(watcher.holds(slot, cert), voter.holds(slot, cert), "seed {seed}");
                    let kind = voter.stakes().family().kinds_after() + cert.kind();
                    let written = |node: &Node| write_cert(node, kind, slot, cert.block()).ok();
                    assert_eq!(written(&watcher), written(&voter), "seed {seed}");
                }
            }
        }
    }
}

fn certs_named(node: &Node, slot: u64) -> Vec<Cert> {
    let mut certs = vec![Cert::Skip, Cert::Final];
    for block in node.named_blocks(slot) {
        certs.extend([Cert::FastFinal(block), Cert::Notar(block), Cert::NotarFallback(block)]);
    }
    certs
}

// ---- packets ----

#[test]
fn ten_byte_numbers() {
    let take = |hex: &str| take_number(&mut bytes(hex).as_slice()).map_err(Refusal::number);
    assert_eq!(take("FF FF FF FF FF FF FF FF FF 01"), Ok(u64::MAX));
    assert_eq!(take("80 80 80 80 80 80 80 80 80 01"), Ok(1 << 63));
    assert_eq!(take("FF FF FF FF FF FF FF FF 7F"), Ok(u64::MAX >> 1));
    assert_eq!(take("FF FF FF FF FF FF FF FF FF 00"), Err(13));
    assert_eq!(take("FF FF FF FF FF FF FF FF FF 02"), Err(13));
    // Above 01 there and then, though more would follow.
    assert_eq!(take("80 80 80 80 80 80 80 80 80 80"), Err(13));
    assert_eq!(take("80 80 80 80 80 80 80 80 80 81"), Err(13));
    assert_eq!(take("80 80 80 80 80 80 80 80 80"), Err(12));
    assert_eq!(take(""), Err(12));
    assert_eq!(take("80"), Err(12));
    assert_eq!(take("80 80 00"), Err(13));
    assert_eq!(take("FF 00"), Err(13));
}

#[test]
fn the_longest_packets_fit_their_buffers() {
    let mut n = node(0, &[1; 64]);
    votes(&mut n, 1, 13..=63, 16, u64::MAX);
    votes(&mut n, 2, 1..=12, 16, u64::MAX);
    assert!(write_cert(&n, 3, 16, u64::MAX).unwrap().len() <= 32);
    votes(&mut n, 5, 20..=63, 16, 0);
    assert!(write_proof(&n, 16, u64::MAX).unwrap().len() <= 64);
}

#[test]
fn a_node_with_both_votes_is_in_mask_a_alone() {
    let mut n = ten();
    look(&mut n);
    votes(&mut n, 1, 1..=4, 2, 7);
    votes(&mut n, 2, 3..=7, 2, 7);
    let masks = (Signers::from([1, 2, 3, 4]), Signers::from([5, 6, 7]));
    assert_eq!(n.signers(2, Cert::NotarFallback(7)), masks);
    let packet = write_cert(&n, 3, 2, 7).unwrap();
    assert_eq!(packet, bytes("03 02 07 1E E0 01"));
    assert_eq!(check(&packet, &[1; 10]), Ok(Checked { kind: 3, slot: 2, block: 7, count: 7, weight: 7 }));
}

#[test]
fn checker_refusals_in_order() {
    let no = |hex: &str, stakes: &[u64]| refused(check(&bytes(hex), stakes));
    assert_eq!(no("80 00", &[]), 1);
    assert_eq!(no("80 00", &[0]), 1);
    assert_eq!(no("", &[5]), 12);
    assert_eq!(no("00 00 00 00", &[5]), 12);
    assert_eq!(no("00 00 00 00 80", &[5]), 12);
    assert_eq!(no("00 80 00", &[5]), 13);
    assert_eq!(no("00 00 00 06 02 00", &[5]), 4);
    assert_eq!(no("06 00 00 06 02 00", &[5]), 4);
    assert_eq!(no("01 00 00 06 02 00", &[5]), 3);
    assert_eq!(no("01 11 00 06 02 00", &[5]), 3);
    assert_eq!(no("01 10 00 06 02 00", &[5]), 5);
    assert_eq!(no("04 10 01 06 02 00", &[5]), 5);
    assert_eq!(no("01 10 01 02 00 00", &[5]), 14);
    assert_eq!(no("03 10 01 00 02 00", &[5]), 14);
    assert_eq!(no("03 10 01 01 01 00", &[5]), 14);
    assert_eq!(no("01 10 01 00 01 00", &[5]), 14);
    assert_eq!(no("02 10 01 00 01 00", &[5]), 14);
    assert_eq!(no("05 10 00 00 01 00", &[5]), 14);
    assert_eq!(no("01 10 01 00 00 00", &[5]), 15);
    assert_eq!(no("01 10 01 01 00 00", &[5]), 12);
    assert_eq!(no("05 01 00 1F 00", &[1; 9]), 15);
    assert_eq!(no("01 01 07 07 00", &[1; 4]), 15);
}

#[test]
fn checks_tell_the_missing_weight_beside_15_alone() {
    // T = 11: 7 is enough for kind 2, 9 for kind 1.
    let stakes = "1 1 1 1 1 1 5";
    let check = |command: &str, hex: &str| run(&format!("{command} {hex} {stakes}"))[0].clone();
    assert_eq!(check("check", "0201070000"), "15 7");
    assert_eq!(check("check", "0201073F00"), "15 1");
    assert_eq!(check("check", "0201074300"), "0 2 1 7 3 7");
    assert_eq!(check("check", "0101074300"), "15 2");
    assert_eq!(check("check", "0101070100"), "15 8");
    // Of two certificates the one that is too light.
    assert_eq!(check("checkproof", "0201070100050100000080"), "15 6");
    assert_eq!(check("checkproof", "02010743000501000000"), "15 7");
    assert_eq!(check("checkproof", "02010743000501003F0000"), "15 1");
    // Leftover bytes come after it, other refusals have no figure.
    assert_eq!(check("check", "020107000000"), "15 7");
    assert_eq!(check("check", "0201070001"), "14");
    assert_eq!(check("check", "02010743000000"), "12");
}

#[test]
fn mask_b_alone_carries_kinds_3_and_4() {
    let good = |kind, block| Checked { kind, slot: 16, block, count: 1, weight: 5 };
    assert_eq!(check(&bytes("03 10 01 00 01"), &[5]), Ok(good(3, 1)));
    assert_eq!(check(&bytes("04 10 00 00 01"), &[5]), Ok(good(4, 0)));
}

#[test]
fn proof_refusals_in_order() {
    let no = |hex: &str| refused(check_proof(&bytes(hex), &[5]));
    // The first certificate whole, then its kind, whatever follows.
    assert_eq!(no("03 01 07 00 00 80 00"), 15);
    for first in ["03 01 07 01 00", "04 01 00 01 00", "05 01 00 01 00"] {
        assert_eq!(no(first), 16);
        assert_eq!(no(&format!("{first} 80 00")), 16);
    }
    // The second whole, then its kind and slot.
    assert_eq!(no("02 01 07 01 00"), 12);
    assert_eq!(no("02 01 07 01 00 80 00"), 13);
    assert_eq!(no("02 01 07 01 00 06 02 00 00 00"), 4);
    assert_eq!(no("02 01 07 01 00 05 02 00 00 00"), 15);
    assert_eq!(no("02 01 07 01 00 05 02 00 01 00"), 16);
    assert_eq!(no("02 01 07 01 00 04 01 00 01 00 00"), 16);
    assert_eq!(no("02 01 07 01 00 02 01 07 01 00"), 16);
    // Leftover bytes last.
    assert_eq!(no("02 01 07 01 00 05 01 00 01 00 00"), 12);
    assert_eq!(no("01 01 07 01 00 05 01 00 01 00"), 12);
}

#[test]
fn the_writer_prefers_kind_1() {
    let mut n = ten();
    look(&mut n);
    votes(&mut n, 5, 1..=6, 2, 0);
    votes(&mut n, 1, 1..=6, 2, 7);
    assert_eq!(write_proof(&n, 2, 7).unwrap(), bytes("02 02 07 7E 00 05 02 00 7E 00"));
    votes(&mut n, 1, 7..=8, 2, 7);
    assert_eq!(write_proof(&n, 2, 7).unwrap(), bytes("01 02 07 FE 03 00"));
    assert_eq!(refused(write_proof(&n, 2, 8)), 18);
}

// ---- proofs in pieces ----

/// Both forms, damaged ones, and one for a large table.
fn some_proofs() -> Vec<(String, String)> {
    let small = [
        "0101070100",
        "02010701000501000100",
        "0201070100050100010000",
        "0201070100050200",
        "02010701000501000000",
        "0301070100",
        "80",
        "8000",
    ];
    let mut proofs: Vec<(String, String)> =
        small.iter().map(|hex| (hex.to_string(), "5".to_string())).collect();
    let large = wide_cert(11, 1, 7, &[(0, !0), (1, 1)], &[]);
    proofs.push((show_hex(&large), vec!["1"; 65].join(" ")));
    proofs
}

#[test]
fn wherever_the_cuts_fall_the_end_is_the_whole_packets_answer() {
    for (hex, stakes) in some_proofs() {
        let whole = run(&format!("checkproof {hex} {stakes}"));
        for cut in (0..=hex.len()).step_by(2) {
            let part = |part: &str| if part.is_empty() { "-".to_string() } else { part.to_string() };
            let (head, tail) = (part(&hex[..cut]), part(&hex[cut..]));
            let answers = run(&format!("piece {head} {stakes}\npiece -\npiece {tail} 0 0\nend\nend"));
            assert_eq!(answers, ["more", "more", "more", whole[0].as_str(), "12"], "{hex} at {cut}");
        }
    }
}

#[test]
fn pieces_and_their_table() {
    // A refused table takes nothing; later ones are not looked at.
    assert_eq!(run("piece 01 0\nend\npiece 01\nend"), ["1", "12", "1", "12"]);
    assert_eq!(run("piece 0101 5\npiece 070100\nend"), ["more", "more", "0 1 1 7 1 5"]);
    assert_eq!(
        run("piece 0101 5\npiece 070100 x\npiece 070100 0\nend"),
        ["more", "?", "more", "0 1 1 7 1 5"]
    );
    // A piece without bytes is a piece.
    assert_eq!(run("piece - 5\nend\nend"), ["more", "12", "12"]);
    assert_eq!(run("piece - 5\npiece 0101070100 0\nend"), ["more", "more", "0 1 1 7 1 5"]);
    // A start does not touch what was taken, nor do other checks.
    let script = "piece 0101 5\nstart 0 1 1 1\ncheckproof 01 5\npiece 070100\nend";
    assert_eq!(run(script), ["more", "0", "12", "more", "0 1 1 7 1 5"]);
    assert_eq!(run("piece 0201070000 5\nend"), ["more", "15 3"]);
    assert_eq!(run("end 1\npiece"), ["?", "?"]);
}

// ---- large tables ----

/// A mask of the large family, by its words that are not 0.
fn wide(words: &[(usize, u64)]) -> Vec<u8> {
    let mut mask = vec![0; 32];
    for &(place, word) in words {
        mask[place] = word;
    }
    let mut packet = Vec::new();
    mask.into_iter().for_each(|word| put_number(&mut packet, word));
    packet
}

fn wide_cert(kind: u8, slot: u8, block: u8, a: &[(usize, u64)], b: &[(usize, u64)]) -> Vec<u8> {
    [vec![kind, slot, block], wide(a), wide(b)].concat()
}

#[test]
fn large_tables_write_the_large_kinds_only() {
    let mut n = node(0, &[1; 65]);
    look(&mut n);
    votes(&mut n, 1, 26..=64, 2, 7);
    assert_eq!(refused(write_cert(&n, 2, 2, 7)), 4);
    assert_eq!(refused(write_cert(&n, 10, 2, 7)), 4);
    assert_eq!(refused(write_cert(&n, 16, 2, 7)), 4);
    assert_eq!(refused(write_cert(&n, 14, 0, 7)), 3);
    assert_eq!(refused(write_cert(&n, 14, 2, 7)), 5);
    assert_eq!(refused(write_cert(&n, 11, 2, 7)), 18);
    let packet = write_cert(&n, 12, 2, 7).unwrap();
    assert_eq!(packet, wide_cert(12, 2, 7, &[(0, !0 << 26), (1, 1)], &[]));
    let answer = Checked { kind: 12, slot: 2, block: 7, count: 39, weight: 39 };
    assert_eq!(check(&packet, &[1; 65]), Ok(answer));
    votes(&mut n, 5, 26..=64, 2, 0);
    let proof = write_proof(&n, 2, 7).unwrap();
    assert_eq!(proof[..packet.len()], packet);
    assert_eq!(proof[packet.len()..], wide_cert(15, 2, 0, &[(0, !0 << 26), (1, 1)], &[]));
    assert_eq!(check_proof(&proof, &[1; 65]), Ok(answer));
    // 64 nodes are a small table still.
    let mut small = node(0, &[1; 64]);
    votes(&mut small, 1, 25..=63, 2, 7);
    assert_eq!(refused(write_cert(&small, 12, 2, 7)), 4);
    assert!(write_cert(&small, 2, 2, 7).is_ok());
}

#[test]
fn the_kind_fixes_how_many_numbers_are_read() {
    let (small, large): (&[u64], &[u64]) = (&[1; 64], &[1; 65]);
    let no = |packet: &[u8], stakes: &[u64]| refused(check(packet, stakes));
    let good = wide_cert(12, 1, 7, &[(0, !0), (1, 1)], &[]);
    assert!(check(&good, large).is_ok());
    // The other family is 4, after its numbers were read.
    assert_eq!(no(&good, small), 4);
    assert_eq!(no(&good[..66], small), 12);
    assert_eq!(no(&[&good[..66], &[0x80, 0]].concat(), small), 13);
    assert_eq!(no(&bytes("02 01 07 01"), large), 12);
    assert_eq!(no(&bytes("02 00 00 01 01"), large), 4);
    assert_eq!(no(&bytes("10 00 00 00 00"), large), 4);
    assert_eq!(no(&bytes("0A 00 00 00"), large), 12);
    // As many bytes as numbers, ended one number early and one late.
    let light = wide_cert(11, 1, 7, &[], &[]);
    assert_eq!(light.len(), 67);
    assert_eq!(no(&light[..66], large), 12);
    assert_eq!(no(&light, large), 15);
    assert_eq!(no(&[good, vec![0]].concat(), large), 12);
}

#[test]
fn masks_of_large_tables() {
    let stakes = [1; 130];
    let no = |packet: Vec<u8>| refused(check(&packet, &stakes));
    assert!(check(&wide_cert(14, 1, 0, &[(0, !0)], &[(1, !0)]), &stakes).is_ok());
    assert!(check(&wide_cert(14, 1, 0, &[(0, !0), (2, 0b11)], &[(1, !0)]), &stakes).is_ok());
    // Node 130 and the last place of the mask are beyond the table.
    assert_eq!(no(wide_cert(14, 1, 0, &[(0, !0), (2, 0b100)], &[(1, !0)])), 14);
    assert_eq!(no(wide_cert(14, 1, 0, &[(0, !0)], &[(1, !0), (31, 1 << 63)])), 14);
    assert_eq!(no(wide_cert(14, 1, 0, &[(0, !0), (1, 1)], &[(1, !0)])), 14);
    assert_eq!(no(wide_cert(15, 1, 0, &[(0, !0), (1, !0)], &[(2, 1)])), 14);
    assert_eq!(refused(check(&wide_cert(15, 1, 0, &[(0, !0)], &[]), &stakes)), 15);
    let all: Vec<(usize, u64)> = (0..32).map(|place| (place, !0)).collect();
    let answer = Checked { kind: 11, slot: 1, block: 7, count: 2048, weight: 2048 };
    assert_eq!(check(&wide_cert(11, 1, 7, &all, &[]), &[1; 2048]), Ok(answer));
}

#[test]
fn proofs_of_large_tables() {
    let stakes = [1; 65];
    let signers = &[(0, !0)][..];
    let proof =
        |first: Vec<u8>, second: Vec<u8>| check_proof(&[first, second].concat(), &stakes).map(|c| c.kind);
    let notar = || wide_cert(12, 1, 7, signers, &[]);
    assert_eq!(proof(wide_cert(11, 1, 7, signers, &[]), vec![]), Ok(11));
    assert_eq!(proof(notar(), wide_cert(15, 1, 0, signers, &[])), Ok(12));
    assert_eq!(proof(notar(), wide_cert(15, 2, 0, signers, &[])), Err(Refusal::NotAProof));
    assert_eq!(proof(notar(), bytes("05 01 00 01 00")), Err(Refusal::NoSuchKind));
    assert_eq!(proof(wide_cert(13, 1, 7, signers, &[]), vec![]), Err(Refusal::NotAProof));
}

#[test]
fn the_longest_packets_of_large_tables_fit_their_buffers() {
    let mut n = node(0, &[1; 2048]);
    votes(&mut n, 1, 819..=2047, 16, u64::MAX);
    votes(&mut n, 2, 1..=818, 16, u64::MAX);
    assert!(write_cert(&n, 13, 16, u64::MAX).unwrap().len() <= 768);
    votes(&mut n, 5, 800..=2047, 16, 0);
    assert!(write_proof(&n, 16, u64::MAX).unwrap().len() <= 1536);
}

#[test]
fn votes_as_bytes_of_large_tables() {
    assert_eq!(pack(2048, [1, 2047, 16, u64::MAX]).unwrap().len(), 14);
    assert_eq!(unpack(2048, "03 FF 0F 10 00"), Ok([3, 2047, 16, 0]));
    assert_eq!(unpack(2047, "03 FF 0F 10 00"), Err(2));
    assert_eq!(pack(2049, [1, 1, 1, 7]), Err(1));
}

#[test]
fn pages_of_votes() {
    let start = format!("start 0 1{}", " 1".repeat(66));
    let everyone: String = (1..66).map(|node| format!(" 3 {node} 2 0 5 {node} 2 0")).collect();
    let page = |words: &str| run(&format!("{start}\ntray{everyone}\nvotes {words}"))[2..].to_vec();
    let all: Vec<String> = (1..66).flat_map(|n| [format!("2 {n} 3 0"), format!("2 {n} 5 0")]).collect();
    let first = page("2 0");
    assert_eq!(first[..128], all[..128]);
    assert_eq!(first[128..], ["more: votes 2 65"]);
    assert_eq!(page("2 2"), all[2..]);
    assert_eq!(page("2 65"), all[128..]);
    assert_eq!(page("1 0"), [""; 0]);
    assert_eq!(page("17 66"), ["3"]);
    assert_eq!(page("16 66"), ["2"]);
    assert_eq!(run("votes 17 0"), ["17"]);
}

#[test]
fn the_longest_tray() {
    let votes = (LONGEST_LINE - "tray".len()) / " 9 9 9 9".len();
    let answer = run(&format!("start 0 1 1\ntray{}", " 9 9 9 9".repeat(votes)));
    assert_eq!(answer[1], format!("0 0 :{}", " 4".repeat(votes)));
}

// ---- votes as bytes ----

fn pack(count: u64, [kind, node, slot, block]: [u64; 4]) -> Result<Vec<u8>, u64> {
    message::write(count, Message { kind, node, slot, block }).map_err(Refusal::number)
}

fn unpack(count: u64, hex: &str) -> Result<[u64; 4], u64> {
    let read = message::read(count, &bytes(hex)).map_err(Refusal::number);
    read.map(|m| [m.kind, m.node, m.slot, m.block])
}

#[test]
fn votes_read_back() {
    let edges = (0..=9).map(|groups| 1u64 << (7 * groups)).flat_map(|edge| [(edge - 1).max(1), edge]);
    for block in edges.chain([u64::MAX]) {
        for vote in [[1, 0, 1, block], [2, 63, 16, block]] {
            let packed = pack(64, vote).unwrap();
            assert!(packed.len() <= 16);
            let Message { kind, node, slot, block } = message::read(64, &packed).unwrap();
            assert_eq!([kind, node, slot, block], vote);
        }
    }
    assert_eq!(pack(1, [5, 0, 16, 0]).unwrap(), bytes("05 00 10 00"));
    assert_eq!(unpack(3, "01 02 10 AC 02"), Ok([1, 2, 16, 300]));
}

#[test]
fn vote_writer_refusals_in_order() {
    assert_eq!(pack(0, [0, 9, 0, 0]), Err(1));
    assert_eq!(pack(MOST_NODES as u64 + 1, [1, 1, 1, 7]), Err(1));
    assert_eq!(pack(u64::MAX, [1, 1, 1, 7]), Err(1));
    assert_eq!(pack(1, [0, 9, 0, 0]), Err(4));
    assert_eq!(pack(1, [6, 9, 0, 0]), Err(4));
    assert_eq!(pack(1, [1, 9, 0, 0]), Err(3));
    assert_eq!(pack(1, [1, 9, 17, 0]), Err(3));
    assert_eq!(pack(1, [1, 1, 16, 0]), Err(2));
    assert_eq!(pack(1, [2, 0, 16, 0]), Err(5));
    for kind in 3..=5 {
        assert_eq!(pack(1, [kind, 0, 16, 1]), Err(5));
        assert!(pack(1, [kind, 0, 16, 0]).is_ok());
    }
}

#[test]
fn vote_reader_refusals_in_order() {
    assert_eq!(unpack(0, "80 00"), Err(1));
    assert_eq!(unpack(MOST_NODES as u64 + 1, "01 01 01 07"), Err(1));
    assert_eq!(unpack(1, ""), Err(12));
    assert_eq!(unpack(1, "00 00 00"), Err(12));
    assert_eq!(unpack(1, "00 00 00 80"), Err(12));
    assert_eq!(unpack(1, "00 00 80 00 80"), Err(13));
    assert_eq!(unpack(1, "06 01 00 00 00"), Err(4));
    assert_eq!(unpack(1, "01 01 00 00 00"), Err(3));
    assert_eq!(unpack(1, "01 01 10 00 00"), Err(2));
    assert_eq!(unpack(1, "01 00 10 00 00"), Err(5));
    assert_eq!(unpack(1, "03 00 10 01 00"), Err(5));
    assert_eq!(unpack(1, "01 00 10 01 00"), Err(12));
    assert_eq!(unpack(1, "01 00 10 01"), Ok([1, 0, 16, 1]));
}

#[test]
fn votes_as_bytes_need_no_node() {
    let script =
        "pack 5 1 4 16 300\nunpack 5 010410AC02\nunpack 4 010410ac02\nunpack 5 -\npack 5 1 4\nunpack 5";
    assert_eq!(run(script), ["0 5 010410AC02", "0 1 4 16 300", "2", "12", "?", "?"]);
}

// ---- the script ----

#[test]
fn commands_before_a_start() {
    let script = "look\nvote 9 9 9 9\nvotes\ncheck - 5\nstart 0 0 1\nlook\nstart 0 1\nstart 0 1 1\nlook";
    assert_eq!(run(script), ["17", "17", "17", "12", "1", "17", "1", "0", "0 1 7,1,0"]);
}

#[test]
fn a_refused_start_leaves_the_node() {
    let script = "start 0 1 1 1\nvote 3 1 2 0\nstart 0 1 0\nvotes\nstart 0 1 1 1\nvotes\nlook";
    assert_eq!(run(script), ["0", "0 1 7,1,0", "1", "2 1 3 0", "0", "0 1 7,1,0"]);
}

#[test]
fn stored_votes_are_shown_in_order() {
    let script = "start 0 1 1 1 1 1 1 1\nvote 5 2 1 0\nvote 2 2 1 9\nvote 4 2 1 0\nvote 2 2 1 10\nvote 3 2 1 0\nvote 1 1 1 7\nvotes";
    assert_eq!(run(script)[7..], ["1 1 1 7", "1 2 2 9", "1 2 2 10", "1 2 3 0", "1 2 4 0", "1 2 5 0"]);
}

#[test]
fn layout_of_lines() {
    assert_eq!(run("# c\r\n\r\nstart  0   1 5\r\n\nblock 1 007 0 1"), ["0", "0 4 7,1,0 1,1,7 5,1,0 6,1,7"]);
    assert_eq!(
        run("start 0 1 5\nblock 1 7 0 1\nproof 1 7\ncert 5 1 0")[2..],
        ["0 5 0101070100", "0 5 0501000100"]
    );
    assert_eq!(run("check 02010aFf0100 1 1 1 1 1 1 1 1"), ["0 2 1 10 8 8"]);
    assert_eq!(run("check -\ncheckproof 0101070100\ncheck"), ["1", "1", "?"]);
}

#[test]
fn lines_that_are_not_commands() {
    for line in [
        "look 1",
        "Look",
        "vote 1 1 1",
        "vote 1 1 1 +7",
        "vote 1 1 1 18446744073709551616",
        "start 0",
        "check 0 1",
        "check 0g 1",
        "lo\tok",
        "timeout",
    ] {
        assert_eq!(run(line), ["?"], "{line}");
    }
}

#[test]
fn nothing_is_read_after_quit() {
    assert_eq!(run("start 0 1 5\nquit\nlook\nquit\nvote"), ["0"]);
    assert_eq!(run("  quit  \r\nlook"), [""; 0]);
    assert_eq!(run("quit 1\nquit quit\nQuit\n#quit\nlook"), ["?", "?", "?", "17"]);
}

#[test]
fn text_for_people_is_left_open() {
    let mut panel = Panel::default();
    assert_eq!(run("board\nboard 1\nboard 99"), ["17", "17", "17"]);
    panel.line(b"start 0 1 5");
    for line in ["board", "board 1", "board 17", "board 1 2"] {
        assert_eq!(panel.line(line.as_bytes()), Some(Answer::FreeText), "{line}");
    }
    let malformed = ["why", "why x", "why 1 2", "help 1", "board x", "board 1 2 3"];
    assert_eq!(run(&malformed.join("\n")), ["?"; 6]);
}

/// Every command has lines of its own, and no line is too wide for a screen; every
/// refusal has a text of its own.
#[test]
fn help_tells_every_command_and_refusal() {
    for word in help::words() {
        let told = run(&format!("help {word}"));
        assert!(told.len() >= 2 && told.iter().all(|line| line.len() <= 80), "{word}");
        assert_eq!(told[0].split(' ').next(), Some(word));
        assert_ne!(run(&format!("{word} x y z x y z")).first().map(String::as_str), Some("0"), "{word}");
    }
    assert_eq!(run("help me\nhelp -\nhelp look look\nhelp Look"), ["?"; 4]);
    let texts: BTreeSet<String> = (0..=19).map(|n| run(&format!("why {n}")).remove(0)).collect();
    assert_eq!(texts.len(), 20);
    for number in 1..=18 {
        let text = run(&format!("why {number}")).remove(0);
        assert!(text.starts_with(&format!("{number}: ")) && text.ends_with('.'), "{text}");
    }
    assert_eq!(run("why 19\nwhy 18446744073709551615"), ["No refusal has this number."; 2]);
}

/// Counted without the line's end, and whatever the line holds.
#[test]
fn lines_over_the_buffer() {
    let command = |length: usize| format!("vote 1{}1 1 7", " ".repeat(length - 11));
    let blank = |length: usize| " ".repeat(length);
    let comment = |length: usize| format!("#{}", "-".repeat(length - 1));
    for end in ["", "\n", "\r", "\r\n"] {
        assert_eq!(run(&(command(LONGEST_LINE) + end)), ["17"], "{end:?}");
        assert_eq!(run(&(blank(LONGEST_LINE) + end)), [""; 0], "{end:?}");
        assert_eq!(run(&(comment(LONGEST_LINE) + end)), [""; 0], "{end:?}");
        for length in [1, 2, 3, LONGEST_LINE + 1].map(|past| LONGEST_LINE + past) {
            for long in [command(length), blank(length), comment(length)] {
                assert_eq!(run(&(long + end)), ["?"], "{length} {end:?}");
            }
        }
    }
    // One CR belongs to the line's end, a second one and one inside do not.
    assert_eq!(run(&(blank(LONGEST_LINE) + "\r\r\n")), ["?"]);
    assert_eq!(run(&(comment(LONGEST_LINE) + "\r\r\n")), ["?"]);
    assert_eq!(run(&(blank(LONGEST_LINE + 1) + "\r \n")), ["?"]);
    // Such a line changes nothing, and the next one is read as it stands.
    let (long, longer) = (blank(LONGEST_LINE + 1), comment(2 * LONGEST_LINE));
    let script = format!("start 0 1 5\n{long}\nlook\n{longer}\nvotes\n{}", blank(LONGEST_LINE));
    assert_eq!(run(&script), ["0", "?", "0 1 7,1,0", "?"]);
}

// ---- the generator ----

#[test]
fn scripts_are_set_by_their_seed() {
    for seed in 0..50 {
        assert_eq!(gen::script(seed).text, gen::script(seed).text);
    }
    assert_ne!(gen::script(1).text, gen::script(2).text);
}

#[test]
fn scripts_are_of_fair_size_and_end_with_the_votes() {
    for seed in 0..300 {
        let text = gen::script(seed).text;
        let count = lines(text.as_bytes()).len();
        assert!((1..=330).contains(&count), "seed {seed}: {count} lines");
        assert!(text.contains("votes"));
    }
}

/// Every refusal that a command can give, by command.
const POSSIBLE: &[(&str, &[u64])] = &[
    ("start", &[0, 1]),
    ("watch", &[0, 1]),
    ("vote", &[0, 2, 3, 4, 5, 6, 7, 8, 17]),
    ("tray", &[0, 12, 17]),
    ("block", &[0, 3, 5, 7, 8, 11, 17]),
    ("take", &[0, 3, 4, 5, 7, 8, 12, 13, 14, 15, 17]),
    ("timeout", &[0, 3, 4, 7, 10, 17]),
    ("look", &[0, 17]),
    ("cert", &[0, 3, 4, 5, 17, 18]),
    ("proof", &[0, 3, 5, 17, 18]),
    ("check", &[0, 1, 3, 4, 5, 12, 13, 14, 15]),
    ("checkproof", &[0, 1, 3, 4, 5, 12, 13, 14, 15, 16]),
    ("aside", &[0, 17]),
    ("differ", &[0, 17]),
    ("stands", &[0]),
    ("vouched", &[0, 1, 3, 4, 5, 12, 13, 14, 15, 16, 17]),
    ("parents", &[0, 1, 17]),
    ("piece", &[1]),
    ("end", &[0, 4, 12, 13, 14, 15, 16]),
    ("votes", &[0, 17]),
    ("card", &[0, 3, 17]),
    ("blocks", &[0, 3, 17]),
    ("marks", &[0, 3, 17]),
    ("head", &[0, 17]),
    ("certificates", &[0, 3, 17]),
    ("weights", &[0, 3, 5, 17]),
    ("pack", &[0, 1, 2, 3, 4, 5]),
    ("unpack", &[0, 1, 2, 3, 4, 5, 12, 13]),
];

const BRANCHES: &[&str] = &[
    "A with a parent next door",
    "A over skipped slots only",
    "B in a first slot, parent next door",
    "B in a first slot, parent over skipped slots",
    "B in a later slot",
    "C",
    "D by 40",
    "D by 20 and 60",
    "D for a third block",
    "D with skips",
    "D in a later slot",
    "D in a later slot, with skips",
    "D waits for the block",
    "D waits for the parent",
    "D waits upon genesis",
    "D waits with its skips",
    "D by its block, the first one",
    "D by its block, a later one",
    "D by another block",
    "D by a vote in its slot",
    "D by a vote in the parent's slot",
    "D by a timeout in its slot",
    "D by a timeout in another slot",
    "D for a block that is not the first",
    "D upon a parent not next door",
    "D upon kind 3 without kind 2",
    "D past a lower block that waits",
    "B after a second block",
    "block: the first one",
    "block: the second or third one",
    "block: the fourth one",
    "block: a fifth one",
    "block: the first one again",
    "block: a later one again",
    "block: another parent",
    "block: another parent, with four kept",
    "D in a later slot, large table",
    "D waits for the block, large table",
    "D waits for the parent, large table",
    "D for a block that is not the first, large table",
    "D upon kind 3 without kind 2, large table",
    "block: a fifth one, large table",
    "block: another parent, large table",
    "D beside an own final",
    "D beside an own notar",
    "E with skip-fallback",
    "E with skips and skip-fallback",
    "E beside an own final",
    "F by kind 1",
    "F by kinds 2 and 5",
    "F against the final block",
    "G to the slot before",
    "G over slots between",
    "G halted by a missing block",
    "G by the block's coming",
    "G against a final block",
    "timeout that skips",
    "timeout that casts nothing",
    "cert written: kind 3 with fallback signers",
    "cert written: kind 4 with fallback signers",
    "proof written: kind 1",
    "proof written: kind 2 then 5",
    "cert written: kind 12",
    "cert written: kind 13 with fallback signers",
    "cert written: kind 14 with fallback signers",
    "cert written: kind 15",
    "check 4 for a kind of the other family",
    "checkproof 4 for a kind of the other family",
    "watcher: records of kind 6",
    "watcher: records of kind 7",
    "watcher: records of kind 8",
    "watcher: cert written",
    "watcher: proof written",
    "watcher: a vote in every node's name",
    "watcher: no line beside a voter",
    "take: of kind 1",
    "take: of kind 2",
    "take: of kind 3",
    "take: of kind 4",
    "take: of kind 5",
    "take: held before",
    "take: not held before",
    "take: signed by the own node",
    "take: a repeat",
    "take: a repeat by other signers",
    "take: place taken",
    "take: a tenth of kind 3",
    "take: made records of kind 5",
    "take: made records of kind 6",
    "take: made records of kind 7",
    "take: made records of kind 8",
    "take: a repeat beside eight others",
    "take: made records of kind 2",
    "take 12 for one that is kept",
    "take 14 for one that is kept",
    "take 15 for one that is kept",
    "take 4 for a large kind, small table",
    "A owed to certificates",
    "A owed to certificates, large table",
    "B owed to certificates",
    "C by a kept 1",
    "C by a kept 2",
    "D upon a kept 1",
    "D upon a kept 2",
    "D upon a kept 3",
    "D by a certificate in the parent's slot",
    "F by a kept 1",
    "F by a kept 2 and a kept 5",
    "F by a kept 2 and votes for 5",
    "F by votes for 2 and a kept 5",
    "F against the final block by a certificate",
    "F against the final block, both by certificates",
    "F against the final block, told before",
    "F by a kept 1, large table",
    "G from a block that certificates make final",
    "G from a block that certificates make final, large table",
    "proof written of votes and a kept certificate",
    "written by votes beside a kept one",
    "F for a block without notar votes",
    "F for the lowest of several",
    "kind 1 from a kept 1",
    "kind 2 from a kept 1",
    "kind 2 from a kept 2",
    "kind 3 from a kept 1",
    "kind 3 from a kept 2",
    "kind 3 from a kept 3",
    "kind 4 from a kept 4",
    "kind 5 from a kept 5",
    "card: all 0",
    "card: no leader",
    "card: a leader",
    "card: the leader stays",
    "card: the leader overtaken",
    "card: a tie, the leader stays",
    "card: a tie, the lower one leads",
    "card: a tie, the leader stays, large table",
    "card: more blocks than are kept",
    "card: skip-fallbacks that count",
    "card: final votes",
    "blocks: 0",
    "blocks: 1",
    "blocks: 2",
    "blocks: 3",
    "blocks: 4",
    "marks: armed",
    "marks: not armed",
    "marks: timed out",
    "marks: not timed out",
    "marks: no final block",
    "marks: a final block",
    "marks: another final block",
    "head: a voter",
    "head: a watcher",
    "certificates: none",
    "certificates: one",
    "certificates: several",
    "certificates: kind 1",
    "certificates: kind 2",
    "certificates: kind 3",
    "certificates: kind 4",
    "certificates: kind 5",
    "weights: rule D's by 40",
    "weights: rule D's by 20 and 60",
    "weights: missing to 20",
    "weights: missing to 40",
    "weights: missing to 60",
    "weights: missing to 60 alone",
    "weights: fallbacks that count",
    "weights: fallbacks alone",
    "skip after skip-fallback",
    "skip-fallback after skip",
    "skip-fallback before an initial vote",
    "stands: no own vote",
    "stands: a watcher",
    "stands: an own vote of kind 1",
    "stands: an own vote of kind 2",
    "stands: an own vote of kind 3",
    "stands: an own vote of kind 4",
    "stands: an own vote of kind 5",
    "vouched: no line",
    "vouched: a watcher",
    "vouched: kind 1 by 1",
    "vouched: kind 1 by 2",
    "vouched: kind 1 by 3",
    "vouched: kind 2 by 3",
    "vouched: kind 5 by 5",
    "vouched of a packet: no line",
    "vouched of a packet: a watcher",
    "vouched of a packet: lines, large table",
    "vouched of a packet: kind 1 by 1",
    "vouched of a packet: kind 1 by 2",
    "vouched of a packet: kind 1 by 3",
    "vouched of a packet: kind 2 by 3",
    "vouched of a packet: kind 4 by 4",
    "vouched of a packet: kind 5 by 5",
    "parents: no line",
    "parents: one block",
    "parents: several blocks",
    "parents: a block with one parent",
    "parents: another number",
    "parents: another slot",
    "parents: another slot and number",
    "differ: no line",
    "differ: lines of one side",
    "differ: lines of both sides",
    "differ: tables with another count",
    "differ: tables with another stake",
    "differ: tables with the same total",
    "differ: the same table, another own number",
    "differ: side 1 then 1 in one place",
    "differ: side 1 then 2 in one place",
    "differ: side 2 then 2 in one place",
    "differ: votes of kind 1",
    "differ: votes of kind 2",
    "differ: votes of kind 3",
    "differ: votes of kind 4",
    "differ: votes of kind 5",
    "checkproof 16, large table",
    "start with 66 to 128 nodes",
    "start with 129 to 2047 nodes",
    "end 12 after no piece",
    "end 0 after two pieces",
    "end 0 after 3 to 20 pieces",
    "end 12 after 3 to 20 pieces",
    "tray of votes: none",
    "tray of votes: 1",
    "tray of votes: 2 to 99",
    "tray of votes: 100 or more",
    "tray with records and several accepted votes",
];

/// These end a run, take long or ask for much at once, so they are seldom.
const SELDOM: &[&str] = &[
    "end 0 after one piece",
    "quit as the last line",
    "quit before the last line",
    "end 12 after one piece",
    "cert written: kind 11",
    "proof written: kind 11",
    "proof written: kind 12 then 15",
    "start with 64 nodes",
    "start with 65 nodes",
    "start with 2048 nodes",
    "card: a tie, the lower one leads, large table",
    "certificates: ten or more",
    "certificates: kind 11",
    "certificates: kind 12",
    "certificates: kind 13",
    "certificates: kind 14",
    "certificates: kind 15",
    "weights: rule D's by 40, large table",
    "weights: rule D's by 20 and 60, large table",
    "weights: missing to 20, large table",
    "weights: missing to 40, large table",
    "weights: missing to 60, large table",
    "differ: side 2 then 1 in one place",
    "differ: lines of both sides, large table",
    "differ: lines of one side, large table",
    "card: the leader overtaken, large table",
    "take: made records of kind 1",
    "take: not held before, large table",
    "take: place taken, large table",
    "take: a tenth of kind 3, large table",
    "take 3, large table",
    "take 5, large table",
    "take 12, large table",
    "take 13, large table",
    "take 14, large table",
    "take 15, large table",
    "take 13 for one that is kept",
    "take 4 for a small kind, large table",
    "B owed to certificates, large table",
    "C by a kept 1, large table",
    "C by a kept 2, large table",
    "D upon a kept 3, large table",
    "F by votes for 2 and a kept 5, large table",
    "F by a kept 2 and a kept 5, large table",
    "differ: no line, other certificates kept",
    "differ: nothing aside",
    "differ: no node",
    "differ: the same table, another genesis",
    "differ: other tables with equal votes",
    "differ: no line, large table",
    "D by a vote in another slot",
    "D by a certificate in another slot",
    "D by its block, a later one, large table",
    "D by a vote in the parent's slot, large table",
    "D by a timeout in another slot, large table",
    "D past a lower block that waits, large table",
    "vouched: 1 0",
    "vouched: lines, large table",
    "vouched: kind 3 by 4",
    "vouched: kind 4 by 4",
    "vouched of a packet: kind 3 by 4",
    "vouched: kind 1 by 0",
    "vouched: kind 2 by 0",
    "vouched: kind 3 by 0",
    "vouched: kind 4 by 0",
    "vouched: kind 5 by 0",
    "parents: 1 0",
    "parents: 17 1",
    "parents: lines, large table",
];

/// Scripts of very many votes, which are few.
const LONG: &[&str] = &["differ: the most lines", "differ: too many lines"];

/// Everything that is reached too seldom is told at once.
#[test]
fn a_thousand_scripts_reach_everything() {
    let seen = cover(1, 1000);
    let mut few: Vec<String> = Vec::new();
    let mut want = |what: &str, times: u64, least: u64| {
        if times < least {
            few.push(format!("{what}: {times} of {least}"));
        }
    };
    for (command, numbers) in POSSIBLE {
        for number in *numbers {
            want(&format!("{command} {number}"), seen.answers(command, &number.to_string()), 10);
        }
    }
    for (command, answer) in [("board", "text"), ("board", "17"), ("help", "text"), ("why", "text")] {
        want(&format!("{command} {answer}"), seen.answers(command, answer), 10);
    }
    for silent in ["(blank)", "(comment)"] {
        want(&format!("{silent} over the buffer"), seen.answers(silent, "?"), 10);
    }
    for kind in 1..=8 {
        want(&format!("records of kind {kind}"), seen.records(kind), 50);
    }
    for (what, least) in notes_wanted() {
        want(&what, seen.notes(&what), least);
    }
    assert!(few.is_empty(), "too few of {few:#?}");
    for kind in 1..=5 {
        assert_eq!(seen.notes(&format!("watcher: records of kind {kind}")), 0);
    }
    // The document's bound for a life.
    assert!(seen.most_records_in_a_life <= 132);
}

/// Each with the times that it is to be reached at least.
fn notes_wanted() -> Vec<(String, u64)> {
    let mut wanted: Vec<(String, u64)> = Vec::new();
    wanted.extend(BRANCHES.iter().map(|what| (what.to_string(), 20)));
    wanted.extend(SELDOM.iter().map(|what| (what.to_string(), 3)));
    wanted.extend(LONG.iter().map(|what| (what.to_string(), 1)));
    for command in ["check", "checkproof"] {
        for (distance, rest) in ["1", "2 to 5", "more"].iter().flat_map(|d| (0..5).map(move |r| (d, r))) {
            wanted.push((format!("{command} missing {distance}, total 5k + {rest}"), 5));
        }
        for number in [0, 3, 4, 5, 12, 13, 14, 15] {
            wanted.push((format!("{command} {number}, large table"), 5));
        }
    }
    wanted.extend((2..=8).map(|number| (format!("tray: {number} between accepted votes"), 20)));
    wanted.extend((4..=14).map(|bytes| (format!("unpack 0, {bytes} bytes"), 20)));
    wanted
}
