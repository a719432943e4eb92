//! What is held after every ring, by the library itself, and what `--break K` spoils so that check K must fail.

use crate::agreed::{number_in, slots, window, SLOTS, WINDOWS};
use crate::packets::{acceptable, clash, Clash, Packet};
use crate::random::Random;
use crate::ring::{Ring, GENESIS};
use crate::seen::{Fed, Function};
use quointrowel::{
    check_proof, differences, CertificateKind, Comparison, Difference, Event, Node, Outbox, ProofInPieces, Record, Side, Slot,
    Vote, VoteKind,
};
use std::collections::BTreeSet;

/// How a check ended.
#[derive(Clone, Debug, PartialEq, Eq)]
pub enum Verdict {
    Held,
    /// The ring is none that the promise speaks of.
    NotAsked,
    Broken(String),
}

/// One of the six.
#[derive(Clone, Debug)]
pub struct Check {
    pub promise: &'static str,
    pub tried: u64,
    pub unit: &'static str,
    pub verdict: Verdict,
    /// Whether a break here is a fault: the promise was made for this ring.
    pub is_promised: bool,
}

/// What a slot came to.
#[derive(Clone, Copy, Debug, PartialEq, Eq)]
pub enum Outcome {
    Final(u64),
    /// Honest firms have different final blocks.
    Twice,
    Skipped,
    Open,
}

/// All that was found.
pub struct Findings {
    pub checks: Vec<Check>,
    pub outcomes: [Outcome; SLOTS + 1],
    /// What the checker accepts of all that can be put together, and what of it contradicts a proof.
    pub packets: Vec<Packet>,
    pub clash: Option<Clash>,
    /// Firms with two initial votes in a slot among all votes that were ever cast, and the first such slot.
    pub not_clear: Vec<(usize, usize)>,
    /// An answer to an honest firm that the policy does not allow for.
    pub odd_answer: Option<String>,
}

impl Findings {
    /// Whether a promise broke that was made for this ring.
    pub fn is_fault(&self) -> bool {
        self.checks.iter().any(|check| check.is_promised && matches!(check.verdict, Verdict::Broken(_)))
    }

    /// Whether anything broke at all, promised or not.
    pub fn is_broken(&self) -> bool {
        self.checks.iter().any(|check| matches!(check.verdict, Verdict::Broken(_)))
    }
}

/// Looks through a ring.
pub fn look_through(ring: &Ring) -> Findings {
    let spoil = ring.options.spoil;
    let decided = decisions(ring, spoil == Some(4));
    let outcomes = outcomes(ring, &decided);
    let cast = cast_with_forgeries(ring, spoil, &outcomes);
    let (packets, tried) = acceptable(&ring.agreed, &cast);
    let clash = clash(&ring.agreed, &packets);
    let not_clear = not_clear(ring, &cast);
    let odd_answer = odd_answer(ring);
    let checks = vec![
        proofs(ring, spoil == Some(1)),
        packets_agree(ring, tried, &clash),
        one_chain(ring, spoil == Some(3)),
        progress(ring, &decided, &odd_answer),
        watchers(ring, spoil == Some(5)),
        named(ring, &clash, &not_clear),
    ];
    Findings { checks, outcomes, packets, clash, not_clear, odd_answer }
}

fn check(promise: &'static str, (tried, unit): (u64, &'static str), is_promised: bool, broken: Option<String>) -> Check {
    let verdict = match broken {
        Some(why) => Verdict::Broken(why),
        None if tried == 0 => Verdict::NotAsked,
        None => Verdict::Held,
    };
    Check { promise, tried, unit, verdict, is_promised }
}

/// 1. Every proof that a firm writes is accepted, whole and in pieces. The checker asks the stakes alone, which every firm has.
fn proofs(ring: &Ring, spoil: bool) -> Check {
    let (mut tried, mut broken, mut random) = (0, None, Random::of(ring.options.seed, 20));
    for (firm, host) in ring.hosts.iter().enumerate() {
        for slot in slots() {
            let Ok(Some(block)) = host.record().final_block(slot) else { continue };
            let Ok(mut proof) = host.record().write_proof(slot, block) else { continue };
            if spoil && tried == 0 {
                *proof.last_mut().expect("a proof has bytes") ^= 1;
            }
            tried += 1;
            let whole = check_proof(&ring.agreed.stakes, &proof);
            let says = whole.map(|said| (said.slot, said.block));
            if says != Ok((slot, block)) || in_pieces(&ring.agreed.stakes, &proof, &mut random) != whole {
                broken.get_or_insert(format!("firm {firm}'s proof of block {block} of slot {} is not accepted", slot.0));
            }
        }
    }
    check("Every proof is accepted, whole and in pieces", (tried, "proofs"), true, broken)
}

/// The answer to a proof cut at random places, a piece without bytes among them.
fn in_pieces(stakes: &[u64], proof: &[u8], random: &mut Random) -> Result<quointrowel::Checked, quointrowel::Refusal> {
    let mut pieces = ProofInPieces::new();
    let mut rest = proof;
    pieces.piece(stakes, &[])?;
    while !rest.is_empty() {
        let (piece, behind) = rest.split_at(1 + random.below(rest.len() as u64) as usize);
        pieces.piece(stakes, piece)?;
        rest = behind;
    }
    pieces.end()
}

/// 2. No acceptable packet, of all that can be put together from every vote that was ever cast, contradicts a proof of its slot.
fn packets_agree(ring: &Ring, tried: u64, clash: &Option<Clash>) -> Check {
    let broken = clash.as_ref().map(Clash::sentence);
    check("No two packets from all votes ever cast contradict each other", (tried, "packets"), ring.is_promised(), broken)
}

/// 3. One chain; nobody was told another final block; a block is told final once; final blocks are equal.
fn one_chain(ring: &Ring, spoil: bool) -> Check {
    let (mut tried, mut broken) = (0, None);
    let mut finals: [Option<(u64, usize)>; SLOTS + 1] = [None; SLOTS + 1];
    for firm in ring.honest() {
        let mut told: Vec<Event> = ring.hosts[firm].seen.told.iter().map(|&(_, event)| event).collect();
        if spoil {
            told.extend(told_by_older_record(ring, firm));
        }
        let mut has_final = [false; SLOTS + 1];
        for event in told {
            let why = match event {
                Event::Conflict { slot, block } => {
                    Some(format!("firm {firm} told another final block of slot {}, {block}", slot.0))
                }
                Event::Final { slot, block } => {
                    tried += 1;
                    let is_second = std::mem::replace(&mut has_final[slot.0], true);
                    let (first, by) = *finals[slot.0].get_or_insert((block, firm));
                    let twice = || format!("firm {firm} told a final block of slot {} twice", slot.0);
                    let rivals = || format!("slot {}: block {first} is final at firm {by}, {block} at firm {firm}", slot.0);
                    is_second.then(twice).or((first != block).then(rivals))
                }
                _ => None,
            };
            broken = broken.or(why);
        }
    }
    let broken = broken.or_else(|| off_the_chain(ring, &finals));
    check("One chain; no record 8; final blocks equal", (tried, "final blocks"), ring.is_promised(), broken)
}

/// A final block that is no ancestor of the next final one.
fn off_the_chain(ring: &Ring, finals: &[Option<(u64, usize)>]) -> Option<String> {
    let mut above: Option<(usize, u64)> = None;
    for slot in (1..=SLOTS).rev() {
        let Some((block, _)) = finals[slot] else { continue };
        if let Some((mut at, mut number)) = above {
            while at > slot {
                let parent = ring.blocks.get(&(Slot(at), number))?;
                (at, number) = (parent.parent_slot.0, parent.parent);
            }
            if (at, number) != (slot, block) {
                return Some(format!("block {block} of slot {slot} is final and no ancestor of the next final block"));
            }
        }
        above = Some((slot, block));
    }
    None
}

/// `--break 3`: the firm's record put back to its start, and the ring's blocks and votes fed to it once more.
fn told_by_older_record(ring: &Ring, firm: usize) -> Vec<Event> {
    let own = Node(firm);
    let mut record = Record::start(&ring.agreed.stakes, own, GENESIS).expect("the ring's stakes");
    let (mut outbox, mut told) = (Outbox::new(), Vec::new());
    for &block in ring.blocks.values() {
        if record.block(&mut outbox, block).is_ok() {
            told.extend(outbox.events());
        }
    }
    let votes: Vec<Vote> = ring.cast.iter().copied().filter(|vote| vote.node != own).collect();
    if record.tray(&mut outbox, &votes).is_ok() {
        told.extend(outbox.events());
    }
    told
}

/// Of a slot the blocks that every standing honest firm holds a certificate of kind 3 for, and whether all hold the skip certificate.
struct Decision {
    block: Option<u64>,
    skip: bool,
}

fn decisions(ring: &Ring, spoil: bool) -> Vec<Decision> {
    let last = ring.standing().last();
    let record = |firm: usize| if spoil && Some(firm) == last { &ring.agreed.blank } else { ring.hosts[firm].record() };
    let all_hold = |kind, slot, block| ring.standing().all(|firm| record(firm).write_certificate(kind, slot, block).is_ok());
    let of_slot = |slot: Slot| {
        let notar = ring.cast.iter().filter(|vote| vote.slot == slot && vote.kind == VoteKind::Notar);
        let blocks: BTreeSet<u64> = notar.map(|vote| vote.block).collect();
        let block = blocks.into_iter().find(|&block| all_hold(CertificateKind::NotarFallback, slot, block));
        Decision { block, skip: all_hold(CertificateKind::Skip, slot, 0) }
    };
    (1..=SLOTS).map(|slot| of_slot(Slot(slot))).collect()
}

fn outcomes(ring: &Ring, decided: &[Decision]) -> [Outcome; SLOTS + 1] {
    let mut outcomes = [Outcome::Open; SLOTS + 1];
    for slot in 1..=SLOTS {
        let of_firm = |firm: usize| ring.hosts[firm].record().final_block(Slot(slot)).ok().flatten();
        let finals: BTreeSet<u64> = ring.honest().filter_map(of_firm).collect();
        let everywhere = ring.standing().all(|firm| of_firm(firm).is_some());
        outcomes[slot] = match finals.first() {
            Some(_) if finals.len() > 1 => Outcome::Twice,
            Some(&block) if everywhere => Outcome::Final(block),
            None if decided[slot - 1].skip => Outcome::Skipped,
            _ => Outcome::Open,
        };
    }
    outcomes
}

/// 4. Every slot is decided at every honest firm, alike; blocks of correct leaders that nobody timed out are final; and no honest
/// firm was answered a number that the policy does not allow for. Firms that stopped for good count with the liars.
fn progress(ring: &Ring, decided: &[Decision], odd_answer: &Option<String>) -> Check {
    let lame = ring.lying_weight() + ring.weight(ring.honest().filter(|&firm| ring.stopped[firm]));
    let is_promised = !ring.agreed.reaches(1, lame) && ring.is_promised();
    let standing = ring.standing().count() as u64;
    let undecided = decided.iter().position(|slot| slot.block.is_none() && !slot.skip);
    let broken = undecided.map(|slot| format!("slot {} is not decided alike at every honest firm", slot + 1));
    let broken = broken.or_else(|| left_open(ring)).or_else(|| odd_answer.clone());
    let tried = if is_promised || broken.is_some() { standing * SLOTS as u64 } else { 0 };
    let promise = "Every slot decided at every honest firm";
    check(promise, (tried, "slots"), is_promised, broken)
}

/// A block of a correct leader that nobody timed out and that is not final everywhere.
fn left_open(ring: &Ring) -> Option<String> {
    if ring.stopped.contains(&true) {
        return None;
    }
    for of_leader in 0..WINDOWS {
        let timed_out = |firm: usize| ring.hosts[firm].seen.timed_out.iter().any(|&slot| window(slot) == of_leader);
        if !ring.is_honest(ring.agreed.leaders[of_leader].0) || ring.standing().any(timed_out) {
            continue;
        }
        for slot in slots().filter(|&slot| window(slot) == of_leader) {
            let is_final = |firm: usize| ring.hosts[firm].record().final_block(slot) == Ok(Some(number_in(slot)));
            if !ring.standing().all(is_final) {
                return Some(format!(
                    "slot {}: its leader was correct, nobody timed it out, and it is not final everywhere",
                    slot.0
                ));
            }
        }
    }
    None
}

/// An answer to an honest firm that is neither 0, 7, nor due to what a lying firm sent, nor 18 of a writer.
fn odd_answer(ring: &Ring) -> Option<String> {
    let is_allowed = |function: Function, number: u64, whose: Option<Node>| match function {
        Function::Certificate | Function::Proof => number == 18,
        Function::Message | Function::TrayVote | Function::Block | Function::Take | Function::Check => {
            whose.is_some_and(|node| ring.plot.is_lying(node))
        }
        _ => false,
    };
    let answers = ring.answers();
    let odd = answers.others.keys().find(|&&(function, number, whose)| !is_allowed(function, number, whose));
    odd.map(|(function, number, _)| {
        format!("an honest firm was answered {number} by {function:?}, which the policy does not allow for")
    })
}

/// 5. A watcher that was fed a firm's life has its votes and certificates, and differ finds of two records what was fed otherwise.
fn watchers(ring: &Ring, spoil: bool) -> Check {
    let (mut tried, mut broken) = (0, None);
    let lives: Vec<(usize, &[Fed])> =
        ring.watched.iter().filter_map(|&firm| Some((firm, ring.hosts[firm].seen.journal.as_deref()?))).collect();
    for &(firm, life) in &lives {
        let watcher = watcher_of(ring, life, spoil);
        let votes = votes_of(life);
        tried += votes.len() as u64;
        let record = ring.hosts[firm].record();
        if differences(record, &watcher) != Ok(Comparison::Votes(Vec::new())) {
            broken.get_or_insert(format!("a watcher of firm {firm} has other votes"));
        }
        if !named_in(&ring.cast).iter().all(|&name| same_certificates(record, &watcher, name)) {
            broken.get_or_insert(format!("a watcher of firm {firm} holds other certificates"));
        }
        for &(other, other_life) in lives.iter().filter(|&&(other, _)| other > firm) {
            let found = differences(record, ring.hosts[other].record());
            if found != Ok(Comparison::Votes(otherwise(&votes, &votes_of(other_life)))) {
                broken.get_or_insert(format!("firms {firm} and {other}: differ does not find what was fed"));
            }
        }
    }
    check("Watchers have the votes; differ tells what was fed", (tried, "votes"), true, broken)
}

/// A watcher fed a firm's life; spoilt, all of it but the last vote.
fn watcher_of(ring: &Ring, life: &[Fed], spoil: bool) -> Record {
    let mut watcher = Record::watch(&ring.agreed.stakes, GENESIS).expect("the ring's stakes");
    let mut outbox = Outbox::new();
    let left_out = life.iter().rposition(|fed| matches!(fed, Fed::Vote(_))).filter(|_| spoil);
    let mut votes = Vec::new();
    for (at, fed) in life.iter().enumerate().filter(|&(at, _)| Some(at) != left_out) {
        if let Fed::Vote(vote) = fed {
            votes.push(*vote);
        }
        if !matches!(fed, Fed::Vote(_)) || at + 1 == life.len() || votes.len() == 500 {
            let _ = watcher.tray(&mut outbox, &std::mem::take(&mut votes));
        }
        let _ = match fed {
            Fed::Vote(_) => Ok(()),
            Fed::Block(block) => watcher.block(&mut outbox, *block),
            Fed::Certificate(packet) => watcher.take(&mut outbox, packet),
        };
    }
    let _ = watcher.tray(&mut outbox, &votes);
    watcher
}

fn votes_of(life: &[Fed]) -> BTreeSet<(Slot, Node, VoteKind, u64)> {
    let vote = |fed: &Fed| match fed {
        Fed::Vote(vote) => Some((vote.slot, vote.node, vote.kind, vote.block)),
        _ => None,
    };
    life.iter().filter_map(vote).collect()
}

/// The lines of differ as what was fed has them.
fn otherwise(first: &BTreeSet<(Slot, Node, VoteKind, u64)>, second: &BTreeSet<(Slot, Node, VoteKind, u64)>) -> Vec<Difference> {
    let line = |&(slot, node, kind, block): &(Slot, Node, VoteKind, u64)| {
        let side = if first.contains(&(slot, node, kind, block)) { Side::First } else { Side::Second };
        Difference { vote: Vote { kind, node, slot, block }, side }
    };
    first.symmetric_difference(second).map(line).collect()
}

/// What the votes can make certificates of: kind of vote, slot, block.
fn named_in(cast: &BTreeSet<Vote>) -> BTreeSet<(VoteKind, Slot, u64)> {
    cast.iter().map(|vote| (vote.kind, vote.slot, vote.block)).collect()
}

/// Whether both records hold the same certificates of what is named, with the same signers.
fn same_certificates(record: &Record, watcher: &Record, (kind, slot, block): (VoteKind, Slot, u64)) -> bool {
    use CertificateKind::*;
    let kinds: &[CertificateKind] = match kind {
        VoteKind::Notar => &[FastFinal, Notar, NotarFallback],
        VoteKind::NotarFallback => &[NotarFallback],
        VoteKind::Skip | VoteKind::SkipFallback => &[Skip],
        VoteKind::Final => &[Final],
    };
    kinds.iter().all(|&kind| record.write_certificate(kind, slot, block) == watcher.write_certificate(kind, slot, block))
}

/// The firms with two initial votes in a slot, each with the first such slot.
fn not_clear(ring: &Ring, cast: &BTreeSet<Vote>) -> Vec<(usize, usize)> {
    let mut initial = vec![[0u8; SLOTS + 1]; ring.hosts.len()];
    for vote in cast.iter().filter(|vote| matches!(vote.kind, VoteKind::Notar | VoteKind::Skip)) {
        initial[vote.node.0][vote.slot.0] = initial[vote.node.0][vote.slot.0].saturating_add(1);
    }
    let first = |slots: &[u8; SLOTS + 1]| slots.iter().position(|&count| count > 1);
    initial.iter().enumerate().filter_map(|(firm, slots)| Some((firm, first(slots)?))).collect()
}

/// 6. The plain test names no honest firm, and a fifth of the stake where two blocks of a slot have proofs.
fn named(ring: &Ring, clash: &Option<Clash>, not_clear: &[(usize, usize)]) -> Check {
    let honest = not_clear.iter().find(|&&(firm, _)| ring.is_honest(firm));
    let broken = honest.map(|(firm, slot)| format!("honest firm {firm} is named, for slot {slot}"));
    let weight = ring.weight(not_clear.iter().map(|&(firm, _)| firm));
    let too_few = clash.as_ref().is_some_and(Clash::has_two_proofs) && !ring.agreed.reaches(1, weight);
    let broken = broken.or(too_few.then(|| "two blocks of a slot have proofs, and less than a fifth is named".to_string()));
    let promise = "Who is not clear: no honest firm is named";
    check(promise, (ring.honest().count() as u64, "firms"), true, broken)
}

/// Every vote that was cast, and what `--break 2` and `--break 6` forge in honest names: in a final slot a skip-fallback of every
/// honest firm, or a second initial vote of one.
fn cast_with_forgeries(ring: &Ring, spoil: Option<u64>, outcomes: &[Outcome; SLOTS + 1]) -> BTreeSet<Vote> {
    let mut cast = ring.cast.clone();
    let slot = Slot(outcomes.iter().position(|outcome| matches!(outcome, Outcome::Final(_))).unwrap_or(1));
    match spoil {
        Some(2) => {
            let forged = |firm| Vote { kind: VoteKind::SkipFallback, node: Node(firm), slot, block: 0 };
            cast.extend(ring.honest().map(forged));
        }
        Some(6) => {
            let of_honest = |vote: &&Vote| ring.is_honest(vote.node.0) && vote.kind == VoteKind::Notar;
            let forged = ring.cast.iter().find(of_honest).map(|vote| Vote { kind: VoteKind::Skip, block: 0, ..*vote });
            cast.extend(forged);
        }
        _ => {}
    }
    cast
}
