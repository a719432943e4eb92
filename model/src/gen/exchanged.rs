//! Other nodes of the ring, each with votes and blocks that the script's node
//! may never see, whose certificates come to it.

use super::history::{some_leans, some_order, Lean, Numbers};
use super::packets::damage;
use super::writer::Writer;
use crate::node::{is_first, Cert, Node, Vote, LAST_SLOT};
use crate::packet::write_cert;
use crate::panel::show_hex;
use std::collections::BTreeSet;

/// The script's node is member 0; the others are simulated.
struct Peers {
    others: Vec<Node>,
    /// Votes of members that went out, by member.
    sent: BTreeSet<(usize, u64, u64, u64)>,
    /// How likely the script's node is told of a vote, in percent.
    told: u64,
    /// How likely each simulated one is.
    heard: u64,
}

impl Peers {
    fn of(w: &mut Writer) -> Peers {
        let mut owns = w.ring.others();
        w.random.shuffle(&mut owns);
        owns.truncate(w.random.range(1, 2) as usize);
        let start =
            |&own: &usize| Node::start(own as u64, w.ring.genesis, &w.ring.stakes).expect("a good ring");
        Peers {
            others: owns.iter().map(start).collect(),
            sent: BTreeSet::new(),
            told: w.random.pick(&[10, 40, 70, 100]),
            heard: w.random.pick(&[60, 90, 100]),
        }
    }

    fn count(&self) -> usize {
        1 + self.others.len()
    }

    fn node<'a>(&'a self, w: &'a Writer, member: usize) -> &'a Node {
        match member {
            0 => w.node(),
            _ => &self.others[member - 1],
        }
    }

    fn vote(&mut self, w: &mut Writer, member: usize, node: usize, slot: u64, vote: Vote) {
        match member {
            0 if w.random.percent(self.told) => w.vote(vote.kind(), node, slot, vote.block()),
            0 => {}
            _ if w.random.percent(self.heard) => {
                let other = &mut self.others[member - 1];
                other.vote(vote.kind(), node as u64, slot, vote.block()).ok();
            }
            _ => {}
        }
    }

    fn announce(&mut self, w: &mut Writer, member: usize, slot: u64, number: u64, parent: (u64, u64)) {
        if member == 0 {
            w.say(format!("block {slot} {number} {} {}", parent.0, parent.1));
        } else {
            self.others[member - 1].block(slot, number, parent.0, parent.1).ok();
        }
    }

    fn timeout(&mut self, w: &mut Writer, member: usize, slot: u64) {
        if member == 0 {
            w.say(format!("timeout {slot}"));
        } else {
            self.others[member - 1].timeout(slot).ok();
        }
    }

    /// What members cast since goes to the other members.
    fn spread(&mut self, w: &mut Writer) {
        for from in 0..self.count() {
            let own = self.node(w, from).own();
            let mut cast = self.node(w, from).stored_votes();
            cast.retain(|&(_, node, _)| Some(node) == own);
            for (slot, node, vote) in cast {
                if self.sent.insert((from, slot, vote.kind(), vote.block())) {
                    for to in (0..self.count()).filter(|&to| to != from) {
                        self.vote(w, to, node, slot, vote);
                    }
                }
            }
        }
    }

    /// A certificate that a simulated node holds, mostly one that the script's
    /// node does not.
    fn exchange(&mut self, w: &mut Writer, up_to: u64) {
        let member = w.random.range(1, self.others.len() as u64) as usize;
        let held = held_by(self.node(w, member), up_to);
        let unknown: Vec<(u64, Cert)> =
            held.iter().copied().filter(|&(slot, cert)| !w.node().holds(slot, cert)).collect();
        let from = if w.random.percent(15) { &held } else { &unknown };
        if from.is_empty() {
            return;
        }
        let (slot, cert) = w.random.pick(from);
        let kind = w.ring.kind(cert.kind());
        let mut packet =
            write_cert(self.node(w, member), kind, slot, cert.block()).expect("a certificate that is held");
        if w.random.percent(8) {
            packet = damage(&mut w.random, &packet);
        }
        w.say(format!("take {}", show_hex(&packet)));
    }

    /// A certificate that the script's node holds goes to the others.
    fn give(&mut self, w: &mut Writer, up_to: u64) {
        let held = held_by(w.node(), up_to);
        if held.is_empty() {
            return;
        }
        let (slot, cert) = w.random.pick(&held);
        let kind = w.ring.kind(cert.kind());
        w.say(format!("cert {kind} {slot} {}", cert.block()));
        let packet = write_cert(w.node(), kind, slot, cert.block()).expect("a certificate that is held");
        for other in &mut self.others {
            other.take(&packet).ok();
        }
    }
}

/// Everything that a node could write, of the slots up to that one.
fn held_by(node: &Node, up_to: u64) -> Vec<(u64, Cert)> {
    let mut held = Vec::new();
    for slot in 1..=up_to {
        let mut certs = vec![Cert::Skip, Cert::Final];
        for block in node.named_blocks(slot) {
            certs.extend([Cert::FastFinal(block), Cert::Notar(block), Cert::NotarFallback(block)]);
        }
        held.extend(certs.into_iter().filter(|&cert| node.holds(slot, cert)).map(|cert| (slot, cert)));
    }
    held
}

/// Slot after slot: blocks, votes of the nodes that are not simulated, who tell
/// each member the same or lie, second votes, timeouts, certificates.
pub fn exchanged(w: &mut Writer) {
    if w.ring.others().is_empty() {
        return;
    }
    let numbers = Numbers::any(&mut w.random, w.ring.genesis);
    let mut peers = Peers::of(w);
    let lies = w.random.pick(&[0, 20, 50]);
    w.say("look");
    for other in &mut peers.others {
        other.look();
    }
    for slot in 1..=LAST_SLOT {
        if w.full() {
            return;
        }
        let blocks = some_order(&mut w.random, numbers.of_slot(slot));
        announce_to_all(w, &mut peers, slot, &blocks);
        peers.spread(w);
        first_votes(w, &mut peers, slot, &blocks, lies);
        peers.spread(w);
        second_votes(w, &mut peers, slot, &blocks);
        peers.spread(w);
        for _ in 0..w.random.range(1, 4) {
            peers.exchange(w, slot);
        }
        for member in 0..peers.count() {
            if w.random.percent(if slot % 4 == 0 { 60 } else { 20 }) {
                peers.timeout(w, member, slot);
            }
        }
        peers.spread(w);
        if w.random.percent(30) {
            peers.give(w, slot);
        }
        peers.exchange(w, slot);
    }
}

/// Mostly the first block to all, with one parent for each number.
fn announce_to_all(w: &mut Writer, peers: &mut Peers, slot: u64, blocks: &[u64; 4]) {
    let parents = [some_parent(w, peers, slot), some_parent(w, peers, slot)];
    for member in 0..peers.count() {
        let which = usize::from(w.random.percent(20));
        if w.random.percent(90) {
            peers.announce(w, member, slot, blocks[which], parents[which]);
        }
        if w.random.percent(30) {
            peers.announce(w, member, slot, blocks[1 - which], parents[1 - which]);
        }
    }
}

/// One that some member would vote upon.
fn some_parent(w: &mut Writer, peers: &Peers, slot: u64) -> (u64, u64) {
    let member = w.random.index(peers.count());
    if slot == 1 {
        return (0, w.ring.genesis);
    }
    if is_first(slot) {
        let ready = peers.node(w, member).ready_parents(slot);
        if !ready.is_empty() {
            return w.random.pick(&ready);
        }
    }
    let own = peers.node(w, member).own_cell(slot - 1).notar_block();
    let named: Vec<u64> = peers.node(w, member).named_blocks(slot - 1).into_iter().collect();
    match own {
        Some(block) => (slot - 1, block),
        None if named.is_empty() => (0, w.ring.genesis),
        None => (slot - 1, w.random.pick(&named)),
    }
}

/// The nodes that no one simulates.
fn strangers(w: &Writer, peers: &Peers) -> Vec<(usize, usize)> {
    let simulated: Vec<usize> = (0..peers.count()).filter_map(|member| peers.node(w, member).own()).collect();
    let camps = w.ring.camps.iter().enumerate();
    let all = camps.flat_map(|(camp, nodes)| nodes.iter().map(move |&node| (camp, node)));
    all.filter(|(_, node)| !simulated.contains(node)).collect()
}

fn first_votes(w: &mut Writer, peers: &mut Peers, slot: u64, blocks: &[u64; 4], lies: u64) {
    let leans = some_leans(&mut w.random, 60);
    let mut strangers = strangers(w, peers);
    w.random.shuffle(&mut strangers);
    for (camp, node) in strangers {
        let is_liar = w.random.percent(lies);
        for member in 0..peers.count() {
            let any = w.random.pick(&leans);
            let lean = if is_liar { any } else { leans[camp] };
            match lean {
                Lean::Block(i) => peers.vote(w, member, node, slot, Vote::Notar(blocks[i])),
                Lean::Skip => peers.vote(w, member, node, slot, Vote::Skip),
                Lean::Nothing => {}
            }
        }
    }
}

fn second_votes(w: &mut Writer, peers: &mut Peers, slot: u64, blocks: &[u64; 4]) {
    let choice = w.random.pick(&[
        Vote::Final,
        Vote::Final,
        Vote::SkipFallback,
        Vote::NotarFallback(blocks[0]),
        Vote::NotarFallback(blocks[1]),
    ]);
    let willing = w.random.pick(&[0, 70, 100]);
    for (_, node) in strangers(w, peers) {
        if w.random.percent(willing) {
            for member in 0..peers.count() {
                peers.vote(w, member, node, slot, choice);
            }
        }
    }
}
