//! Random scripts, each wholly set by its seed.

mod cards;
mod compared;
mod exchanged;
mod history;
mod malformed;
mod messages;
mod noise;
mod packets;
mod reading;
mod received;
mod ring;
mod scenes;
mod trays;
mod watched;
mod writer;

use crate::node::LAST_SLOT;
use crate::random::Random;
use history::Numbers;
use ring::Ring;
use writer::Writer;

pub struct Script {
    pub text: String,
    /// Some command comes before any accepted start and answers 17, so the
    /// script must be the first that a program is given.
    pub unstarted: bool,
    /// It quits, so it must be the last.
    pub quits: bool,
}

/// Seeds in a row go through the scenes in turn, each as often as it has
/// numbers here.
const SCENES: u64 = 102;

/// Of so many scripts one has very many votes.
const MANY_LINES_ONCE_IN: u64 = 1000;

pub fn script(seed: u64) -> Script {
    // The seed is stirred once, so that seeds in a row share nothing.
    let random = Random::new(Random::new(seed).next());
    if seed % MANY_LINES_ONCE_IN == MANY_LINES_ONCE_IN / 2 {
        return many_lines(random);
    }
    match seed % SCENES {
        0 => tiny(random),
        1 | 2 => before_start(random),
        3 => restarts(random),
        4 => only_malformed(random),
        5 | 6 => faults(random),
        7 | 8 => lone(random),
        9..=12 | 67 | 84 | 90 => packets_only(random),
        13..=15 => soup(random),
        16..=18 => pushes(random),
        19 => brink(random),
        20..=23 | 75..=77 => avalanche(random),
        24..=27 | 87 => standoffs(random),
        28 | 29 => bridges(random),
        30 | 31 => leaps(random),
        32..=34 | 85 => messages(random),
        35 | 36 => trays(random),
        37..=45 | 78 | 79 | 88 | 89 => waits(random),
        46..=48 => ancestry(random),
        49..=52 => in_pieces(random),
        53..=57 | 86 => compared(random),
        58..=61 => cards(random),
        62..=66 => received(random),
        68..=71 => plays(random),
        72..=74 => exchanged(random),
        80..=83 => watched(random),
        _ => history(random),
    }
}

/// Some rings are widened to a large table, with fewer lines where these are
/// long.
fn begin(mut random: Random, mut ring: Ring, least: u64, most: u64) -> Writer {
    let mut budget = random.range(least, most) as usize;
    if random.percent(15) {
        ring = ring.widened(&mut random);
    }
    if ring.nodes() > 300 {
        budget = budget.min(80);
    }
    let mut w = Writer::new(random, ring, budget);
    w.start();
    w
}

/// Now and then with a watcher, where a scene does not live by the own votes.
fn begin_any(mut random: Random, mut ring: Ring, least: u64, most: u64) -> Writer {
    ring.watches = random.percent(12);
    begin(random, ring, least, most)
}

fn end(mut w: Writer) -> Script {
    w.ask_for_votes();
    w.say("stands");
    ask_what_is_lacked(&mut w);
    reading::reading(&mut w);
    if w.random.percent(11) {
        malformed::long_silence(&mut w);
    }
    if w.random.percent(4) {
        quit(&mut w);
    }
    w.into_script()
}

/// Of the node aside, and of the packets that were said last.
fn ask_what_is_lacked(w: &mut Writer) {
    if w.panel.aside.is_some() {
        w.say("vouched");
        w.say("parents");
    }
    for command in ["take ", "check ", "checkproof "] {
        let said = w.said_with(command).pop();
        let packet = said.and_then(|line| line.split(' ').nth(1).map(str::to_string));
        if let (Some(packet), true) = (packet, w.panel.node.is_some()) {
            w.say(format!("vouched {packet}"));
        }
    }
}

/// Lines of every sort may follow; none is read.
fn quit(w: &mut Writer) {
    w.say("quit");
    for _ in 0..w.random.below(3) {
        match w.random.below(4) {
            0 => w.start(),
            1 => malformed::line(w),
            2 => w.repeat_some_line(),
            _ => {
                w.say("votes");
            }
        }
    }
}

fn history(mut random: Random) -> Script {
    let ring = history::ring_for_history(&mut random);
    let mut w = begin_any(random, ring, 20, 270);
    history::history(&mut w);
    let most = w.random.pick(&[0, 5, 15]);
    finish_with_audit(w, most)
}

fn pushes(mut random: Random) -> Script {
    let ring = Ring::small(&mut random);
    let mut w = begin_any(random, ring, 50, 250);
    scenes::pushes(&mut w);
    finish_with_audit(w, 8)
}

fn soup(mut random: Random) -> Script {
    let ring = if random.percent(70) { Ring::small(&mut random) } else { Ring::any(&mut random) };
    let mut w = begin_any(random, ring, 30, 250);
    scenes::soup(&mut w);
    finish_with_audit(w, 8)
}

fn lone(mut random: Random) -> Script {
    let ring = Ring::dominated(&mut random);
    let mut w = begin(random, ring, 5, 60);
    scenes::lone(&mut w);
    finish_with_audit(w, 10)
}

fn brink(mut random: Random) -> Script {
    let ring = Ring::any(&mut random);
    let mut w = begin_any(random, ring, 10, 150);
    scenes::brink(&mut w);
    finish_with_audit(w, 10)
}

fn avalanche(mut random: Random) -> Script {
    let nodes = random.pick(&[5, 5, 5, 6, 7]);
    let ring = Ring::of_fifths(&mut random, nodes);
    let mut w = begin(random, ring, 200, 200);
    scenes::avalanche(&mut w);
    finish_with_audit(w, 8)
}

fn standoffs(mut random: Random) -> Script {
    let nodes = random.pick(&[5, 5, 6, 8, 10]);
    let ring = Ring::of_fifths(&mut random, nodes);
    let mut w = begin(random, ring, 100, 200);
    scenes::standoffs(&mut w);
    finish_with_audit(w, 5)
}

fn waits(mut random: Random) -> Script {
    let nodes = random.pick(&[5, 5, 5, 6, 8]);
    let mut ring = Ring::of_fifths(&mut random, nodes);
    if random.percent(45) {
        ring = ring.widened(&mut random);
    }
    let mut w = begin(random, ring, 100, 200);
    scenes::waits(&mut w);
    finish_with_audit(w, 5)
}

fn ancestry(mut random: Random) -> Script {
    let ring = Ring::small(&mut random);
    let mut w = begin_any(random, ring, 60, 200);
    scenes::ancestry(&mut w);
    finish_with_audit(w, 5)
}

fn bridges(mut random: Random) -> Script {
    let ring = Ring::small(&mut random);
    let mut w = begin_any(random, ring, 150, 250);
    scenes::bridges(&mut w);
    finish_with_audit(w, 5)
}

fn leaps(mut random: Random) -> Script {
    let ring = Ring::heavy(&mut random);
    let mut w = begin(random, ring, 200, 200);
    scenes::leaps(&mut w);
    finish_with_audit(w, 8)
}

fn compared(mut random: Random) -> Script {
    let mut ring = if random.percent(80) { Ring::small(&mut random) } else { Ring::any(&mut random) };
    if random.percent(15) {
        ring = ring.widened(&mut random);
    }
    let mut w = begin_any(random, ring, 20, 50);
    compared::compared(&mut w);
    end(w)
}

fn cards(mut random: Random) -> Script {
    let ring = cards::ring_for_cards(&mut random);
    let mut w = begin_any(random, ring, 40, 200);
    cards::cards(&mut w);
    end(w)
}

/// Not widened: more nodes would only take longer.
fn many_lines(mut random: Random) -> Script {
    let ring = compared::ring_of_many_lines(&mut random);
    let mut w = Writer::new(random, ring, 0);
    w.start();
    compared::many_lines(&mut w);
    end(w)
}

fn received(mut random: Random) -> Script {
    let mut ring = Ring::small(&mut random);
    if random.percent(15) {
        ring = ring.widened(&mut random);
    }
    let mut w = begin_any(random, ring, 40, 150);
    received::received(&mut w);
    finish_with_audit(w, 15)
}

fn watched(mut random: Random) -> Script {
    let ring = Ring::small(&mut random);
    let mut w = begin(random, ring, 20, 100);
    watched::watched(&mut w);
    finish_with_audit(w, 10)
}

fn plays(mut random: Random) -> Script {
    let nodes = random.pick(&[5, 5, 6, 8]);
    let ring =
        if random.percent(80) { Ring::of_fifths(&mut random, nodes) } else { Ring::small(&mut random) };
    let ring = if random.percent(15) { ring.widened(&mut random) } else { ring };
    let mut w = begin_any(random, ring, 60, 150);
    received::plays(&mut w);
    finish_with_audit(w, 10)
}

fn exchanged(mut random: Random) -> Script {
    let nodes = random.pick(&[5, 6, 8, 10]);
    let ring =
        if random.percent(60) { Ring::of_fifths(&mut random, nodes) } else { Ring::small(&mut random) };
    let mut w = begin_any(random, ring, 80, 220);
    exchanged::exchanged(&mut w);
    finish_with_audit(w, 10)
}

/// The audit has lines of its own after the history's.
fn finish_with_audit(mut w: Writer, most: usize) -> Script {
    w.add_room(40);
    packets::audit(&mut w, most);
    for slot in 1..=LAST_SLOT {
        if w.random.percent(20) {
            w.say(format!("card {slot}"));
        }
    }
    end(w)
}

fn tiny(mut random: Random) -> Script {
    let ring = Ring::small(&mut random);
    let budget = random.below(6) as usize;
    let mut w = Writer::new(random, ring, budget);
    if w.random.percent(80) && !w.full() {
        w.start();
        let numbers = Numbers::any(&mut w.random, w.ring.genesis);
        while !w.full() {
            let slot = w.random.pick(&[1, 1, 1, 2, 5]);
            let block = numbers.of_slot(slot)[0];
            match w.random.below(4) {
                0 => history::announce(&mut w, &numbers, slot, block),
                1 => {
                    w.say(format!("timeout {slot}"));
                }
                _ => noise::some(&mut w, &numbers),
            }
        }
    }
    end(w)
}

/// Node commands with no node; the checkers need none.
fn before_start(mut random: Random) -> Script {
    const NODE_COMMANDS: &[&str] = &[
        "vote 1 1 1 7",
        "vote 9 99 99 0",
        "tray",
        "tray 1 1",
        "tray 1 1 1 7 3 1 1 0",
        "block 1 7 0 1",
        "block 0 0 0 0",
        "take 0101070100",
        "take -",
        "take 0101070100",
        "timeout 1",
        "timeout 99",
        "timeout 16",
        "look",
        "look",
        "look",
        "cert 1 1 7",
        "cert 0 0 0",
        "proof 1 7",
        "proof 0 0",
        "votes",
        "card 1",
        "card 16",
        "card 99",
        "blocks 1",
        "blocks 1",
        "blocks 99",
        "marks 1",
        "marks 1",
        "marks 99",
        "head",
        "head",
        "certificates 1",
        "certificates 1",
        "certificates 99",
        "weights 1 7",
        "weights 1 0",
        "weights 99 0",
        "board",
        "votes 1 0",
        "votes 99 99",
        "board 1",
        "board 99",
        "board 1 7",
        "aside",
        "aside",
        "differ",
        "differ",
        "vouched",
        "vouched 0101070100",
        "parents",
        "parents",
    ];
    let ring = Ring::small(&mut random);
    let budget = random.range(5, 70) as usize;
    let mut w = Writer::new(random, ring, budget);
    while !w.full() {
        match w.random.below(8) {
            0 => malformed::line(&mut w),
            1 => {
                let line = noise::bad_start(&mut w);
                w.say(line);
            }
            2 => {
                w.say("checkproof 0101070100 5");
            }
            _ => {
                let line = w.random.pick(NODE_COMMANDS);
                w.say(line);
            }
        }
    }
    if w.random.percent(60) {
        w.start();
        w.add_room(60);
        scenes::soup(&mut w);
    }
    end(w)
}

/// Several nodes one after the other, with refused starts between.
fn restarts(mut random: Random) -> Script {
    let ring = Ring::small(&mut random);
    let mut w = begin(random, ring, 10, 40);
    for _ in 0..w.random.range(2, 5) {
        scenes::soup(&mut w);
        let line = noise::bad_start(&mut w);
        w.say(line);
        w.ask_for_votes();
        w.say("look");
        let mut ring = Ring::any(&mut w.random);
        if w.random.percent(20) {
            ring = ring.widened(&mut w.random);
        }
        w.restart(ring);
        w.ask_for_votes();
        let room = w.random.range(5, 40) as usize;
        w.add_room(room);
    }
    scenes::soup(&mut w);
    end(w)
}

fn only_malformed(mut random: Random) -> Script {
    let ring = Ring::small(&mut random);
    let mut w = begin(random, ring, 10, 100);
    while !w.full() {
        malformed::line(&mut w);
    }
    end(w)
}

/// Refused lines over a node with some history.
fn faults(mut random: Random) -> Script {
    let ring = Ring::small(&mut random);
    let mut w = begin_any(random, ring, 20, 60);
    scenes::soup(&mut w);
    let numbers = Numbers::any(&mut w.random, w.ring.genesis);
    let room = w.random.range(20, 150) as usize;
    w.add_room(room);
    while !w.full() {
        match w.random.below(5) {
            0 => noise::faulty_vote(&mut w, &numbers),
            1 => noise::faulty_block(&mut w, &numbers),
            2 => noise::faulty_cert(&mut w, &numbers),
            3 => noise::faulty_proof(&mut w, &numbers),
            _ => noise::some(&mut w, &numbers),
        }
    }
    end(w)
}

fn trays(mut random: Random) -> Script {
    let ring = match random.below(10) {
        0..=5 => Ring::small(&mut random),
        6..=8 => Ring::any(&mut random),
        _ => Ring::crowd(&mut random),
    };
    let mut w = begin_any(random, ring, 10, 80);
    trays::trays(&mut w);
    finish_with_audit(w, 8)
}

/// With or without a node: votes as bytes ask for none.
fn messages(mut random: Random) -> Script {
    let ring = Ring::small(&mut random);
    let budget = random.range(20, 200) as usize;
    let mut w = Writer::new(random, ring, budget);
    messages::messages(&mut w);
    w.start();
    end(w)
}

/// With a node or without: proofs in pieces ask for none.
fn in_pieces(mut random: Random) -> Script {
    let ring = if random.percent(80) { Ring::any(&mut random) } else { Ring::crowd(&mut random) };
    let mut w = begin(random, ring, 20, 200);
    packets::in_pieces(&mut w);
    end(w)
}

fn packets_only(mut random: Random) -> Script {
    let ring = if random.percent(70) { Ring::any(&mut random) } else { Ring::crowd(&mut random) };
    let mut w = begin(random, ring, 10, 200);
    match w.random.below(7) {
        0 => packets::taken_apart(&mut w),
        1 => packets::random_bytes(&mut w),
        2 | 3 => packets::weighed(&mut w),
        _ => packets::hand_made(&mut w),
    }
    end(w)
}
