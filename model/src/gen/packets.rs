//! Packets: written ones taken to the checker whole and damaged, and
//! hand-made ones with every fault.

use super::noise::spoil_table;
use super::ring::{words, Ring};
use super::writer::Writer;
use crate::node::{Cert, LAST_SLOT};
use crate::packet::{mask, put_number};
use crate::panel::show_hex;
use crate::random::Random;
use crate::stakes::{Family, Signers, Threshold, P40, P60, P80};

// ---- written packets ----

/// Asks the writers for what the votes name, and takes the answers to the
/// checkers.
pub fn audit(w: &mut Writer, most: usize) {
    let mut questions = questions(w);
    w.random.shuffle(&mut questions);
    // What is held says more than what is not.
    questions.sort_by_key(|question| !question.1);
    let held = questions.iter().filter(|question| question.1).count();
    let mut asked = 0;
    for (i, (question, _)) in questions.into_iter().enumerate() {
        if w.full() || asked >= most {
            return;
        }
        if i >= held && !w.random.percent(15) {
            continue;
        }
        asked += 1;
        let answer = w.say(question);
        if let Some(packet) = packet_of(&answer) {
            take_to_checkers(w, &packet);
        }
    }
}

/// Every certificate and proof about slots and blocks with votes, each with
/// whether it is held.
fn questions(w: &Writer) -> Vec<(String, bool)> {
    let node = w.node();
    let mut all = Vec::new();
    for slot in 1..=LAST_SLOT {
        for block in node.named_blocks(slot) {
            for kind in 1..=3 {
                let held = node.holds(slot, Cert::of_kind(kind, block).unwrap());
                all.push((format!("cert {} {slot} {block}", w.ring.kind(kind)), held));
            }
            all.push((format!("proof {slot} {block}"), node.is_final(slot, block)));
        }
        for kind in 4..=5 {
            let held = node.holds(slot, Cert::of_kind(kind, 0).unwrap());
            all.push((format!("cert {} {slot} 0", w.ring.kind(kind)), held));
        }
    }
    all
}

pub fn packet_of(answer: &[String]) -> Option<Vec<u8>> {
    let hex = answer.first()?.split(' ').nth(2)?;
    let byte = |at: usize| u8::from_str_radix(&hex[at..at + 2], 16).ok();
    (0..hex.len()).step_by(2).map(byte).collect()
}

fn take_to_checkers(w: &mut Writer, packet: &[u8]) {
    let right = w.ring.stakes.clone();
    check(w, packet, &right);
    if w.random.percent(40) {
        let wrong = other_stakes(&mut w.random, &right);
        check(w, packet, &wrong);
    }
    while w.random.percent(45) {
        let damaged = damage(&mut w.random, packet);
        check(w, &damaged, &right);
    }
}

/// Mostly in capitals.
fn some_letters(w: &mut Writer, packet: &[u8]) -> String {
    let hex = show_hex(packet);
    match w.random.below(10) {
        0 => hex.to_lowercase(),
        1 => {
            let mixed = |c: char| if w.random.percent(50) { c.to_ascii_lowercase() } else { c };
            hex.chars().map(mixed).collect()
        }
        _ => hex,
    }
}

/// Either checker.
fn check(w: &mut Writer, packet: &[u8], stakes: &[u64]) {
    let hex = some_letters(w, packet);
    let command = if w.random.percent(50) { "check" } else { "checkproof" };
    w.say(format!("{command} {hex} {}", words(stakes)).trim_end().to_string());
}

fn other_stakes(random: &mut Random, right: &[u64]) -> Vec<u64> {
    let mut stakes = right.to_vec();
    let at = random.index(stakes.len());
    match random.below(9) {
        0 => stakes[at] = stakes[at].saturating_sub(1).max(1),
        1 => stakes[at] += random.range(1, 3),
        2 => stakes[at] *= 2,
        3 => {
            stakes.pop();
        }
        4 => stakes.push(random.range(1, 5)),
        5 => random.shuffle(&mut stakes),
        6 => stakes.rotate_left(1),
        7 => stakes.clear(),
        _ => spoil_table(random, &mut stakes),
    }
    stakes
}

/// One place changed.
pub fn damage(random: &mut Random, packet: &[u8]) -> Vec<u8> {
    let mut damaged = packet.to_vec();
    if damaged.is_empty() {
        return vec![random.next() as u8];
    }
    let at = random.index(damaged.len());
    match random.below(9) {
        0 | 1 => damaged[at] ^= 1 << random.below(8),
        2 => damaged.truncate(at),
        3 => damaged.push(random.pick(&[0, 1, 0x80, 0xFF])),
        4 => damaged.insert(at, random.pick(&[0, 0x80, 1])),
        5 => {
            damaged.remove(at);
        }
        6 => damaged[at] = random.next() as u8,
        // A number drawn out by a group of zeros: not shortest.
        7 => {
            let end = (at..damaged.len()).find(|&i| damaged[i] < 0x80).unwrap_or(at);
            damaged[end] |= 0x80;
            damaged.insert(end + 1, 0);
        }
        _ => {
            let copy = damaged.clone();
            damaged.extend(copy);
        }
    }
    damaged
}

// ---- hand-made packets ----

/// What a certificate says.
#[derive(Clone)]
struct Fields {
    kind: u64,
    slot: u64,
    block: u64,
    a: Signers,
    b: Signers,
}

impl Fields {
    /// A certificate that the ring's table accepts, of a kind 1 to 5 by meaning.
    fn good(random: &mut Random, ring: &Ring, meaning: u64, slot: u64) -> Fields {
        let threshold = if meaning == 1 { P80 } else { P60 };
        let mut signers = ring.reaching(random, threshold);
        if random.percent(40) {
            signers.push(random.index(ring.nodes()));
        }
        let fallbacks = if meaning == 3 || meaning == 4 { random.pick(&[0, 50, 100]) } else { 0 };
        let block = if meaning <= 3 { random.any_number().max(1) } else { 0 };
        let (mut a, mut b) = (Signers::new(), Signers::new());
        for node in signers {
            match random.percent(fallbacks) {
                true if !a.contains(&node) => b.insert(node),
                false if !b.contains(&node) => a.insert(node),
                _ => false,
            };
        }
        Fields { kind: ring.kind(meaning), slot, block, a, b }
    }

    /// One fault that a checker must see, among those of 4, 3, 5, 14, 15.
    fn spoil(&mut self, random: &mut Random, ring: &Ring) {
        let nodes = ring.nodes();
        let any_node = random.index(nodes);
        let places = 64 * ring.table().family().mask_words();
        let beyond = nodes + random.index((places - nodes).max(1));
        match random.below(12) {
            0 | 10 => self.kind = other_kind(random, self.kind),
            1 => {
                self.slot =
                    random.pick(&[0, 17, 18, 127, 128, 256 | self.slot, 1 << 32 | self.slot, u64::MAX])
            }
            2 | 8 | 9 => self.block = if self.block == 0 { random.any_number().max(1) } else { 0 },
            3 if beyond < places => {
                self.a.insert(beyond);
            }
            4 if beyond < places => {
                self.b.insert(beyond);
            }
            5 if !self.a.is_empty() => self.b = &self.a | &self.b,
            6 => {
                self.b.insert(any_node);
            }
            7 => self.lighten(random, ring),
            _ => {
                let alone = Signers::from([any_node]);
                let choice = random.below(3);
                (self.a, self.b) = match choice {
                    0 => (Signers::new(), Signers::new()),
                    1 => (self.b.clone(), self.a.clone()),
                    _ => (&self.a & &alone, Signers::new()),
                }
            }
        }
    }

    /// As many signers as can be without reaching the threshold.
    fn lighten(&mut self, random: &mut Random, ring: &Ring) {
        let threshold = if self.kind % 10 == 1 { P80 } else { P60 };
        let mut signers = ring.reaching(random, threshold);
        signers.pop();
        self.a = signers.into_iter().collect();
        self.b = Signers::new();
    }

    /// As many as the kind asks for, seldom as many as the other family has.
    fn numbers(&self, random: &mut Random) -> Vec<u64> {
        let mut family = Family::of_kind(self.kind);
        if random.percent(2) {
            family = random.pick(&[Family::Small, Family::Large]);
        }
        let mut numbers = vec![self.kind, self.slot, self.block];
        for signers in [&self.a, &self.b] {
            let fitting = signers.iter().copied().filter(|node| node / 64 < family.mask_words()).collect();
            numbers.extend(mask(&fitting, family));
        }
        numbers
    }
}

/// No kind, or one of the other family.
fn other_kind(random: &mut Random, kind: u64) -> u64 {
    let other_family = if kind > 10 { kind - 10 } else { kind + 10 };
    match random.below(4) {
        0 | 1 => other_family,
        2 => random.pick(&[0, 6, 7, 8, 9, 10, 16, 17]),
        _ => random.pick(&[127, 128, 256 | kind, 1 << 32 | kind, u64::MAX]),
    }
}

pub fn shortest(number: u64) -> Vec<u8> {
    let mut bytes = Vec::new();
    put_number(&mut bytes, number);
    bytes
}

/// A number written as it must not be, or just may.
pub fn odd_form(random: &mut Random, number: u64) -> Vec<u8> {
    let mut bytes = shortest(number);
    match random.below(4) {
        // Drawn out by groups of zeros, up to and past the tenth byte.
        0 | 1 => {
            let most = 11usize.saturating_sub(bytes.len()).max(1);
            let extra = random.pick(&[1, 1, 2, most.saturating_sub(1).max(1), most]);
            *bytes.last_mut().unwrap() |= 0x80;
            bytes.resize(bytes.len() + extra - 1, 0x80);
            bytes.push(0);
        }
        2 => bytes = ten_bytes(random),
        // Cut short: the next number's first byte is taken for its own.
        _ => *bytes.last_mut().unwrap() |= 0x80,
    }
    bytes
}

/// Nine bytes with more to follow, then a tenth of each interesting value.
fn ten_bytes(random: &mut Random) -> Vec<u8> {
    let fill = random.pick(&[0x80, 0xFF, 0x81]);
    let tenth = random.pick(&[0, 1, 1, 2, 3, 0x7F, 0x80, 0x81, 0xFF]);
    let mut bytes = vec![fill; 9];
    bytes.push(tenth);
    bytes
}

fn encode(random: &mut Random, fields: &Fields, odd: bool) -> Vec<u8> {
    let numbers = fields.numbers(random);
    let odd_one = if odd { random.index(numbers.len()) } else { numbers.len() };
    let mut packet = Vec::new();
    for (i, &number) in numbers.iter().enumerate() {
        packet.extend(if i == odd_one { odd_form(random, number) } else { shortest(number) });
    }
    packet
}

/// A certificate with that chance, in percent, of each sort of fault.
fn certificate(random: &mut Random, ring: &Ring, meaning: u64, slot: u64, fault: u64) -> Vec<u8> {
    let mut fields = Fields::good(random, ring, meaning, slot);
    while random.percent(fault) {
        fields.spoil(random, ring);
    }
    let odd = random.percent(fault / 2);
    encode(random, &fields, odd)
}

/// Mostly of the two proof forms.
fn proof(random: &mut Random, ring: &Ring, fault: u64) -> Vec<u8> {
    let slot = random.range(1, LAST_SLOT);
    let first_kind = random.pick(&[1, 2, 2, 2, 2, 2, 3, 4, 5]);
    let mut packet = certificate(random, ring, first_kind, slot, fault / 2);
    if first_kind != 1 || random.percent(10) {
        let second_kind = if random.percent(80) { 5 } else { random.range(1, 5) };
        let second_slot = if random.percent(85) { slot } else { random.range(1, LAST_SLOT) };
        packet.extend(certificate(random, ring, second_kind, second_slot, fault));
    }
    packet
}

/// Hand-made packets, each to one of the checkers.
pub fn hand_made(w: &mut Writer) {
    let fault = w.random.pick(&[0, 20, 40, 60]);
    while !w.full() {
        if w.random.percent(10) {
            w.ring = match w.random.below(10) {
                0 | 1 => Ring::crowd(&mut w.random),
                2 | 3 => Ring::small(&mut w.random).widened(&mut w.random),
                4..=6 => Ring::small(&mut w.random),
                _ => Ring::any(&mut w.random),
            };
        }
        let ring = w.ring.clone();
        let mut packet = if w.random.percent(50) {
            proof(&mut w.random, &ring, fault)
        } else {
            let (kind, slot) = (w.random.range(1, 5), w.random.range(1, LAST_SLOT));
            certificate(&mut w.random, &ring, kind, slot, fault)
        };
        if w.random.percent(fault / 3) {
            packet = damage(&mut w.random, &packet);
        }
        let mut stakes = ring.stakes;
        if w.random.percent(fault / 6) {
            stakes = other_stakes(&mut w.random, &stakes);
        }
        check(w, &packet, &stakes);
    }
}

/// One good packet, then its prefixes and its single bits flipped, as far as
/// the script has room.
pub fn taken_apart(w: &mut Writer) {
    let ring = w.ring.clone();
    let mut packet = proof(&mut w.random, &ring, 0);
    if w.random.percent(30) {
        let kind = w.random.range(1, 5);
        packet = certificate(&mut w.random, &ring, kind, 16, 0);
    }
    check(w, &packet, &ring.stakes);
    let mut lengths: Vec<usize> = (0..packet.len()).collect();
    w.random.shuffle(&mut lengths);
    lengths.truncate(40);
    for length in lengths {
        check(w, &packet[..length], &ring.stakes);
    }
    let mut bits: Vec<usize> = (0..packet.len() * 8).collect();
    w.random.shuffle(&mut bits);
    for bit in bits {
        if w.full() {
            return;
        }
        let mut flipped = packet.clone();
        flipped[bit / 8] ^= 1 << (bit % 8);
        check(w, &flipped, &ring.stakes);
    }
}

/// Random bytes, with small ones likely so that some get past the numbers.
pub fn random_bytes(w: &mut Writer) {
    while !w.full() {
        let length = w.random.below(14);
        let byte = |random: &mut Random| match random.below(4) {
            0 => random.next() as u8,
            1 => random.pick(&[0x80, 0xFF, 0x7F]),
            _ => random.below(7) as u8,
        };
        let packet: Vec<u8> = (0..length).map(|_| byte(&mut w.random)).collect();
        let stakes = w.ring.stakes.clone();
        check(w, &packet, &stakes);
    }
}

/// Signers around every threshold, by one checker after the other, each over
/// totals with every remainder by five.
pub fn weighed(w: &mut Writer) {
    let ring = w.ring.clone();
    while !w.full() {
        let kind = w.random.range(1, 5);
        let slot = w.random.range(1, LAST_SLOT);
        let mut packet = around_threshold(&mut w.random, &ring, kind, slot);
        if kind == 2 && w.random.percent(50) {
            packet = certificate(&mut w.random, &ring, 2, slot, 0);
        }
        if kind == 2 {
            packet.extend(around_threshold(&mut w.random, &ring, 5, slot));
        }
        let mut stakes = ring.stakes.clone();
        let at = w.random.index(stakes.len());
        for _ in 0..w.random.pick(&[1, 1, 6]) {
            check(w, &packet, &stakes);
            stakes[at] += 1;
        }
    }
}

/// A certificate that is heavy enough, or too light by little, much or all.
fn around_threshold(random: &mut Random, ring: &Ring, meaning: u64, slot: u64) -> Vec<u8> {
    let threshold: Threshold = random.pick(&[P40, P60, P60, P80, P80]);
    let mut signers = ring.reaching(random, threshold);
    for _ in 0..random.pick(&[0, 0, 1, 1, 1, 2, 3, ring.nodes()]) {
        signers.pop();
    }
    let block = if meaning <= 3 { 7 } else { 0 };
    let a = signers.into_iter().collect();
    encode(random, &Fields { kind: ring.kind(meaning), slot, block, a, b: Signers::new() }, false)
}

// ---- proofs in pieces ----

/// Proofs of every sort, each cut anew; ends without a piece, refused tables
/// and other lines between.
pub fn in_pieces(w: &mut Writer) {
    let fault = w.random.pick(&[0, 20, 40]);
    while !w.full() {
        let ring = w.ring.clone();
        let mut packet = proof(&mut w.random, &ring, fault);
        if w.random.percent(fault) {
            packet = damage(&mut w.random, &packet);
        }
        if w.random.percent(8) {
            packet = around_threshold(&mut w.random, &ring, 1, 1);
        }
        match w.random.below(12) {
            0 => every_cut(w, &packet),
            1 => far_too_long(w, packet),
            2 => {
                let mut stakes = ring.stakes;
                spoil_table(&mut w.random, &mut stakes);
                piece(w, &packet, &stakes);
                if w.random.percent(50) {
                    w.say("end");
                }
            }
            3 => {
                w.say("end");
            }
            4 => w.start(),
            5 => check(w, &packet, &ring.stakes),
            _ => {
                if w.random.percent(10) {
                    packet.truncate(w.random.index(packet.len() + 1));
                }
                let cuts = w.random.pick(&[0, 1, 2, 5, packet.len().min(30)]);
                let cuts = (0..cuts).map(|_| w.random.index(packet.len() + 1)).collect();
                cut_up(w, &packet, cuts);
            }
        }
    }
}

/// One piece after another up to the end; a cut twice is a piece without bytes.
fn cut_up(w: &mut Writer, packet: &[u8], mut cuts: Vec<usize>) {
    cuts.sort_unstable();
    cuts.push(packet.len());
    let mut begun = 0;
    for cut in cuts {
        // Later tables are not looked at.
        let right = w.ring.stakes.clone();
        let stakes = match w.random.below(10) {
            _ if begun == 0 => right,
            0 => right,
            1 => other_stakes(&mut w.random, &right),
            2 => vec![0],
            _ => vec![],
        };
        piece(w, &packet[begun..cut], &stakes);
        begun = cut;
    }
    w.say("end");
}

/// In two pieces, at every place or at some of them.
fn every_cut(w: &mut Writer, packet: &[u8]) {
    let mut places: Vec<usize> = (0..=packet.len()).collect();
    if packet.len() > 30 {
        w.random.shuffle(&mut places);
        places.truncate(20);
    }
    for cut in places {
        cut_up(w, packet, vec![cut]);
    }
}

/// More bytes than any proof has, behind a good one or a bad one.
fn far_too_long(w: &mut Writer, mut packet: Vec<u8>) {
    let length = w.random.pick(&[100, 1400, 1600, 5000]);
    let byte = w.random.pick(&[0, 1, 0x80, 0xFF]);
    packet.resize(packet.len() + length, byte);
    let cuts = (0..w.random.below(12)).map(|_| w.random.index(packet.len() + 1)).collect();
    cut_up(w, &packet, cuts);
}

fn piece(w: &mut Writer, bytes: &[u8], stakes: &[u64]) {
    w.say(format!("piece {} {}", show_hex(bytes), words(stakes)).trim_end().to_string());
}

// ---- certificates from others ----

/// A certificate that others made, with that chance, in percent, of faults.
pub fn take(w: &mut Writer, cert: Cert, slot: u64, fault: u64) {
    let mut fields = Fields::good(&mut w.random, &w.ring, cert.kind(), slot);
    fields.block = cert.block();
    while w.random.percent(fault) {
        fields.spoil(&mut w.random, &w.ring);
    }
    let odd = w.random.percent(fault / 4);
    let mut packet = encode(&mut w.random, &fields, odd);
    if w.random.percent(fault / 4) {
        packet = damage(&mut w.random, &packet);
    }
    say_take(w, &packet);
}

fn say_take(w: &mut Writer, packet: &[u8]) {
    let hex = some_letters(w, packet);
    w.say(format!("take {hex}"));
}

/// The very packet of a certificate that came before.
pub fn take_again(w: &mut Writer) {
    let taken = w.said_with("take ");
    if !taken.is_empty() {
        let line = taken[w.random.index(taken.len())].clone();
        w.say(line);
    }
}

/// A certificate of what is kept already, that the checker refuses.
pub fn take_spoiled_again(w: &mut Writer) {
    let kept: Vec<(u64, Cert)> = (1..=LAST_SLOT)
        .flat_map(|slot| w.node().kept_certificates(slot).iter().map(move |kept| (slot, kept.cert)))
        .collect();
    if kept.is_empty() {
        return;
    }
    let (slot, cert) = w.random.pick(&kept);
    let mut fields = Fields::good(&mut w.random, &w.ring, cert.kind(), slot);
    fields.block = cert.block();
    let mut odd = false;
    match w.random.below(5) {
        0 | 1 => fields.lighten(&mut w.random, &w.ring),
        2 => fields.b = &fields.a | &fields.b,
        3 => odd = true,
        // Another block, lighter than it must be: 15 before 8.
        _ => {
            fields.block ^= u64::from(cert.needs_block()) << 40;
            fields.lighten(&mut w.random, &w.ring);
        }
    }
    let mut packet = encode(&mut w.random, &fields, odd);
    if w.random.percent(20) {
        packet.push(0);
    }
    say_take(w, &packet);
}

/// Good but for its family: the numbers are those that its kind asks for.
pub fn take_of_other_family(w: &mut Writer, cert: Cert, slot: u64) {
    let mut fields = Fields::good(&mut w.random, &w.ring, cert.kind(), slot);
    fields.block = cert.block();
    fields.kind = if fields.kind > 10 { fields.kind - 10 } else { fields.kind + 10 };
    let mut packet = encode(&mut w.random, &fields, false);
    if w.random.percent(20) {
        packet.truncate(w.random.index(packet.len()));
    }
    say_take(w, &packet);
}

/// A good one with bytes after it, few or very many.
pub fn take_with_more(w: &mut Writer, cert: Cert, slot: u64) {
    let mut fields = Fields::good(&mut w.random, &w.ring, cert.kind(), slot);
    fields.block = cert.block();
    let mut packet = encode(&mut w.random, &fields, false);
    let more = w.random.pick(&[1, 1, 2, 100, 2_000, 30_000]);
    let byte = w.random.pick(&[0, 1, 0x80, 0xFF]);
    packet.resize(packet.len() + more, byte);
    say_take(w, &packet);
}

/// A good one with a prefix, a bit flipped or a byte changed, some of each; then
/// it as it is.
pub fn take_apart(w: &mut Writer, cert: Cert, slot: u64) {
    let mut fields = Fields::good(&mut w.random, &w.ring, cert.kind(), slot);
    fields.block = cert.block();
    let packet = encode(&mut w.random, &fields, false);
    for _ in 0..6 {
        let mut changed = packet.clone();
        let at = w.random.index(packet.len());
        match w.random.below(3) {
            0 => changed.truncate(at),
            1 => changed[at] ^= 1 << w.random.below(8),
            _ => changed = damage(&mut w.random, &packet),
        }
        say_take(w, &changed);
    }
    say_take(w, &packet);
}
