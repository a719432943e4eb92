//! The tuned version beside the model, on the random scripts and on packets of
//! their own, and its test of a record beside a plain one.

use super::layout::*;
use super::sound::sound;
use super::*;
use crate::gen;
use crate::packet;
use crate::panel::{lines, show_hex, Answer, Panel};
use crate::random::Random;
use crate::stakes::Stakes;

/// Answers the commands that the tuned version has, as the panel does.
#[derive(Default)]
struct Tuned {
    words: Vec<u64>,
}

impl Tuned {
    /// None for another command, and where the node is not started.
    fn line(&mut self, line: &[u8]) -> Option<String> {
        let words: Vec<&str> =
            std::str::from_utf8(line).ok()?.split(' ').filter(|word| !word.is_empty()).collect();
        let (name, rest) = words.split_first()?;
        if let "check" | "checkproof" = *name {
            let (packet, stakes) = rest.split_first()?;
            let packet = bytes(packet)?;
            let stakes = numbers(stakes)?;
            let check = if *name == "check" { check_certificate } else { check_proof };
            return Some(show_check(check(&stakes, &packet)));
        }
        if let ("take", [packet], false) = (*name, rest, self.words.is_empty()) {
            return Some(self.take(&bytes(packet)?));
        }
        let numbers = numbers(rest)?;
        match (*name, &numbers[..]) {
            ("start", [own, genesis, stakes @ ..]) => Some(self.start(*own, *genesis, stakes)),
            _ if self.words.is_empty() => None,
            ("cert", &[kind, slot, block]) => Some(self.write(kind, slot, block)),
            ("card", &[slot]) => Some(self.card(slot)),
            ("tray", votes) => Some(self.tray(votes)),
            (name, numbers) => self.input(name, numbers),
        }
    }

    fn start(&mut self, own: u64, genesis: u64, stakes: &[u64]) -> String {
        let mut words = vec![7; record_words(stakes.len().min(MOST_NODES))];
        let number = start(&mut words, stakes, own, genesis);
        if number == 0 {
            self.words = words;
        }
        number.to_string()
    }

    fn input(&mut self, name: &str, numbers: &[u64]) -> Option<String> {
        let mut outbox = [0; OUTBOX_WORDS];
        let (number, made) = match (name, numbers) {
            ("vote", &[kind, node, slot, of]) => vote(&mut self.words, &mut outbox, [kind, node, slot, of]),
            ("block", &[slot, of, below, parent]) => {
                block(&mut self.words, &mut outbox, [slot, of, below, parent])
            }
            ("timeout", &[slot]) => timeout(&mut self.words, &mut outbox, slot),
            ("look", []) => look(&mut self.words, &mut outbox),
            _ => return None,
        };
        Some(if number == 0 { show_records(&outbox, made) } else { number.to_string() })
    }

    fn take(&mut self, packet: &[u8]) -> String {
        let mut outbox = [0; OUTBOX_WORDS];
        match take_certificate(&mut self.words, &mut outbox, packet) {
            (0, made) => show_records(&outbox, made),
            (number, _) => number.to_string(),
        }
    }

    fn tray(&mut self, votes: &[u64]) -> String {
        let mut outbox = [0; OUTBOX_WORDS];
        let mut answers = vec![0; votes.len() / 4];
        let (number, made) = tray(&mut self.words, &mut outbox, votes, &mut answers);
        if number != 0 {
            return number.to_string();
        }
        let answers: String = answers.iter().map(|answer| format!(" {answer}")).collect();
        show_records(&outbox, made) + if answers.is_empty() { "" } else { " :" } + &answers
    }

    fn card(&self, slot: u64) -> String {
        match card(&self.words, slot) {
            (0, values) => values.iter().fold("0".to_string(), |line, value| format!("{line} {value}")),
            (number, _) => number.to_string(),
        }
    }

    fn write(&self, kind: u64, slot: u64, block: u64) -> String {
        let mut buffer = [0; 768];
        let (number, written) = write_certificate(&self.words, &mut buffer, kind, slot, block);
        if number == 0 {
            format!("0 {written} {}", show_hex(&buffer[..written]))
        } else {
            number.to_string()
        }
    }
}

fn numbers(words: &[&str]) -> Option<Vec<u64>> {
    words.iter().map(|word| word.bytes().all(|b| b.is_ascii_digit()).then(|| word.parse().ok())?).collect()
}

fn bytes(hex: &str) -> Option<Vec<u8>> {
    if hex == "-" {
        return Some(Vec::new());
    }
    let pairs = hex.as_bytes().chunks(2);
    pairs
        .map(|pair| u8::from_str_radix(std::str::from_utf8(pair).ok()?, 16).ok().filter(|_| pair.len() == 2))
        .collect()
}

fn show_records(outbox: &[u64], made: usize) -> String {
    let records = outbox.chunks(3).take(made);
    records.fold(format!("0 {made}"), |line, r| format!("{line} {},{},{}", r[0], r[1], r[2]))
}

fn show_check((number, values, missing): Check) -> String {
    match number {
        0 => values.iter().fold("0".to_string(), |line, value| format!("{line} {value}")),
        15 => format!("15 {missing}"),
        _ => number.to_string(),
    }
}

/// Commands that the tuned version does not have, and that leave a node as it
/// is. Any other that it does not have ends the comparison up to the next start.
const ONLY_ASK: [&str; 11] =
    ["proof", "votes", "board", "help", "why", "pack", "unpack", "piece", "end", "aside", "differ"];

/// How many answers were compared, by the command's name, over these seeds.
fn compare(seeds: std::ops::Range<u64>) -> std::collections::BTreeMap<String, usize> {
    let mut compared = std::collections::BTreeMap::new();
    for seed in seeds {
        let script = gen::script(seed).text;
        let (mut panel, mut tuned) = (Panel::default(), Tuned::default());
        for line in lines(script.as_bytes()) {
            let wanted = panel.line(line).map(Answer::lines);
            let wanted = match wanted.as_deref() {
                Some([one]) if one != "?" => one,
                _ => continue,
            };
            let text = String::from_utf8_lossy(line);
            let name = text.split_whitespace().next().unwrap_or("");
            let answer = match tuned.line(line) {
                Some(answer) => answer,
                None if ONLY_ASK.contains(&name) => continue,
                None => {
                    tuned.words.clear();
                    continue;
                }
            };
            assert_eq!(&answer, wanted, "seed {seed}: {text}");
            assert!(tuned.words.is_empty() || sound(&tuned.words).is_some(), "seed {seed}: 17 after {text}");
            *compared.entry(name.to_string()).or_insert(0) += 1;
        }
    }
    compared
}

#[test]
fn answers_as_the_model_does() {
    let compared = compare(1..400);
    for (name, least) in [
        ("start", 300),
        ("vote", 10_000),
        ("block", 1_000),
        ("timeout", 300),
        ("look", 300),
        ("tray", 30),
        ("take", 1_000),
        ("cert", 300),
        ("card", 300),
        ("check", 300),
        ("checkproof", 300),
    ] {
        let count = compared.get(name).copied().unwrap_or(0);
        assert!(count >= least, "{name}: {count} compared, at least {least} wanted; {compared:?}");
    }
}

/// The rings of `rings` in small, liars' among them: their votes in trays of any
/// size and in any order, certificates and timeouts between them.
#[test]
fn answers_as_the_model_does_among_liars() {
    let mut random = Random::new(41);
    let rings = [
        "empty",
        "one",
        "five",
        "each",
        "voted",
        "random",
        "bits",
        "places",
        "firms",
        "all",
        "allbits",
        "names",
        "namefirms",
        "skipped",
        "thirds",
        "mixed",
        "mixedall",
        "life",
        "liars",
    ];
    let mut told = 0;
    for _ in 0..3 {
        for name in rings {
            let nodes = random.range(4, 14) as usize;
            let ring = crate::rings::ring(name, nodes).expect("a ring");
            let stored =
                ring.stored.iter().map(|&(slot, node, vote)| [vote.kind(), node as u64, slot, vote.block()]);
            let mut votes: Vec<[u64; 4]> = stored.chain(ring.given.iter().copied()).collect();
            if random.percent(50) {
                random.shuffle(&mut votes);
            }
            votes.truncate(400);
            let (mut panel, mut tuned) = (Panel::default(), Tuned::default());
            let mut both = |line: String| {
                let wanted = panel.line(line.as_bytes()).map(Answer::lines).expect("an answer");
                let answer = tuned.line(line.as_bytes()).expect("an answer");
                assert_eq!([answer], &wanted[..], "{name}, {nodes} nodes: {line}");
                assert!(sound(&tuned.words).is_some(), "{name}, {nodes} nodes: 17 after {line}");
                told += usize::from(!wanted[0].starts_with("0 0"));
            };
            let stakes: Vec<String> = ring.stakes.iter().map(|stake| stake.to_string()).collect();
            both(format!("start 0 1 {}", stakes.join(" ")));
            for slot in 1..=LAST_SLOT as u64 {
                if ring.has_chain || random.percent(20) {
                    let parent = if slot == 1 { 1 } else { crate::rings::chained(slot - 1) };
                    both(format!("block {slot} {} {} {parent}", crate::rings::chained(slot), slot - 1));
                }
            }
            let mut rest = &votes[..];
            while !rest.is_empty() {
                let most = random.pick(&[1, 20, 200]).min(rest.len());
                let numbers: Vec<String> = rest[..most].iter().flatten().map(|n| n.to_string()).collect();
                both(format!("tray {}", numbers.join(" ")));
                rest = &rest[most..];
                if ring.is_late || random.percent(5) {
                    both(format!("timeout {}", random.range(1, LAST_SLOT as u64)));
                }
            }
        }
    }
    assert!(told > 200, "{told} answers with records or refusals");
}

// ---- 17, once more and plainly ----

/// A record in range, read off the list of what 17 is given for.
fn plainly_sound(words: &[u64]) -> bool {
    let nodes = (1..=MOST_NODES).find(|&nodes| record_words(nodes) == words.len());
    nodes.map_or(false, |nodes| {
        let row = |slot: usize| &words[STAKES + nodes + slot * row_words(nodes)..][..row_words(nodes)];
        plain_head(words, nodes)
            && row(0).iter().all(|&word| word == 0)
            && (1..=LAST_SLOT).all(|slot| plain_row(row(slot), slot, words, nodes))
    })
}

fn plain_head(words: &[u64], nodes: usize) -> bool {
    let stakes = &words[STAKES..STAKES + nodes];
    let total: u128 = stakes.iter().map(|&stake| u128::from(stake)).sum();
    words[COUNT] == nodes as u64
        && !stakes.contains(&0)
        && total == u128::from(words[TOTAL])
        && total <= u128::from(MOST_TOTAL)
        && words[OWN] < nodes as u64
        && words[GENESIS] != 0
        && words[ARMED..STAKES].iter().all(|&flag| flag < 2)
}

fn plain_row(row: &[u64], slot: usize, words: &[u64], nodes: usize) -> bool {
    let blocks: Vec<&[u64]> = row[..BLOCKS].chunks(BLOCK).collect();
    let kept: Vec<&[u64]> = blocks.iter().copied().filter(|block| block[0] != 0).collect();
    let in_front = blocks.iter().skip(kept.len()).all(|block| block == &[0, 0, 0]);
    let with_parents = kept
        .iter()
        .all(|block| block[2] != 0 && block[1] < slot as u64 && (block[1] > 0 || block[2] == words[GENESIS]));
    let apart = (0..kept.len()).all(|i| (0..i).all(|j| kept[i][0] != kept[j][0]));
    let cells: Vec<&[u64]> = row[cells_at(nodes)..].chunks(CELL).collect();
    let leans = |block: u64| {
        let notar = stake_where(row, words, nodes, &|cell| cell[0] == block);
        let skip = stake_where(row, words, nodes, &|cell| cell[1] == 1);
        let total = words[TOTAL];
        5 * notar >= 2 * total || (5 * notar >= total && 5 * (skip + notar) >= 3 * total)
    };
    in_front
        && with_parents
        && apart
        && row[TIMED_OUT] < 2
        && row[CLASH] < 2
        && cells.iter().all(|cell| plain_cell(cell))
        && cells[words[OWN] as usize][2..5].iter().all(|&block| block == 0 || leans(block))
        && row[CARD..][..CARD_WORDS] == plain_card(row, words, nodes)
        && plain_certificates(row, slot, words, nodes)
}

/// Every certificate is written as the packet that it was and given to the
/// model's checker; no two have kind and block in common.
fn plain_certificates(row: &[u64], slot: usize, words: &[u64], nodes: usize) -> bool {
    let stakes = match Stakes::new(&words[STAKES..STAKES + nodes]) {
        Ok(stakes) => stakes,
        Err(_) => return false,
    };
    let more = if nodes > MOST_SMALL { 10 } else { 0 };
    let mut kept = Vec::new();
    let mut is_free_before = false;
    for place in 0..CERTIFICATE_PLACES {
        let length = 1 + 2 * if nodes > MOST_SMALL { 32 } else { 1 };
        let place_words = &row[20 + place * length..][..length];
        let meaning = if place < 4 { [1, 2, 4, 5][place] } else { 3 };
        is_free_before &= place > 4;
        if place_words[1..].iter().all(|&word| word == 0) {
            if place_words[0] != 0 {
                return false;
            }
            is_free_before = true;
            continue;
        }
        let mut bytes = Vec::new();
        for &number in [meaning + more, slot as u64].iter().chain(place_words) {
            packet::put_number(&mut bytes, number);
        }
        let in_front = meaning != 3 || !is_free_before;
        if !in_front
            || packet::check_whole(&bytes, &stakes).is_err()
            || kept.contains(&(meaning, place_words[0]))
        {
            return false;
        }
        kept.push((meaning, place_words[0]));
    }
    true
}

/// The stakes of the nodes with such a cell; of spoiled stakes some wrap.
fn stake_where(row: &[u64], words: &[u64], nodes: usize, counts: &dyn Fn(&[u64]) -> bool) -> u64 {
    let cells = row[cells_at(nodes)..].chunks(CELL).zip(&words[STAKES..STAKES + nodes]);
    cells.filter(|(cell, _)| counts(cell)).fold(0, |sum, (_, stake)| stake.wrapping_add(sum))
}

/// Every block weighed, and of the heaviest the lowest.
fn plain_card(row: &[u64], words: &[u64], nodes: usize) -> [u64; CARD_WORDS] {
    let stake_where = |counts: &dyn Fn(&[u64]) -> bool| stake_where(row, words, nodes, counts);
    let mut blocks: Vec<u64> =
        row[cells_at(nodes)..].chunks(CELL).map(|cell| cell[0]).filter(|&block| block != 0).collect();
    blocks.sort_unstable();
    let weights = blocks.iter().map(|&block| (stake_where(&|cell| cell[0] == block), block));
    let (weight, leader) = weights.fold((0, 0), |most, next| if next.0 > most.0 { next } else { most });
    [
        stake_where(&|cell| cell[1] == 1),
        stake_where(&|cell| cell[6] == 1),
        stake_where(&|cell| cell[1] == 1 || cell[5] == 1),
        leader,
        weight,
    ]
}

fn plain_cell(cell: &[u64]) -> bool {
    let fallbacks: Vec<u64> = cell[2..5].iter().copied().filter(|&block| block != 0).collect();
    let in_front = cell[2..5][..fallbacks.len()] == fallbacks[..];
    let apart = (0..fallbacks.len()).all(|i| !fallbacks[..i].contains(&fallbacks[i]));
    cell[1] < 2 && cell[5] < 2 && cell[6] < 2 && (cell[0] == 0 || cell[1] == 0) && in_front && apart
}

/// The record at the end of a script of a ring of at most so many.
fn left_by(seed: u64, most: u64) -> Option<Vec<u64>> {
    let mut tuned = Tuned::default();
    for line in lines(gen::script(seed).text.as_bytes()) {
        tuned.line(line);
    }
    (!tuned.words.is_empty() && tuned.words[COUNT] <= most).then_some(tuned.words)
}

/// One word changed, as a spoiler would: to 0, 1, its neighbour's, one more, or anything.
fn spoil(words: &mut [u64], random: &mut Random) {
    let at = random.index(words.len());
    let other = words[(at + 1) % words.len()];
    words[at] = match random.below(6) {
        0 => 0,
        1 => 1,
        2 => other,
        3 => words[at].wrapping_add(1),
        4 => words[random.index(words.len())],
        _ => random.any_number(),
    };
}

/// Something of a kept certificate changed: a signer, its block, its place, or all of it.
fn spoil_certificate(words: &mut [u64], random: &mut Random) {
    let nodes = words[COUNT] as usize;
    let length = place_words(nodes);
    let at =
        |slot: usize, place: usize| STAKES + nodes + slot * row_words(nodes) + CERTIFICATES + place * length;
    let places = (1..=LAST_SLOT).flat_map(|slot| (0..CERTIFICATE_PLACES).map(move |place| at(slot, place)));
    let used: Vec<usize> =
        places.filter(|&at| words[at..at + length].iter().any(|&word| word != 0)).collect();
    if used.is_empty() {
        return;
    }
    let one = random.pick(&used);
    // Mostly in the same row.
    let row = (one - STAKES - nodes) / row_words(nodes);
    let near = at(row, random.index(CERTIFICATE_PLACES));
    let far = random.pick(&used);
    let other = random.pick(&[near, near, far]);
    let a = one + 1 + random.index(mask_words(nodes));
    let b = a + mask_words(nodes);
    match random.below(9) {
        0 => words[a] ^= 1 << random.below(64),
        1 => words[b] ^= 1 << random.below(64),
        2 => words.swap(a, b),
        3 => words[one] = random.pick(&[0, words[other], words[one].wrapping_add(1)]),
        4 => words[one..one + length].fill(0),
        5 => words[one + 1..one + length].fill(0),
        6 => words.copy_within(one..one + length, other),
        7 => {
            words.copy_within(one..one + length, other);
            words[one..one + length].fill(0);
        }
        _ => words[a] = words[a].wrapping_sub(1),
    }
}

/// The cards of a record of unspoiled length, counted once more.
fn recount(words: &mut [u64]) {
    let nodes = (1..=MOST_NODES).find(|&nodes| record_words(nodes) == words.len()).expect("a length");
    for slot in 1..=LAST_SLOT {
        let row = STAKES + nodes + slot * row_words(nodes);
        let card = plain_card(&words[row..][..row_words(nodes)], words, nodes);
        words[row + CARD..][..CARD_WORDS].copy_from_slice(&card);
    }
}

/// Half of the spoiled records have cards that were counted after it, so that
/// nothing but the spoiled word is seen.
#[test]
fn the_test_of_a_record_is_the_plain_one() {
    let mut random = Random::new(29);
    let (mut refused, mut passed) = (0, 0);
    for seed in 1..250 {
        let record = match left_by(seed, 12) {
            Some(record) => record,
            None => continue,
        };
        for _ in 0..120 {
            let mut spoiled = record.clone();
            for _ in 0..random.range(1, 2) {
                spoil(&mut spoiled, &mut random);
            }
            if random.below(2) == 0 {
                recount(&mut spoiled);
            }
            let plain = plainly_sound(&spoiled);
            assert_eq!(sound(&spoiled).is_some(), plain, "seed {seed}");
            *(if plain { &mut passed } else { &mut refused }) += 1;
        }
        assert!(plainly_sound(&record) && !plainly_sound(&record[1..]) && sound(&record[1..]).is_none());
    }
    assert!(refused > 1_000 && passed > 1_000, "{refused} refused, {passed} passed");
}

/// The rings and places of both families.
#[test]
fn the_test_of_certificates_is_the_plain_one() {
    let mut random = Random::new(111);
    let (mut refused, mut passed, mut large) = (0, 0, 0);
    for seed in 1..700 {
        let record = match left_by(seed, 130) {
            Some(record) => record,
            None => continue,
        };
        for _ in 0..40 {
            let mut spoiled = record.clone();
            spoil_certificate(&mut spoiled, &mut random);
            if spoiled == record {
                continue;
            }
            let plain = plainly_sound(&spoiled);
            assert_eq!(sound(&spoiled).is_some(), plain, "seed {seed}");
            *(if plain { &mut passed } else { &mut refused }) += 1;
            large += usize::from(record[COUNT] > MOST_SMALL as u64);
        }
    }
    let counts = format!("{refused} refused, {passed} passed, {large} with large tables");
    assert!(refused > 3_000 && passed > 500 && large > 300, "{counts}");
}

/// Slots of a few votes for a few blocks, of nodes whose stakes make ties; then
/// every claim of a leader but the recount's is refused.
#[test]
fn no_other_leader_passes() {
    let mut random = Random::new(105);
    let mut ties = 0;
    for _ in 0..400 {
        let nodes = random.range(2, 9) as usize;
        let stakes: Vec<u64> = (0..nodes).map(|_| random.range(1, 3)).collect();
        let mut words = vec![0; record_words(nodes)];
        assert_eq!(start(&mut words, &stakes, 0, 1), 0);
        for node in 1..nodes {
            store_vote(&mut words, 1, node, 3, random.range(5, 8));
        }
        assert!(sound(&words).is_some() && plainly_sound(&words));
        let row = STAKES + nodes + 3 * row_words(nodes);
        let (card, cells) = (row + CARD, row + cells_at(nodes));
        let (leader, weight) = (words[card + 3], words[card + 4]);
        for other in (0..=9).filter(|&other| other != leader) {
            let notar: u64 =
                (1..nodes).filter(|node| words[cells + node * CELL] == other).map(|node| stakes[node]).sum();
            assert!(notar < weight || (notar == weight && leader < other));
            ties += usize::from(notar == weight);
            for claimed in [notar, weight] {
                words[card + 3..card + 5].copy_from_slice(&[other, claimed]);
                assert!(sound(&words).is_none() && !plainly_sound(&words));
            }
        }
    }
    assert!(ties > 50, "{ties} ties");
}

/// Many blocks, whose numbers are random, equal in their last bits or on one
/// place of the table: the leader is the plain one, and no other passes.
#[test]
fn no_other_leader_passes_among_many() {
    let mut random = Random::new(411);
    for round in 0..60 {
        let nodes = random.pick(&[40, 64, 65, 200]);
        let mut words = vec![0; record_words(nodes)];
        let stakes: Vec<u64> = (0..nodes).map(|_| random.range(1, 2)).collect();
        assert_eq!(start(&mut words, &stakes, 0, 1), 0);
        let any = |random: &mut Random| match round % 3 {
            0 => random.next() | 1,
            1 => random.next() << 24 | 1,
            _ => on_one_place(random.next()),
        };
        let blocks: Vec<u64> = (0..nodes).map(|_| any(&mut random)).collect();
        let few = random.pick(&[nodes, nodes, nodes / 4]);
        for node in 1..nodes {
            store_vote(&mut words, 1, node, 3, random.pick(&blocks[..few]));
        }
        assert!(sound(&words).is_some() && plainly_sound(&words));
        let card = STAKES + nodes + 3 * row_words(nodes) + CARD;
        let kept = [words[card + 3], words[card + 4]];
        for _ in 0..20 {
            let other = random.pick(&blocks);
            words[card + 3..card + 5].copy_from_slice(&[other, random.range(1, kept[1])]);
            assert_eq!(sound(&words).is_some(), plainly_sound(&words));
        }
        let notar = |block: u64| {
            let cells = words[card - CARD + cells_at(nodes)..].chunks(CELL).zip(&stakes);
            cells.filter(|(cell, _)| cell[NOTAR] == block).map(|(_, stake)| stake).sum::<u64>()
        };
        let claims: Vec<[u64; 2]> = blocks.iter().map(|&block| [block, notar(block)]).collect();
        for claim in claims.into_iter().filter(|&claim| claim != kept) {
            words[card + 3..card + 5].copy_from_slice(&claim);
            assert!(sound(&words).is_none());
        }
    }
}

#[test]
fn sizes_at_their_limits() {
    assert_eq!(record_words(3), 1_371);
    assert_eq!(record_words(64), 8_691);
    assert_eq!(record_words(65), 22_513);
    assert_eq!(record_words(2048), 260_473);
    let by_length = |words| (1..=MOST_NODES).find(|&nodes| record_words(nodes) == words);
    for words in (0..24_000).chain(260_000..262_000) {
        assert_eq!(nodes_of(words), by_length(words), "{words} words");
    }
    assert_eq!(total_of(&[MOST_TOTAL]), Some(MOST_TOTAL));
    assert_eq!(total_of(&[MOST_TOTAL, 1]), None);
    assert_eq!(total_of(&[u64::MAX, 2]), None);
    assert_eq!(total_of(&[1; MOST_NODES]), Some(2048));
    assert_eq!(total_of(&[1; MOST_NODES + 1]), None);
}
