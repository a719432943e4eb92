//! What a range of scripts reaches: answers by command, records by kind,
//! branches of the rules, and the forms of packets.

use crate::gen;
use crate::node::{Cert, Node, Source, LAST_SLOT, MOST_BLOCKS};
use crate::packet;
use crate::panel::{lines, Answer, Panel, MOST_LINES};
use crate::read;
use crate::refusal::Refusal;
use crate::stakes::{Family, Stakes, P20, P40, P60};
use std::collections::{BTreeMap, BTreeSet};
use std::io::{self, Write};

#[derive(Default)]
pub struct Cover {
    /// By command word and answer: a refusal number, 0, `?` or `text`. Blank
    /// lines and comments are here only where they are too long to be skipped.
    answers: BTreeMap<String, BTreeMap<String, u64>>,
    records: BTreeMap<String, u64>,
    notes: BTreeMap<String, u64>,
    scripts: u64,
    commands: u64,
    longest: usize,
    most_records_in_a_call: usize,
    pub most_records_in_a_life: usize,
    /// Records since the last accepted start.
    life: usize,
    /// Whether the node is a watcher.
    watches: bool,
    /// Since the last end.
    pieces: usize,
    /// The slot and the leader of the last card.
    last_leader: (u64, u64),
}

const COMMANDS: &[&str] = &[
    "start",
    "watch",
    "vote",
    "tray",
    "block",
    "take",
    "timeout",
    "look",
    "cert",
    "proof",
    "check",
    "checkproof",
    "votes",
    "card",
    "blocks",
    "marks",
    "head",
    "certificates",
    "weights",
    "board",
    "help",
    "why",
    "quit",
    "pack",
    "unpack",
    "piece",
    "end",
    "aside",
    "differ",
    "stands",
    "vouched",
    "parents",
];

pub fn cover(seed: u64, count: u64) -> Cover {
    let mut cover = Cover::default();
    for seed in seed..seed.saturating_add(count) {
        cover.take_script(&gen::script(seed).text);
    }
    cover
}

impl Cover {
    #[cfg(test)]
    pub fn answers(&self, command: &str, answer: &str) -> u64 {
        self.answers.get(command).and_then(|row| row.get(answer)).copied().unwrap_or(0)
    }

    #[cfg(test)]
    pub fn records(&self, kind: u64) -> u64 {
        self.records.get(&kind.to_string()).copied().unwrap_or(0)
    }

    #[cfg(test)]
    pub fn notes(&self, what: &str) -> u64 {
        self.notes.get(what).copied().unwrap_or(0)
    }

    fn take_script(&mut self, text: &str) {
        let mut panel = Panel::default();
        let script = lines(text.as_bytes());
        self.pieces = 0;
        self.last_leader = (0, 0);
        self.scripts += 1;
        self.longest = self.longest.max(script.len());
        for (i, line) in script.iter().enumerate() {
            if let Some(answer) = panel.line(line) {
                self.commands += 1;
                self.take_answer(&panel, &String::from_utf8_lossy(line), answer);
                self.take_notes(&mut panel);
            }
            if panel.ended {
                let lines_after = i + 1 < script.len();
                self.note(if lines_after { "quit before the last line" } else { "quit as the last line" });
                return;
            }
        }
    }

    /// What comes of a certificate from others.
    fn take_certificate(&mut self, panel: &Panel, hex: &str, answered: &[&str]) {
        let node = match &panel.node {
            Some(node) => node,
            None => return,
        };
        if node.stakes().family() == Family::Large {
            self.note(format!("take {}, large table", answered[0]));
        }
        if answered[0] != "0" {
            return self.take_refused(node, hex, answered[0]);
        }
        self.take_records(answered);
        let mut kinds: Vec<&str> =
            answered[2..].iter().filter_map(|record| record.split(',').next()).collect();
        kinds.sort_unstable();
        kinds.dedup();
        for kind in kinds {
            self.note(format!("take: made records of kind {kind}"));
        }
    }

    /// The checker's refusals of what is kept already, and kinds of the other family.
    fn take_refused(&mut self, node: &Node, hex: &str, number: &str) {
        let bytes = if hex == "-" { Vec::new() } else { from_hex(hex) };
        let mut rest = bytes.as_slice();
        let numbers: Vec<u64> = std::iter::from_fn(|| packet::take_number(&mut rest).ok()).collect();
        let (kind, slot, block) = match numbers[..] {
            [kind, slot, block, ..] => (kind, slot, block),
            _ => return,
        };
        if number == "4" && matches!(kind, 1..=5 | 11..=15) {
            self.note(match node.stakes().family() {
                Family::Small => "take 4 for a large kind, small table",
                Family::Large => "take 4 for a small kind, large table",
            });
        }
        let cert = kind.checked_sub(node.stakes().family().kinds_after());
        let cert = cert.and_then(|meaning| Cert::of_kind(meaning, block)).filter(|_| slot <= LAST_SLOT);
        if cert.map_or(false, |cert| node.kept_certificate(slot, cert).is_some()) {
            self.note(format!("take {number} for one that is kept"));
        }
    }

    /// The branches of the rules, with a large table once more by that name.
    fn take_notes(&mut self, panel: &mut Panel) {
        let node = match &mut panel.node {
            Some(node) => node,
            None => return,
        };
        let large = node.stakes().family() == Family::Large;
        for (what, times) in std::mem::take(&mut node.notes) {
            *self.notes.entry(what.to_string()).or_insert(0) += times;
            if large {
                *self.notes.entry(format!("{what}, large table")).or_insert(0) += times;
            }
        }
    }

    fn take_answer(&mut self, panel: &Panel, line: &str, answer: Answer) {
        self.watches = panel.node.as_ref().map_or(false, |node| node.own().is_none());
        let words: Vec<&str> = line.split_ascii_whitespace().collect();
        let command = match words.first() {
            Some(word) if COMMANDS.contains(word) => word,
            Some(_) if line.starts_with('#') => "(comment)",
            Some(_) => "(other)",
            None => "(blank)",
        };
        let lines = match answer {
            Answer::Lines(lines) => lines,
            Answer::FreeText => vec!["text".to_string()],
        };
        let answered: Vec<&str> = lines.first().map_or(vec![], |line| line.split(' ').collect());
        // `votes` has no number of its own: its lines are counted as 0.
        let number = match (command, answered.as_slice()) {
            ("help" | "why", ["?"]) => "?",
            ("help" | "why", _) => "text",
            ("votes", ["17"]) => "17",
            ("votes", ["?"]) => "?",
            ("votes", _) => "0",
            (_, [number, ..]) => number,
            (_, []) => "",
        };
        *self.answers.entry(command.to_string()).or_default().entry(number.to_string()).or_insert(0) += 1;
        match command {
            "start" if number == "0" => self.take_start(words.len() - 3),
            "watch" if number == "0" => self.take_start(words.len() - 2),
            "vote" | "block" | "timeout" | "look" => {
                self.take_records(&answered);
                self.take_watchers(panel, command, number);
            }
            "take" if number != "?" => self.take_certificate(panel, words[1], &answered),
            "tray" if number == "0" => self.take_tray(&answered),
            "cert" | "proof" if number == "0" => self.take_written(panel, command, answered[2]),
            "piece" if number == "more" => self.pieces += 1,
            "end" if number != "?" => self.take_end(number),
            "card" if number == "0" => self.take_card(panel, words[1]),
            "blocks" if number == "0" => self.note(format!("blocks: {}", answered[1])),
            "marks" if number == "0" => self.take_marks(&answered),
            "head" if number == "0" => self.take_head(&answered),
            "certificates" if number == "0" => self.take_kept_certificates(&answered),
            "weights" if number == "0" => self.take_weights(panel, &words),
            "differ" if number != "?" => self.take_differ(panel, &answered),
            "stands" if number == "0" => self.take_stands(panel),
            "vouched" if number != "?" => self.take_vouched(panel, words.len() > 1, &answered),
            "parents" if number != "?" => self.take_parents(panel, &answered),
            "unpack" if number == "0" => self.note(format!("unpack 0, {} bytes", words[2].len() / 2)),
            "check" | "checkproof" if number != "?" => self.take_checked(&words, number),
            _ => {}
        }
        if number == "15" && command.starts_with("check") {
            self.take_missing(&words, answered[1]);
        }
    }

    /// A vote with which no node is left that a watcher has no vote of.
    fn take_watchers(&mut self, panel: &Panel, command: &str, number: &str) {
        let node = match &panel.node {
            Some(node) if self.watches && command == "vote" && number == "0" => node,
            _ => return,
        };
        let voters: BTreeSet<usize> = node.stored_votes().iter().map(|&(_, voter, _)| voter).collect();
        if voters.len() == node.stakes().count() {
            self.note("watcher: a vote in every node's name");
        }
    }

    /// How far a certificate is from its threshold.
    fn take_missing(&mut self, words: &[&str], missing: &str) {
        let total: u64 = words[2..].iter().filter_map(|word| word.parse::<u64>().ok()).sum();
        let distance = match missing.parse::<u64>() {
            Ok(1) => "1",
            Ok(2..=5) => "2 to 5",
            _ => "more",
        };
        self.note(format!("{} missing {distance}, total 5k + {}", words[0], total % 5));
    }

    fn take_records(&mut self, answered: &[&str]) {
        let records = answered.len().saturating_sub(2);
        self.life += records;
        self.most_records_in_a_call = self.most_records_in_a_call.max(records);
        self.most_records_in_a_life = self.most_records_in_a_life.max(self.life);
        for record in answered.iter().skip(2) {
            let kind = record.split(',').next().unwrap_or("");
            *self.records.entry(kind.to_string()).or_insert(0) += 1;
            if self.watches {
                self.note(format!("watcher: records of kind {kind}"));
            }
        }
    }

    fn take_end(&mut self, number: &str) {
        let pieces = match std::mem::take(&mut self.pieces) {
            0 => "no piece",
            1 => "one piece",
            2 => "two pieces",
            3..=20 => "3 to 20 pieces",
            _ => "more pieces",
        };
        self.note(format!("end {number} after {pieces}"));
    }

    /// What stands on a card, and how its leader came to lead.
    fn take_card(&mut self, panel: &Panel, slot: &str) {
        let (node, slot) = match (&panel.node, slot.parse()) {
            (Some(node), Ok(slot)) => (node, slot),
            _ => return,
        };
        let card = node.card(slot).expect("the card was shown");
        let blocks = node.notar_blocks(slot);
        let leading = |&&block: &&u64| node.notar_weight(slot, block) == card.leader_weight;
        let tie = blocks.iter().filter(leading).count() > 1;
        let before = std::mem::replace(&mut self.last_leader, (slot, card.leader));
        let shown = match blocks.len() {
            0 if card.skip_certificate + card.finals == 0 => "card: all 0",
            0 => "card: no leader",
            _ if before.0 != slot || before.1 == 0 => "card: a leader",
            _ if before.1 == card.leader && tie => "card: a tie, the leader stays",
            _ if before.1 == card.leader => "card: the leader stays",
            _ if tie => "card: a tie, the lower one leads",
            _ => "card: the leader overtaken",
        };
        self.note(shown);
        if node.stakes().family() == Family::Large {
            self.note(format!("{shown}, large table"));
        }
        if blocks.len() > MOST_BLOCKS {
            self.note("card: more blocks than are kept");
        }
        if card.skip != card.skip_certificate {
            self.note("card: skip-fallbacks that count");
        }
        if card.finals > 0 {
            self.note("card: final votes");
        }
    }

    fn take_marks(&mut self, answered: &[&str]) {
        self.note(if answered[1] == "1" { "marks: armed" } else { "marks: not armed" });
        self.note(if answered[2] == "1" { "marks: timed out" } else { "marks: not timed out" });
        self.note(match (answered[3], answered[4]) {
            ("0", "0") => "marks: no final block",
            ("0", _) => "marks: a conflict without a final block",
            (_, "0") => "marks: a final block",
            _ => "marks: another final block",
        });
    }

    fn take_head(&mut self, answered: &[&str]) {
        let whose = if answered[1] == answered[2] { "a watcher" } else { "a voter" };
        self.note(format!("head: {whose}"));
    }

    fn take_kept_certificates(&mut self, answered: &[&str]) {
        match answered.len() - 2 {
            0 => self.note("certificates: none"),
            1 => self.note("certificates: one"),
            2..=9 => self.note("certificates: several"),
            _ => self.note("certificates: ten or more"),
        }
        for line in &answered[2..] {
            let kind = line.split(',').next().unwrap_or("");
            self.note(format!("certificates: kind {kind}"));
        }
    }

    /// By which of rule D's ways the least is missing.
    fn take_weights(&mut self, panel: &Panel, words: &[&str]) {
        let (node, slot, block) = match (&panel.node, words[1].parse(), words[2].parse()) {
            (Some(node), Ok(slot), Ok(block)) => (node, slot, block),
            _ => return,
        };
        let told = read::weights(node, slot, block).expect("the weights were told");
        let missing = |weight, threshold| node.stakes().missing(weight, threshold);
        let (to_40, to_20) = (missing(told.notar, P40), missing(told.notar, P20));
        let to_60 = missing(told.skip + told.notar, P60);
        assert_eq!(told.missing == 0, node.safe_to_notar(slot, block));
        let shown = match told.missing {
            0 if to_40 == 0 => "weights: rule D's by 40",
            0 => "weights: rule D's by 20 and 60",
            least if least == to_40 && least < to_20.max(to_60) => "weights: missing to 40",
            _ if to_20 > to_60 => "weights: missing to 20",
            _ if to_20 == 0 => "weights: missing to 60 alone",
            _ => "weights: missing to 60",
        };
        self.note(shown);
        if node.stakes().family() == Family::Large {
            self.note(format!("{shown}, large table"));
        }
        if told.notar_fallback > told.notar {
            self.note("weights: fallbacks that count");
        }
        if told.notar == 0 && told.notar_fallback > 0 {
            self.note("weights: fallbacks alone");
        }
    }

    /// Which own votes were there to be asked about.
    fn take_stands(&mut self, panel: &Panel) {
        let node = match &panel.node {
            Some(node) if node.own().is_some() => node,
            _ => return self.note("stands: a watcher"),
        };
        let votes: Vec<_> = (1..=LAST_SLOT).flat_map(|slot| node.own_cell(slot).votes()).collect();
        if votes.is_empty() {
            self.note("stands: no own vote");
        }
        for vote in votes {
            self.note(format!("stands: an own vote of kind {}", vote.kind()));
        }
    }

    /// Of what the votes were that a record lacks, and by what they were counted.
    fn take_vouched(&mut self, panel: &Panel, of_packet: bool, answered: &[&str]) {
        let of = if of_packet { "vouched of a packet" } else { "vouched" };
        if answered[0] != "0" {
            return self.note(format!("{of}: {}", answered.join(" ")));
        }
        let node = panel.node.as_ref().expect("a node was asked");
        match node.own() {
            None => self.note(format!("{of}: a watcher")),
            Some(_) if answered.len() == 2 => self.note(format!("{of}: no line")),
            Some(_) => {}
        }
        if answered.len() > 2 && node.stakes().family() == Family::Large {
            self.note(format!("{of}: lines, large table"));
        }
        for line in &answered[2..] {
            let field: Vec<&str> = line.split(',').collect();
            self.note(format!("{of}: kind {} by {}", field[2], field[4]));
        }
    }

    /// In what the two parents of a block differ.
    fn take_parents(&mut self, panel: &Panel, answered: &[&str]) {
        if answered[0] != "0" {
            return self.note(format!("parents: {}", answered.join(" ")));
        }
        let (aside, node) = match (&panel.aside, &panel.node) {
            (Some(aside), Some(node)) => (aside, node),
            _ => unreachable!("two nodes were asked"),
        };
        let shared =
            |slot: &u64| aside.kept_blocks(*slot).iter().any(|kept| node.kept_blocks(*slot).contains(kept));
        if (1..=LAST_SLOT).any(|slot| shared(&slot)) {
            self.note("parents: a block with one parent");
        }
        match answered.len() {
            2 => self.note("parents: no line"),
            3..=4 => self.note("parents: one block"),
            _ => self.note("parents: several blocks"),
        }
        if answered.len() > 2 && node.stakes().family() == Family::Large {
            self.note("parents: lines, large table");
        }
        for pair in answered[2..].chunks(2) {
            let field: Vec<Vec<&str>> = pair.iter().map(|line| line.split(',').collect()).collect();
            self.note(match (field[0][2] == field[1][2], field[0][3] == field[1][3]) {
                (true, _) => "parents: another number",
                (_, true) => "parents: another slot",
                _ => "parents: another slot and number",
            });
        }
    }

    /// What a comparison found, and between which nodes.
    fn take_differ(&mut self, panel: &Panel, answered: &[&str]) {
        let (aside, node) = match (&panel.aside, &panel.node) {
            (Some(aside), Some(node)) => (aside, node),
            (_, Some(_)) => return self.note("differ: nothing aside"),
            (_, None) => return self.note("differ: no node"),
        };
        if aside.stakes() != node.stakes() {
            return self.take_other_tables(aside, node);
        }
        match (aside.own(), node.own()) {
            (Some(one), Some(other)) if one != other => {
                self.note("differ: the same table, another own number");
            }
            (Some(_), None) | (None, Some(_)) => self.note("differ: a watcher and a voter"),
            _ => {}
        }
        if aside.genesis() != node.genesis() {
            self.note("differ: the same table, another genesis");
        }
        match answered[..] {
            ["9", _] => self.note("differ: too many lines"),
            _ => self.take_lines(aside, node, &answered[2..]),
        }
    }

    fn take_other_tables(&mut self, aside: &Node, node: &Node) {
        let (first, second) = (aside.stakes(), node.stakes());
        self.note(if first.family() != second.family() {
            "differ: tables of two families"
        } else if first.count() != second.count() {
            "differ: tables with another count"
        } else if first.total() == second.total() {
            "differ: tables with the same total"
        } else {
            "differ: tables with another stake"
        });
        if aside.stored_votes() == node.stored_votes() {
            self.note("differ: other tables with equal votes");
        }
    }

    fn take_lines(&mut self, aside: &Node, node: &Node, lines: &[&str]) {
        let on_side = |side: &str| lines.iter().any(|line| line.ends_with(side));
        let sides = match (on_side(",1"), on_side(",2")) {
            (true, true) => "differ: lines of both sides",
            (false, false) => "differ: no line",
            _ => "differ: lines of one side",
        };
        self.note(sides);
        if lines.is_empty() && aside.own().is_some() && node.own().is_none() {
            self.note("watcher: no line beside a voter");
        }
        if node.stakes().family() == Family::Large {
            self.note(format!("{sides}, large table"));
        }
        if lines.is_empty() && (1..=LAST_SLOT).any(|slot| aside.kept_blocks(slot) != node.kept_blocks(slot)) {
            self.note("differ: no line, other blocks kept");
        }
        let certificates = |node: &Node, slot| node.kept_certificates(slot).to_vec();
        if lines.is_empty()
            && (1..=LAST_SLOT).any(|slot| certificates(aside, slot) != certificates(node, slot))
        {
            self.note("differ: no line, other certificates kept");
        }
        if lines.len() == MOST_LINES {
            self.note("differ: the most lines");
        }
        let fields: Vec<Vec<&str>> = lines.iter().map(|line| line.split(',').collect()).collect();
        for field in &fields {
            self.note(format!("differ: votes of kind {}", field[2]));
        }
        for pair in fields.windows(2).filter(|pair| pair[0][..3] == pair[1][..3]) {
            self.note(format!("differ: side {} then {} in one place", pair[0][4], pair[1][4]));
        }
    }

    /// What the votes of a tray were answered, and how many there were.
    fn take_tray(&mut self, answered: &[&str]) {
        let colon = answered.iter().position(|&word| word == ":").unwrap_or(answered.len());
        self.take_records(&answered[..colon]);
        let answers = answered.get(colon + 1..).unwrap_or(&[]);
        let size = match answers.len() {
            0 => "none",
            1 => "1",
            2..=99 => "2 to 99",
            _ => "100 or more",
        };
        self.note(format!("tray of votes: {size}"));
        let first_accepted = answers.iter().position(|&answer| answer == "0").unwrap_or(answers.len());
        let last_accepted = answers.iter().rposition(|&answer| answer == "0").unwrap_or(0);
        for (i, answer) in answers.iter().enumerate() {
            self.note(format!("tray: a vote answered {answer}"));
            if *answer != "0" && first_accepted < i && i < last_accepted {
                self.note(format!("tray: {answer} between accepted votes"));
            }
        }
        if colon > 2 && first_accepted != last_accepted {
            self.note("tray with records and several accepted votes");
        }
    }

    /// Which kinds were written, by which sort of signers, and out of what.
    fn take_written(&mut self, panel: &Panel, command: &str, hex: &str) {
        let node = panel.node.as_ref().expect("a node wrote it");
        let bytes = from_hex(hex);
        let mut rest = bytes.as_slice();
        let numbers: Vec<u64> = std::iter::from_fn(|| packet::take_number(&mut rest).ok()).collect();
        let words = Family::of_kind(numbers[0]).mask_words();
        let by_fallback = |cert: &[u64]| cert[3 + words..].iter().any(|&word| word != 0);
        let (mut forms, mut kept) = (Vec::new(), Vec::new());
        for cert in numbers.chunks(3 + 2 * words) {
            forms.push(format!(
                "{}{}",
                cert[0],
                if by_fallback(cert) { " with fallback signers" } else { "" }
            ));
            kept.push(self.take_source(node, cert[0] % 10, cert[1], cert[2]));
        }
        self.note(format!("{command} written: kind {}", forms.join(" then ")));
        if self.watches {
            self.note(format!("watcher: {command} written"));
        }
        if kept.contains(&true) && kept.contains(&false) {
            self.note("proof written of votes and a kept certificate");
        }
    }

    /// Whether the signers are those of a kept certificate.
    fn take_source(&mut self, node: &Node, kind: u64, slot: u64, block: u64) -> bool {
        let cert = Cert::of_kind(kind, block).expect("a kind that was written");
        match node.source(slot, cert) {
            Some(Source::Kept(kept)) => {
                self.note(format!("kind {kind} from a kept {}", kept.cert.kind()));
                true
            }
            _ => {
                if node.kept_certificate(slot, cert).is_some() {
                    self.note("written by votes beside a kept one");
                }
                false
            }
        }
    }

    fn take_start(&mut self, nodes: usize) {
        self.life = 0;
        self.note(match nodes {
            1..=63 => "start with 1 to 63 nodes",
            64 => "start with 64 nodes",
            65 => "start with 65 nodes",
            66..=128 => "start with 66 to 128 nodes",
            129..=2047 => "start with 129 to 2047 nodes",
            _ => "start with 2048 nodes",
        });
    }

    /// The answers for large tables, kinds of the other family, and refusals of
    /// a proof's second certificate apart from those of its first.
    fn take_checked(&mut self, words: &[&str], number: &str) {
        let command = words[0];
        let bytes = if words[1] == "-" { Vec::new() } else { from_hex(words[1]) };
        let stakes: Vec<u64> = words[2..].iter().filter_map(|word| word.parse().ok()).collect();
        let stakes = match Stakes::new(&stakes) {
            Ok(stakes) => stakes,
            Err(_) => return,
        };
        if stakes.family() == Family::Large {
            self.note(format!("{command} {number}, large table"));
        }
        let mut rest = bytes.as_slice();
        match packet::check_one(&mut rest, &stakes) {
            Ok((_, first)) if command == "checkproof" => {
                self.note(format!(
                    "checkproof {number} after a good first certificate of kind {}",
                    first.kind
                ));
            }
            Err(Refusal::NoSuchKind) if matches!(bytes[0], 1..=5 | 11..=15) => {
                self.note(format!("{command} 4 for a kind of the other family"));
            }
            _ => {}
        }
    }

    fn note(&mut self, what: impl Into<String>) {
        *self.notes.entry(what.into()).or_insert(0) += 1;
    }

    pub fn show(&self, out: &mut impl Write) -> io::Result<()> {
        writeln!(
            out,
            "{} scripts, {} commands, longest {} lines",
            self.scripts, self.commands, self.longest
        )?;
        writeln!(out, "\nanswers by command (number:times)")?;
        for (command, row) in &self.answers {
            let mut row: Vec<_> = row.iter().collect();
            row.sort_by_key(|(number, _)| number.parse::<u64>().unwrap_or(u64::MAX));
            let row: Vec<String> = row.iter().map(|(number, times)| format!("{number}:{times}")).collect();
            writeln!(out, "  {command:<11}{}", row.join("  "))?;
        }
        writeln!(out, "\nrecords by kind")?;
        for (kind, times) in &self.records {
            writeln!(out, "  {kind}: {times}")?;
        }
        let (call, life) = (self.most_records_in_a_call, self.most_records_in_a_life);
        writeln!(out, "  most in a call {call}, in a life {life}")?;
        writeln!(out, "\nbranches")?;
        for (what, times) in &self.notes {
            writeln!(out, "  {what}: {times}")?;
        }
        Ok(())
    }
}

fn from_hex(hex: &str) -> Vec<u8> {
    let byte = |at: usize| u8::from_str_radix(&hex[at..at + 2], 16).unwrap_or(0);
    (0..hex.len() / 2 * 2).step_by(2).map(byte).collect()
}
