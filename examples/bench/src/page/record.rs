//! The page of a saved record, or of two with every differing vote marked.

use super::grid::{pictures, Mark, Seats};
use super::marks::{escaped, in_runs, plural, Letters, NARROW, WIDE};
use super::{number_cell, whole};
use crate::agreed::{slots, SLOTS};
use crate::options::called;
use crate::table::grouped;
use quointrowel::{differences, Comparison, Difference, Node, Record, Side, Slot, Vote, VoteKind};
use std::collections::BTreeMap;
use std::fmt::Write;

/// So many differing votes are listed on the page; ./differ lists more.
const MOST_LINES: usize = 60;

/// A record that was read, with its file's name.
pub struct Named {
    pub name: String,
    pub record: Record,
    pub nodes: usize,
}

impl Named {
    /// None where the words are no record.
    pub fn new(name: String, words: Vec<u64>) -> Option<Named> {
        let record = Record::from_words(words);
        let nodes = record.nodes()?;
        record.card(Slot(1)).ok()?;
        Some(Named { name, record, nodes })
    }

    fn votes(&self) -> Vec<Vote> {
        let of = |slot, node| self.record.kept_votes(slot, Node(node)).unwrap_or_default();
        slots().flat_map(|slot| (0..self.nodes).flat_map(move |node| of(slot, node))).collect()
    }

    fn finals(&self) -> Vec<Option<u64>> {
        slots().map(|slot| self.record.final_block(slot).ok().flatten()).collect()
    }

    fn seats(&self, votes: &[Vote]) -> Seats {
        Seats::new(vec![1; self.nodes], vec![false; self.nodes], votes)
    }
}

pub fn record_page(records: &[Named]) -> String {
    match records {
        [one] => page_of_one(one),
        [first, second, ..] => page_of_two(first, second),
        [] => String::new(),
    }
}

/// Of each slot the blocks by letter: the final one, else the one with the most votes, first.
fn letters(records: &[&Named], votes: &[&Vec<Vote>]) -> Letters {
    let mut letters: [Vec<u64>; SLOTS + 1] = Default::default();
    for slot in slots() {
        let mut counts: BTreeMap<u64, usize> = BTreeMap::new();
        for vote in votes.iter().flat_map(|votes| votes.iter()).filter(|vote| vote.slot == slot && vote.block != 0) {
            *counts.entry(vote.block).or_default() += usize::from(vote.kind == VoteKind::Notar);
        }
        let finals: Vec<u64> = records.iter().filter_map(|named| named.record.final_block(slot).ok().flatten()).collect();
        finals.iter().for_each(|&block| *counts.entry(block).or_default() += 0);
        let mut blocks: Vec<u64> = counts.keys().copied().collect();
        blocks.sort_by_key(|block| (finals.first() != Some(block), std::cmp::Reverse(counts[block]), *block));
        letters[slot.0] = blocks;
    }
    Letters(letters)
}

fn header(word: &str, heading: &str, text: &str) -> String {
    format!(
        "<header class=\"verdict\" style=\"border-color:var(--soft)\"><p class=\"word\" style=\"color:var(--soft)\">{word}</p>\n<h1>{heading}</h1>\n<p class=\"soft\">{text}</p></header>\n"
    )
}

fn facts(facts: &[(&str, String)]) -> String {
    let fact = |(name, value): &(&str, String)| {
        format!("<li><span class=\"dt\">{name}</span> <span class=\"dd\">{}</span></li>", escaped(value))
    };
    format!("<ul class=\"facts\">{}</ul>\n", facts.iter().map(fact).collect::<String>())
}

fn draw_again(records: &[&Named]) -> String {
    let names: Vec<String> = records.iter().map(|named| format!("<span class=\"nb\">{}</span>", escaped(&named.name))).collect();
    format!("<div class=\"run\"><div><p class=\"replay\">To draw it again:</p><pre style=\"margin-top:-10px\"><code>{} page {} <span class=\"nb\">--page FILE</span></code></pre></div></div>\n", called(), names.join(" "))
}

fn page_of_one(named: &Named) -> String {
    let votes = named.votes();
    let letters = letters(&[named], &[&votes]);
    let finals = named.finals().into_iter().flatten().count();
    let name = escaped(&named.name);
    let mut body = header(
        "One saved record",
        &format!(
            "{name}: {finals} of 16 slots final, {} stored votes of {} {}",
            grouped(votes.len() as u64),
            grouped(named.nodes as u64),
            plural(named.nodes, "firm")
        ),
        "A record knows neither who lies nor who leads: firms by number.",
    );
    body.push_str(&facts(&[
        ("firms", grouped(named.nodes as u64)),
        ("stored votes", grouped(votes.len() as u64)),
        ("slots final", finals.to_string()),
    ]));
    body.push_str(&draw_again(&[named]));
    let _ = write!(body, "<section><h2>{}</h2>\n<div>{}</div>\n<aside>{}</aside></section>\n", cards_heading(named), cards(named), "<p>Each slot's tally card, as the record keeps it: what the stored votes weigh, and the block with the most notar weight; and the final block.</p>");
    let _ = write!(
        body,
        "<section class=\"page\"><h2>The stored votes of {} {}</h2>\n<div>{}</div>\n<aside>{}</aside></section>\n",
        grouped(named.nodes as u64),
        plural(named.nodes, "firm"),
        pictures(&named.seats(&votes), &letters, WIDE, &|_, _| Mark::Plain),
        super::key(&named.seats(&votes))
    );
    whole(&format!("Record {}", named.name), &body)
}

fn cards_heading(named: &Named) -> String {
    let open: Vec<usize> = slots().zip(named.finals()).filter(|(_, block)| block.is_none()).map(|(slot, _)| slot.0).collect();
    match open.len() {
        0 => "Every slot has a final block".to_string(),
        16 => "No slot has a final block".to_string(),
        count => {
            format!("{} {} no final block", plural(count, "Slot") + " " + &in_runs(&open), if count == 1 { "has" } else { "have" })
        }
    }
}

fn cards(named: &Named) -> String {
    let mut html = "<table><thead><tr><th scope=\"col\">slot</th><th scope=\"col\" class=\"n\">final block</th><th scope=\"col\" class=\"n\">leading block</th><th scope=\"col\" class=\"n\">its notar</th><th scope=\"col\" class=\"n\">skip</th><th scope=\"col\" class=\"n\">skip certificate</th><th scope=\"col\" class=\"n\">final</th></tr></thead><tbody>".to_string();
    for (slot, block) in slots().zip(named.finals()) {
        let Ok(card) = named.record.card(slot) else { continue };
        let (leader, weight) = card.leader.map_or((0, 0), |(block, weight)| (block, weight.0));
        let blocks = [block.unwrap_or(0), leader].map(|block| {
            if block == 0 {
                "<td class=\"n z\">·</td>".to_string()
            } else {
                format!("<td class=\"n\">{block}</td>")
            }
        });
        let weights = [weight, card.skip.0, card.skip_certificate.0, card.final_votes.0].map(number_cell);
        let _ = write!(html, "<tr><td>{}</td>{}{}</tr>", slot.0, blocks.concat(), weights.concat());
    }
    html + "</tbody></table>"
}

fn page_of_two(first: &Named, second: &Named) -> String {
    let (one, two) = (first.votes(), second.votes());
    let found = differences(&first.record, &second.record);
    let lines = match &found {
        Ok(Comparison::Votes(lines)) => Some(lines),
        _ => None,
    };
    let letters = letters(&[first, second], &[&one, &two]);
    let names = (escaped(&first.name), escaped(&second.name));
    let mut body = match lines {
        None => header(
            "≠ The stake tables differ",
            &format!("{} and {} are of two rings", names.0, names.1),
            "The stake tables differ, and so no vote was compared.",
        ),
        Some(lines) if lines.is_empty() => {
            header("= The records agree", &format!("{} and {} have the same stored votes", names.0, names.1), "No vote differs.")
        }
        Some(lines) => header(
            "≠ The records differ",
            &heading(&names, lines),
            "Framed below: a vote that the other record has not; dashed: it is missing here.",
        ),
    };
    let only = |side: Side| lines.map_or(0, |lines| lines.iter().filter(|line| line.side == side).count());
    let equal = if first.finals() == second.finals() { "equal" } else { "not equal" };
    body.push_str(&facts(&[
        ("record 1", first.name.clone()),
        ("record 2", second.name.clone()),
        ("stored votes", format!("{} and {}", grouped(one.len() as u64), grouped(two.len() as u64))),
        ("only in 1", grouped(only(Side::First) as u64)),
        ("only in 2", grouped(only(Side::Second) as u64)),
        ("final blocks", equal.to_string()),
    ]));
    body.push_str(&draw_again(&[first, second]));
    let no_lines = Vec::new();
    let lines = lines.unwrap_or(&no_lines);
    let mark = |side: Side| {
        move |firm: usize, slot: Slot| {
            let here = lines.iter().filter(|line| line.vote.node.0 == firm && line.vote.slot == slot);
            let (more, less) =
                here.fold((0, 0), |(more, less), line| if line.side == side { (more + 1, less) } else { (more, less + 1) });
            match (more, less) {
                (0, 0) if lines.is_empty() => Mark::Plain,
                (0, 0) => Mark::Equal,
                (0, _) => Mark::Less,
                _ => Mark::More,
            }
        }
    };
    let _ = write!(
        body,
        "<section><h2>{}</h2>\n<div class=\"sides\">",
        if lines.is_empty() {
            "The stored votes"
        } else {
            "Framed: a vote that the other record has not; dashed frame: it is missing here"
        }
    );
    for (number, named, votes, side) in [(1, first, &one, Side::First), (2, second, &two, Side::Second)] {
        let picture = pictures(&named.seats(votes), &letters, NARROW, &mark(side));
        let _ = write!(
            body,
            "<div><h3>{number} {} <span class=\"soft\" style=\"font-weight:400\">firms by slots</span></h3>{picture}</div>",
            escaped(&named.name)
        );
    }
    let _ =
        write!(body, "<div class=\"list\">{}{}</div></div></section>\n", list(lines, &letters), super::key(&first.seats(&one)));
    whole(&format!("Records {} and {}", first.name, second.name), &body)
}

fn heading(names: &(String, String), lines: &[Difference]) -> String {
    let mut slots: Vec<usize> = lines.iter().map(|line| line.vote.slot.0).collect();
    slots.dedup();
    format!(
        "{} and {} differ in {} stored {}, of {} {}",
        names.0,
        names.1,
        grouped(lines.len() as u64),
        plural(lines.len(), "vote"),
        plural(slots.len(), "slot"),
        in_runs(&slots)
    )
}

fn list(lines: &[Difference], letters: &Letters) -> String {
    if lines.is_empty() {
        return String::new();
    }
    let mut html = "<table><caption>Votes that differ</caption><thead><tr><th scope=\"col\" class=\"n\">slot</th><th scope=\"col\" class=\"n\">firm</th><th scope=\"col\">vote</th><th scope=\"col\" class=\"n\">only in</th></tr></thead><tbody>".to_string();
    for line in lines.iter().take(MOST_LINES) {
        let Vote { kind, node, slot, block } = line.vote;
        let name = match kind {
            VoteKind::Notar => "notar",
            VoteKind::NotarFallback => "notar-fallback",
            VoteKind::Skip => "skip",
            VoteKind::SkipFallback => "skip-fallback",
            VoteKind::Final => "final",
        };
        let block = if block == 0 { String::new() } else { format!(" {}", letters.words(slot, block)) };
        let _ = write!(
            html,
            "<tr><td class=\"n\">{}</td><td class=\"n\">{}</td><td>{name}{block}</td><td class=\"n\">{}</td></tr>",
            slot.0, node.0, line.side as u8
        );
    }
    html.push_str("</tbody></table>");
    if lines.len() > MOST_LINES {
        let _ =
            write!(html, "<p class=\"soft\">and {} more; ./differ lists them</p>", grouped((lines.len() - MOST_LINES) as u64));
    }
    html
}
