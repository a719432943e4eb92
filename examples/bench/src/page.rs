//! The page for a browser: one file, without script or outside resource, legible light, dark, narrow and on paper.

mod broken;
mod chain;
mod finality;
mod grid;
mod marks;
mod record;

pub use record::{record_page, Named};

use crate::agreed::{slots, SLOTS};
use crate::checks::{Findings, Outcome, Verdict};
use crate::mail::Count;
use crate::ring::Ring;
use crate::seen::FUNCTIONS;
use crate::table::{grouped, numbers_seen, percent, seconds, tally, verdict, MAIL_NAMES};
use grid::{Mark, Seats};
use marks::{escaped, plural, Cell, Letters, WIDE};
use quointrowel::{Refusal, Slot, VoteKind};
use std::collections::BTreeMap;
use std::fmt::Write;

const STYLE: &str = include_str!("page/style.css");
const DEFINITIONS: &str = include_str!("page/definitions.svg");

/// A whole page around its body.
fn whole(title: &str, body: &str) -> String {
    format!(
        "<!DOCTYPE html>\n<html lang=\"en\">\n<head>\n<meta charset=\"utf-8\">\n<meta name=\"viewport\" content=\"width=device-width,initial-scale=1\">\n<title>{}</title>\n<style>\n{STYLE}</style>\n</head>\n<body>\n{DEFINITIONS}<main>\n{body}</main>\n</body>\n</html>\n",
        escaped(title)
    )
}

/// The page of a ring.
pub fn ring_page(ring: &Ring, findings: &Findings) -> String {
    let letters = letters(ring, findings);
    let lying = (0..ring.hosts.len()).map(|firm| !ring.is_honest(firm)).collect();
    let seats = Seats::new(ring.agreed.stakes.clone(), lying, &ring.cast);
    let mut body = header(ring, findings);
    body.push_str(&facts(ring, findings));
    body.push_str(&run_and_held(ring, findings));
    body.push_str(&chain::section(ring, findings, &letters));
    body.push_str(&broken::section(ring, findings, &letters));
    let _ = write!(
        body,
        "<section class=\"page\"><h2>{}</h2>\n<div>{}</div>\n<aside>{}</aside></section>\n",
        votes_heading(ring, findings, &seats.cells, &letters),
        grid::pictures(&seats, &letters, WIDE, &|_, _| Mark::Plain),
        key(&seats)
    );
    body.push_str(&finality::section(ring, findings, &letters));
    body.push_str(&mail_and_calls(ring, findings));
    let _ = write!(
        body,
        "<footer>Quointrowel, version {} of the library. One seed, one history: the words above give this page again on every machine. Lying firms are known to the bench alone; no honest firm is told.</footer>\n",
        quointrowel::version()
    );
    let state = if findings.is_broken() { "a promise broke" } else { "all promises held" };
    whole(
        &format!("Ring of {} {}, seed {}: {state}", ring.hosts.len(), plural(ring.hosts.len(), "firm"), ring.options.seed),
        &body,
    )
}

/// Of each slot the blocks by letter: the final one or the first that was sent, then by the weight of their notar votes.
fn letters(ring: &Ring, findings: &Findings) -> Letters {
    let mut letters: [Vec<u64>; SLOTS + 1] = Default::default();
    for slot in slots() {
        let mut weights: BTreeMap<u64, u64> = BTreeMap::new();
        for vote in ring.cast.iter().filter(|vote| vote.slot == slot && vote.block != 0) {
            let stake = if vote.kind == VoteKind::Notar { ring.agreed.stakes[vote.node.0] } else { 0 };
            *weights.entry(vote.block).or_default() += stake;
        }
        for &(_, number) in ring.blocks.keys().filter(|key| key.0 == slot) {
            weights.entry(number).or_default();
        }
        let built = |block: u64| ring.built.get(&(slot, block)).copied().unwrap_or(u64::MAX);
        let mut blocks: Vec<u64> = weights.keys().copied().collect();
        let first = match findings.outcomes[slot.0] {
            Outcome::Final(block) => Some(block),
            _ => blocks.iter().copied().min_by_key(|&block| (built(block), block)),
        };
        blocks.sort_by_key(|&block| (Some(block) != first, std::cmp::Reverse(weights[&block]), block));
        letters[slot.0] = blocks;
    }
    Letters(letters)
}

fn header(ring: &Ring, findings: &Findings) -> String {
    let (finals, ..) = tally(findings);
    let (honest, share) = (ring.standing().count(), percent(ring.lying_weight(), ring.agreed.total));
    let said = verdict(ring, findings);
    if findings.is_fault() {
        let why = said.split_once(": ").map_or(said.as_str(), |(_, why)| why);
        return format!(
            "<header class=\"verdict bad\"><p class=\"word\">✕ A promise broke</p>\n<h1>{}</h1>\n<p class=\"soft\">{share} percent of the stake lied, and the promises speak of less than 20: this is a fault. Keep the words below.</p></header>\n",
            escaped(&capital(why))
        );
    }
    if findings.is_broken() {
        let clash = findings.clash.as_ref().map_or(said.clone(), |clash| clash.sentence());
        let named = findings.not_clear.len();
        return format!(
            "<header class=\"verdict bad\"><p class=\"word\">✕ A promise broke, and no fault of the library: a fifth or more lied</p>\n<h1>{}; {named} {} cast two initial votes in a slot</h1>\n<p class=\"soft\">{share} percent of the stake lied; the promises speak of less than 20.</p></header>\n",
            escaped(&capital(&clash)),
            plural(named, "firm")
        );
    }
    format!(
        "<header class=\"verdict\"><p class=\"word\">✓ All promises held</p>\n<h1>One chain, {finals} of 16 slots final at all {} honest {}, while {share} percent of the stake lied</h1>\n<p class=\"soft\">No two packets contradict each other; every proof was accepted.</p></header>\n",
        grouped(honest as u64),
        plural(honest, "firm")
    )
}

fn capital(text: &str) -> String {
    let mut letters = text.chars();
    letters.next().map_or(String::new(), |first| first.to_uppercase().collect::<String>() + letters.as_str())
}

fn facts(ring: &Ring, findings: &Findings) -> String {
    let (finals, skipped, open, twice) = tally(findings);
    let restarts: u64 = ring.hosts.iter().map(|host| host.seen.restarts).sum();
    let stopped = ring.stopped.iter().filter(|&&stopped| stopped).count();
    let mut facts = vec![
        ("firms", grouped(ring.hosts.len() as u64), ""),
        ("stake lying", percent(ring.lying_weight(), ring.agreed.total), "%"),
        ("slots final", finals.to_string(), ""),
        ("skipped", skipped.to_string(), ""),
        ("open", open.to_string(), ""),
        ("falls", grouped(restarts), ""),
        ("simulated time", seconds(ring.ended), "s"),
    ];
    if twice > 0 {
        facts.insert(3, ("final twice", twice.to_string(), ""));
    }
    if stopped > 0 {
        facts.insert(facts.len() - 1, ("stopped", stopped.to_string(), ""));
    }
    let fact = |(name, value, unit): &(&str, String, &str)| {
        let unit = if unit.is_empty() { String::new() } else { format!(" <small>{unit}</small>") };
        format!("<li><span class=\"dt\">{name}</span> <span class=\"dd\">{value}{unit}</span></li>")
    };
    format!("<ul class=\"facts\">{}</ul>\n", facts.iter().map(fact).collect::<String>())
}

fn run_and_held(ring: &Ring, findings: &Findings) -> String {
    let mut words = ring.options.replay();
    words.push("--page FILE".to_string());
    let words: Vec<String> = words.iter().map(|word| format!("<span class=\"nb\">{}</span>", escaped(word))).collect();
    let mut html = format!(
        "<div class=\"run\"><div><p class=\"replay\">To run it again:</p><pre style=\"margin-top:-10px\"><code>{}</code></pre>\n<h3 style=\"margin-top:18px\">Options <span class=\"soft\" style=\"font-weight:400\">(bold: other than usual)</span></h3>\n<ul class=\"opts\">",
        words.join(" ")
    );
    for (name, value, is_usual) in ring.options.values() {
        let ways: Vec<&str> = ring.how.iter().map(|how| how.name()).collect();
        let value = match name {
            "how" => ways.join(", "),
            "lying" | "late" | "twice" | "lost" | "stop" | "crash" => format!("{value} %"),
            "break" if is_usual => continue,
            _ => value,
        };
        let wide = if name == "how" { " wide" } else { "" };
        let set = if is_usual || name == "seed" && ring.options.seed == 1 { "" } else { "set" };
        let _ = write!(
            html,
            "<li class=\"{set}{wide}\"><span class=\"dt\">{name}</span> <span class=\"dd\">{}</span></li>",
            escaped(&value)
        );
    }
    html.push_str("</ul></div>\n<table class=\"held\"><caption>What was held</caption><thead><tr><th scope=\"col\"></th><th scope=\"col\">promise</th><th scope=\"col\" class=\"n\">tried</th><th scope=\"col\" class=\"n\"></th></tr></thead><tbody>");
    for (at, check) in findings.checks.iter().enumerate() {
        let state = match &check.verdict {
            Verdict::Held => "<span class=\"ok\">✓ held</span>",
            Verdict::NotAsked => "<span class=\"soft\">not asked</span>",
            Verdict::Broken(_) => "<span class=\"no\">✕ broke</span>",
        };
        let why = match &check.verdict {
            Verdict::Broken(why) => format!("<br><span class=\"no\">{}</span>", escaped(why)),
            _ => String::new(),
        };
        let tried = if check.tried == 0 { "·".to_string() } else { format!("{} {}", grouped(check.tried), check.unit) };
        let _ = write!(
            html,
            "<tr><td>{}</td><td>{}{why}</td><td class=\"n\">{tried}</td><td class=\"n\">{state}</td></tr>",
            at + 1,
            check.promise
        );
    }
    html.push_str("</tbody></table>\n</div>\n");
    html
}

/// What the votes show: the slot with the heaviest rival, else one that was skipped, else that there is nothing to see.
fn votes_heading(ring: &Ring, findings: &Findings, cells: &[Vec<Cell>], letters: &Letters) -> String {
    let voted = |slot: Slot, block: u64| ring.honest().filter(|&firm| cells[firm][slot.0].initial.contains(&block)).count();
    let rival = |slot: Slot| letters.0[slot.0].get(1).map_or(0, |&block| voted(slot, block));
    let honest = ring.honest().count();
    let leader = |slot: Slot| {
        let leader = ring.agreed.leader(slot);
        format!("{}, firm {}", if ring.plot.is_lying(leader) { "lying leader" } else { "leader" }, leader.0)
    };
    let forked = slots().filter(|&slot| rival(slot) > 0).max_by_key(|&slot| (rival(slot), std::cmp::Reverse(slot)));
    if let Some(slot) = forked {
        let (first, second) = (voted(slot, letters.0[slot.0][0]), rival(slot));
        let end = match findings.outcomes[slot.0] {
            Outcome::Final(_) => "and b lost",
            Outcome::Twice => "and both are final",
            Outcome::Skipped => "and the slot was skipped",
            Outcome::Open => "and it is open",
        };
        return format!(
            "Slot {} was forked by its {}: {} honest firms voted for block a, {} for block b, {end}",
            slot.0,
            leader(slot),
            grouped(first as u64),
            grouped(second as u64)
        );
    }
    let skipped = slots().find(|slot| findings.outcomes[slot.0] == Outcome::Skipped);
    if let Some(slot) = skipped {
        let skips = voted(slot, 0);
        return format!(
            "Slot {} of its {} was skipped: {} of {} honest firms voted to skip it",
            slot.0,
            leader(slot),
            grouped(skips as u64),
            grouped(honest as u64)
        );
    }
    let most = slots().map(|slot| voted(slot, 0)).max().unwrap_or(0);
    format!("In no slot did more than {} of {} honest firms vote to skip", grouped(most as u64), grouped(honest as u64))
}

/// What the marks mean; those of lying firms only where some lie.
fn key(seats: &Seats) -> String {
    let some_lie = seats.lying.contains(&true);
    let all = if seats.is_grouped() { include_str!("page/key-groups.html") } else { include_str!("page/key.html") };
    let lines: Vec<&str> = all.lines().filter(|line| some_lie || !line.contains("class=\"h\"")).collect();
    let below = if some_lie { ", the lying ones below" } else { "" };
    let rows = if seats.is_grouped() {
        format!("Each row is a group of firms with about a sixty-fourth of the stake{below}. A cell is a bar by stake; who voted twice counts half for each. A cell tells its shares in words where the pointer rests on it.")
    } else {
        format!("Firms by number{below}. A cell tells its votes in words where the pointer rests on it.")
    };
    format!("{}<p>{rows}</p>", lines.concat())
}

fn number_cell(number: u64) -> String {
    match number {
        0 => "<td class=\"n z\">·</td>".to_string(),
        _ => format!("<td class=\"n\">{}</td>", grouped(number)),
    }
}

fn mail_and_calls(ring: &Ring, findings: &Findings) -> String {
    let mut all = Count::default();
    ring.mail.iter().for_each(|&count| all.add(count));
    let odd = findings.odd_answer.is_some();
    let end = if odd {
        "an honest firm was answered a number that the policy does not allow for"
    } else {
        "no honest firm was answered a number that the policy does not allow for"
    };
    let mut html = format!(
        "<section><h2>{} pieces of mail were lost and {} sent again; {end}</h2>\n<div class=\"two\"><div><table><caption>Mail <span>(pieces, between firms)</span></caption><thead><tr><th scope=\"col\"></th>",
        grouped(all.lost),
        grouped(all.again)
    );
    for name in ["sent", "late", "twice", "lost", "sent again"] {
        let _ = write!(html, "<th scope=\"col\" class=\"n\">{name}</th>");
    }
    html.push_str("</tr></thead><tbody>");
    let row = |name: &str, count: &Count| {
        let numbers = [count.sent, count.late, count.twice, count.lost, count.again].map(number_cell);
        format!("<tr><td>{name}</td>{}</tr>", numbers.concat())
    };
    html.extend(MAIL_NAMES.iter().zip(&ring.mail).map(|(name, count)| row(name, count)));
    let _ = write!(html, "</tbody><tfoot>{}</tfoot></table></div>", row("all", &all));
    html.push_str(&calls(ring));
    html
}

fn calls(ring: &Ring) -> String {
    let answers = ring.answers();
    let numbers = numbers_seen(&answers.counts);
    let mut html = "<div><table><caption>Calls at honest firms <span>by function, and the numbers they were answered</span></caption><thead><tr><th scope=\"col\"></th><th scope=\"col\" class=\"n\">calls</th>".to_string();
    for number in &numbers {
        let _ = write!(html, "<th scope=\"col\" class=\"n\">{number}</th>");
    }
    html.push_str("</tr></thead><tbody>");
    for (function, name) in FUNCTIONS {
        let row = answers.counts[function as usize];
        let name = name.replace("  ", "&emsp;");
        let _ = write!(html, "<tr><td>{name}</td>{}", number_cell(row.iter().sum()));
        numbers.iter().for_each(|&number| html.push_str(&number_cell(row[number])));
        html.push_str("</tr>");
    }
    html.push_str("</tbody></table><p class=\"soft\" style=\"font-size:12.5px;margin-top:6px\">");
    for &number in &numbers {
        let _ = write!(html, "{number}: {} ", escaped(&sentence(number as u64)));
    }
    html.push_str("The policy allows for 7, for 18 of a writer, and for any number due to what a lying firm sent.</p></div></div></section>\n");
    html
}

/// What a number means: the library's own sentence.
fn sentence(number: u64) -> String {
    Refusal::of_number(number).map_or("Done.".to_string(), |refusal| refusal.to_string())
}
