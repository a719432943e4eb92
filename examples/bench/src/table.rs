//! The table on standard output.

use crate::agreed::SLOTS;
use crate::checks::{Findings, Outcome, Verdict};
use crate::mail::{Count, KINDS};
use crate::ring::Ring;
use crate::seen::{FUNCTIONS, NUMBERS};
use quointrowel::Event;
use std::fmt::Write;

/// A number with commas between thousands.
pub fn grouped(number: u64) -> String {
    let digits = number.to_string();
    let mut text = String::new();
    for (at, digit) in digits.chars().enumerate() {
        if at > 0 && (digits.len() - at) % 3 == 0 {
            text.push(',');
        }
        text.push(digit);
    }
    text
}

/// Percent with one digit behind the point, rounded down.
pub fn percent(part: u64, whole: u64) -> String {
    let tenths = (u128::from(part) * 1000).checked_div(u128::from(whole)).unwrap_or(0);
    format!("{}.{}", tenths / 10, tenths % 10)
}

/// Simulated milliseconds as seconds.
pub fn seconds(time: u64) -> String {
    format!("{}.{:02}", time / 1000, time % 1000 / 10)
}

pub const MAIL_NAMES: [&str; KINDS.len()] = ["votes", "blocks", "certificates", "proofs", "asks for blocks"];

/// How many slots are final, skipped and open, and how many have two final blocks.
pub fn tally(findings: &Findings) -> (usize, usize, usize, usize) {
    let count = |wanted: fn(&Outcome) -> bool| findings.outcomes[1..].iter().filter(|outcome| wanted(outcome)).count();
    (
        count(|outcome| matches!(outcome, Outcome::Final(_))),
        count(|outcome| *outcome == Outcome::Skipped),
        count(|outcome| *outcome == Outcome::Open),
        count(|outcome| *outcome == Outcome::Twice),
    )
}

/// When the slot's final block was told at each honest firm, with its stake, earliest first; and when the block was first sent.
pub fn finality(ring: &Ring, slot: usize) -> (u64, Vec<(u64, u64)>) {
    let mut moments = Vec::new();
    let mut began = u64::MAX;
    for firm in ring.honest() {
        for &(at, event) in &ring.hosts[firm].seen.told {
            if let Event::Final { slot: told, block } = event {
                if told.0 == slot {
                    moments.push((at, ring.agreed.stakes[firm]));
                    began = began.min(ring.built.get(&(told, block)).copied().unwrap_or(at));
                }
            }
        }
    }
    moments.sort_unstable();
    (began, moments)
}

/// The one line that says how it ended.
pub fn verdict(ring: &Ring, findings: &Findings) -> String {
    let broken = findings.checks.iter().enumerate().find_map(|(at, check)| match &check.verdict {
        Verdict::Broken(why) => Some((at + 1, why, check.is_promised)),
        _ => None,
    });
    match broken {
        None => "all promises held".to_string(),
        Some((at, why, true)) => format!("promise {at} BROKEN: {why}"),
        Some((at, why, false)) => {
            let share = percent(ring.lying_weight(), ring.agreed.total);
            format!("promise {at} broke, and no fault of the library: {share} percent lied, a fifth or more: {why}")
        }
    }
}

pub fn table(ring: &Ring, findings: &Findings) -> String {
    let mut text = String::new();
    let (finals, skipped, open, twice) = tally(findings);
    let ways: Vec<&str> = ring.how.iter().map(|how| how.name()).collect();
    let liars = ring.hosts.len() - ring.honest().count();
    let _ = writeln!(
        text,
        "firms     {}, of them {liars} lying, {} percent of the stake: {}",
        grouped(ring.hosts.len() as u64),
        percent(ring.lying_weight(), ring.agreed.total),
        ways.join(", ")
    );
    let stopped = ring.stopped.iter().filter(|&&stopped| stopped).count();
    let restarts: u64 = ring.hosts.iter().map(|host| host.seen.restarts).sum();
    let _ = writeln!(
        text,
        "falls     {} firms fell and started again from the stored record, {stopped} stopped for good",
        grouped(restarts)
    );
    let _ = writeln!(
        text,
        "slots     {finals} final, {skipped} skipped, {open} open{} after {} s of simulated time",
        if twice > 0 { format!(", {twice} with two final blocks") } else { String::new() },
        seconds(ring.ended)
    );
    let _ = writeln!(text, "\nslot  outcome     first ms  last ms");
    for slot in 1..=SLOTS {
        let outcome = match findings.outcomes[slot] {
            Outcome::Final(block) => format!("final {block}"),
            Outcome::Twice => "two final".to_string(),
            Outcome::Skipped => "skipped".to_string(),
            Outcome::Open => "open".to_string(),
        };
        let (began, moments) = finality(ring, slot);
        let at = |moment: Option<&(u64, u64)>| moment.map_or("-".to_string(), |(at, _)| grouped(at - began));
        let _ = writeln!(text, "{slot:<4}  {outcome:<10}  {:>8}  {:>7}", at(moments.first()), at(moments.last()));
    }
    mail(ring, &mut text);
    calls(ring, &mut text);
    held(ring, findings, &mut text);
    text
}

fn mail(ring: &Ring, text: &mut String) {
    let _ = writeln!(text, "\n{:<16}{:>12}{:>12}{:>12}{:>12}{:>12}", "mail", "sent", "late", "twice", "lost", "sent again");
    let mut all = Count::default();
    let mut line = |name: &str, count: Count| {
        let numbers = [count.sent, count.late, count.twice, count.lost, count.again].map(grouped);
        let _ = writeln!(
            text,
            "{name:<16}{:>12}{:>12}{:>12}{:>12}{:>12}",
            numbers[0], numbers[1], numbers[2], numbers[3], numbers[4]
        );
    };
    for (name, &count) in MAIL_NAMES.into_iter().zip(&ring.mail) {
        all.add(count);
        line(name, count);
    }
    line("all", all);
}

/// The numbers that some function was answered.
pub fn numbers_seen(counts: &[[u64; NUMBERS]]) -> Vec<usize> {
    (0..NUMBERS).filter(|&number| number < 1 || counts.iter().any(|row| row[number] > 0)).collect()
}

fn calls(ring: &Ring, text: &mut String) {
    let answers = ring.answers();
    let numbers = numbers_seen(&answers.counts);
    let _ = write!(text, "\n{:<22}{:>12}", "calls, answered", "all");
    for number in &numbers {
        let _ = write!(text, "{number:>12}");
    }
    let _ = writeln!(text);
    for (function, name) in FUNCTIONS {
        let row = answers.counts[function as usize];
        let _ = write!(text, "{name:<22}{:>12}", grouped(row.iter().sum()));
        for &number in &numbers {
            let _ = write!(text, "{:>12}", if row[number] == 0 { "-".to_string() } else { grouped(row[number]) });
        }
        let _ = writeln!(text);
    }
}

fn held(ring: &Ring, findings: &Findings, text: &mut String) {
    let _ = writeln!(text);
    for (at, check) in findings.checks.iter().enumerate() {
        let verdict = match &check.verdict {
            Verdict::Held => "held".to_string(),
            Verdict::NotAsked => "not asked".to_string(),
            Verdict::Broken(why) if check.is_promised => format!("BROKEN: {why}"),
            Verdict::Broken(why) => format!("broke, not promised here: {why}"),
        };
        let _ = writeln!(text, "{}  {}\n   {} {}: {verdict}", at + 1, check.promise, grouped(check.tried), check.unit);
    }
    if findings.is_broken() {
        let named: Vec<String> = findings.not_clear.iter().map(|(firm, _)| firm.to_string()).collect();
        let weight = ring.weight(findings.not_clear.iter().map(|&(firm, _)| firm));
        let _ = writeln!(
            text,
            "not clear, by two initial votes in a slot: {} firms, {} percent of the stake: {}",
            named.len(),
            percent(weight, ring.agreed.total),
            named.join(" ")
        );
    }
    let _ = writeln!(text, "\nagain: {}", ring.options.replay().join(" "));
    let _ = writeln!(text, "verdict: {}", verdict(ring, findings));
}

/// What it took, which is another on every machine.
pub fn speed(ring: &Ring, seconds: f64) -> String {
    let mut answers = crate::seen::Answers::new();
    ring.hosts.iter().for_each(|host| answers.add(&host.seen.answers));
    let rate = |count: u64| grouped((count as f64 / seconds) as u64);
    format!("took {seconds:.2} s: {} calls and {} votes a second\n", rate(answers.calls()), rate(answers.votes()))
}
