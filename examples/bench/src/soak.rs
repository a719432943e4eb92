//! Many rings, one after the other.

use crate::checks::{look_through, Verdict};
use crate::lies::HOWS;
use crate::options::Options;
use crate::ring;
use crate::seen::Answers;
use crate::table::{grouped, percent, verdict};
use std::collections::BTreeMap;
use std::fmt::Write;
use std::io::{self, IsTerminal};
use std::time::Instant;

/// What a soak counts of one way of lying.
#[derive(Default)]
struct Tally {
    rings: u64,
    broken: u64,
    /// Rings in which a promise broke, by promise.
    promises: [u64; 6],
}

/// Runs so many rings from the options' seed on. False at the first promise that broke.
pub fn soak(options: &Options, runs: u64) -> Result<bool, String> {
    crate::prepare(options)?;
    let (began, mut answers) = (Instant::now(), Answers::new());
    let mut tallies: BTreeMap<String, Tally> = BTreeMap::new();
    let mut tried = [0; 6];
    for run in 0..runs {
        let options = Options { seed: options.seed + run, ..options.clone() };
        let ring = ring::run(&options).map_err(|error| format!("a record could not be stored or read: {error}"))?;
        let findings = look_through(&ring);
        ring.hosts.iter().for_each(|host| answers.add(&host.seen.answers));
        let tally = tallies.entry(way(&ring.how)).or_default();
        tally.rings += 1;
        tally.broken += u64::from(findings.is_broken());
        for (at, check) in findings.checks.iter().enumerate() {
            tried[at] += check.tried;
            tally.promises[at] += u64::from(matches!(check.verdict, Verdict::Broken(_)));
        }
        if findings.is_fault() {
            let words = options.replay().join(" ");
            crate::say(&format!("seed {}: {}\nagain: {words}\n", options.seed, verdict(&ring, &findings)))?;
            return Ok(false);
        }
        progress(run + 1, runs, began);
    }
    crate::say(&summary(&tallies, tried, &answers, began.elapsed().as_secs_f64()))?;
    Ok(true)
}

fn way(how: &[crate::lies::How]) -> String {
    match how {
        [one] => one.name().to_string(),
        many if many.len() == HOWS.len() => "all at once".to_string(),
        many => many.iter().map(|how| how.name()).collect::<Vec<_>>().join(","),
    }
}

/// A line that writes over itself, on a terminal alone.
fn progress(done: u64, runs: u64, began: Instant) {
    if io::stderr().is_terminal() {
        let seconds = began.elapsed().as_secs();
        eprint!("\r{} of {} rings, {seconds} s{}", grouped(done), grouped(runs), if done == runs { "\n" } else { "" });
    }
}

fn summary(tallies: &BTreeMap<String, Tally>, tried: [u64; 6], answers: &Answers, seconds: f64) -> String {
    let mut text = String::new();
    let _ = writeln!(text, "{:<16}{:>10}{:>10}{:>10}   by promise 1 to 6", "way of lying", "rings", "broke", "percent");
    let mut rings = 0;
    for (way, tally) in tallies {
        rings += tally.rings;
        let promises = tally.promises.map(|count| count.to_string()).join(" ");
        let share = percent(tally.broken, tally.rings);
        let _ = writeln!(text, "{way:<16}{:>10}{:>10}{share:>10}   {promises}", grouped(tally.rings), grouped(tally.broken));
    }
    let units = ["proofs", "packets", "final blocks", "slots", "votes", "firms"];
    let tried: Vec<String> = tried.iter().zip(units).map(|(&count, unit)| format!("{} {unit}", grouped(count))).collect();
    let _ = writeln!(text, "tried: {}", tried.join(", "));
    let _ = writeln!(text, "verdict: in {} rings every promise that was made held", grouped(rings));
    let rate = |count: u64| grouped((count as f64 / seconds) as u64);
    let _ = writeln!(
        text,
        "took {seconds:.1} s: {:.1} rings, {} calls and {} votes a second",
        rings as f64 / seconds,
        rate(answers.calls()),
        rate(answers.votes())
    );
    text
}
