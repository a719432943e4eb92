//! A plain model of the node, and random scripts to hold a program against it.

mod compare;
mod cover;
mod differ;
mod gen;
mod help;
mod measure;
mod message;
mod node;
mod packet;
mod panel;
mod random;
mod read;
mod refusal;
mod rings;
mod same_parents;
mod stakes;
mod stands;
#[cfg(test)]
mod tests;
#[path = "../../tuned/mod.rs"]
mod tuned;
mod vouched;

use panel::Answer;
use std::io::{self, BufWriter, Read, Write};
use std::process::ExitCode;

const USAGE: &str = "usage:
  model run                                 obeys the script on standard input
  model gen SEED                            prints the script of that seed
  model compare SEED COUNT [SECONDS LEAST] -- PROGRAM [WORD..]
                                            runs PROGRAM beside the model
  model cover SEED COUNT                    counts what those scripts reach
  model measure SIDE NODES RECORD OPERATION ROUNDS
                                            one operation, for its cost
  model record NODES RECORD                 the words of that record
  model votes NODES RECORD                  those of the votes that are given to it";

fn main() -> ExitCode {
    let words: Vec<String> = std::env::args().skip(1).collect();
    let words: Vec<&str> = words.iter().map(String::as_str).collect();
    match obey(&words) {
        Some(Ok(true)) => ExitCode::SUCCESS,
        Some(Ok(false)) => ExitCode::from(1),
        // A reader that goes away, such as `head`, is no fault.
        Some(Err(error)) if error.kind() == io::ErrorKind::BrokenPipe => ExitCode::SUCCESS,
        Some(Err(error)) => {
            eprintln!("{error}");
            ExitCode::from(2)
        }
        None => {
            eprintln!("{USAGE}");
            ExitCode::from(2)
        }
    }
}

/// None when the words are not understood; otherwise whether all is well.
fn obey(words: &[&str]) -> Option<io::Result<bool>> {
    match words {
        ["run"] => Some(run()),
        ["gen", seed] => Some(generate(seed.parse().ok()?)),
        ["cover", seed, count] => {
            let cover = cover::cover(seed.parse().ok()?, count.parse().ok()?);
            Some(cover.show(&mut io::stdout().lock()).map(|()| true))
        }
        ["measure", "model", rest @ ..] => measure::by_model(&measure_task(rest)?).map(|()| Ok(true)),
        ["measure", "tuned", rest @ ..] => measure::by_tuned(&measure_task(rest)?).map(|()| Ok(true)),
        ["record", nodes, record] => Some(write_words(&measure::record(&ring(nodes, record)?)?)),
        ["votes", nodes, record] => Some(write_words(&ring(nodes, record)?.given.concat())),
        ["compare", rest @ ..] => Some(Ok(compare::compare(&compare_task(rest)?))),
        _ => None,
    }
}

/// A ring has another node than the own.
fn nodes(word: &str) -> Option<usize> {
    word.parse().ok().filter(|nodes| (2..=stakes::MOST_NODES).contains(nodes))
}

fn ring(count: &str, record: &str) -> Option<rings::Ring> {
    rings::ring(record, nodes(count)?)
}

fn write_words(words: &[u64]) -> io::Result<bool> {
    let bytes: Vec<u8> = words.iter().flat_map(|word| word.to_le_bytes()).collect();
    io::stdout().lock().write_all(&bytes).map(|()| true)
}

fn measure_task(words: &[&str]) -> Option<measure::Task> {
    let [count, record, operation, rounds] = <[&str; 4]>::try_from(words).ok()?;
    let (record, operation) = (record.to_string(), operation.to_string());
    Some(measure::Task { nodes: nodes(count)?, record, operation, rounds: measure::Rounds::parse(rounds)? })
}

fn compare_task(words: &[&str]) -> Option<compare::Task> {
    let bar = words.iter().position(|&word| word == "--")?;
    let program: Vec<String> = words[bar + 1..].iter().map(|word| word.to_string()).collect();
    if program.is_empty() {
        return None;
    }
    let (seed, count, limit) = match words[..bar] {
        [seed, count] => (seed, count, None),
        [seed, count, seconds, least] => {
            let limit = compare::Limit { seconds: seconds.parse().ok()?, least: least.parse().ok()? };
            (seed, count, Some(limit))
        }
        _ => return None,
    };
    Some(compare::Task { seed: seed.parse().ok()?, count: count.parse().ok()?, limit, program })
}

fn run() -> io::Result<bool> {
    let mut script = Vec::new();
    io::stdin().read_to_end(&mut script)?;
    let mut panel = panel::Panel::default();
    let mut out = BufWriter::new(io::stdout().lock());
    for line in panel::lines(&script) {
        for answer in panel.line(line).map_or(vec![], Answer::lines) {
            writeln!(out, "{answer}")?;
        }
    }
    out.flush()?;
    Ok(true)
}

fn generate(seed: u64) -> io::Result<bool> {
    let mut out = io::stdout().lock();
    out.write_all(gen::script(seed).text.as_bytes())?;
    out.flush()?;
    Ok(true)
}
