//! Slips in the definitions, tried against the computed cases alone.

mod code;
mod explained;
mod lexer;
mod machine;
mod number;
mod parser;
mod program;
mod slips;
mod syntax;
#[cfg(test)]
mod tests;
mod trial;
mod types;
mod value;

use explained::{Explained, Key};
use program::Program;
use slips::Slip;
use std::collections::HashSet;
use std::fs;
use std::path::Path;
use std::process::ExitCode;
use std::time::Instant;
use trial::{Outcome, Trial};

const USAGE: &str = "usage, at the root of the repository:
  slips cases           computes every case, and says which cannot be
  slips sample          tries the fixed sample of slips that the gate asks for
  slips full [WORD]     tries all slips, or those of files and definitions with WORD in their name
  slips unnoticed [WORD]
                        the same, and prints every slip that no case notices, explained or not";

/// Of each definition one slip in so many is in the sample, and one at least.
const ONE_IN: usize = 5;

/// Definitions recurse as deep as a record has words.
const STACK: usize = 1 << 30;

fn main() -> ExitCode {
    let words: Vec<String> = std::env::args().skip(1).collect();
    let run = std::thread::Builder::new().stack_size(STACK).spawn(move || obey(&words));
    match run.map(|run| run.join()) {
        Ok(Ok(Ok(true))) => ExitCode::SUCCESS,
        Ok(Ok(Ok(false))) => ExitCode::from(1),
        Ok(Ok(Err(why))) => {
            eprintln!("slips: {why}");
            ExitCode::from(2)
        }
        _ => ExitCode::from(2),
    }
}

struct Task {
    sample: bool,
    word: String,
    /// Print also what is explained.
    all: bool,
}

/// Whether all is well.
fn obey(words: &[String]) -> Result<bool, String> {
    let words: Vec<&str> = words.iter().map(String::as_str).collect();
    let program = Program::load(Path::new("."))?;
    match words[..] {
        ["cases"] => Ok(cases(&program, &Trial::new(&program))),
        ["sample"] => compare(&program, &Task { sample: true, word: String::new(), all: false }),
        ["full"] => compare(&program, &Task { sample: false, word: String::new(), all: false }),
        ["full", word] => compare(&program, &Task { sample: false, word: word.to_string(), all: false }),
        ["unnoticed"] => compare(&program, &Task { sample: false, word: String::new(), all: true }),
        ["unnoticed", word] => compare(&program, &Task { sample: false, word: word.to_string(), all: true }),
        _ => Err(USAGE.to_string()),
    }
}

fn cases(program: &Program, trial: &Trial) -> bool {
    for trouble in &trial.troubles {
        println!("{}: {}", trouble.part, trouble.why);
    }
    let (cases, held, not) = (program.cases.len(), trial.parts.len(), trial.troubles.len());
    println!("{cases} cases with {} tests: {held} hold, {not} do not or cannot be computed", held + not);
    not == 0
}

/// A slip with what it is known by.
struct Known {
    key: Key,
    slip: Slip,
}

/// All slips of the files that are named in `definitions`.
fn known(program: &Program) -> Result<Vec<Known>, String> {
    let listed =
        fs::read_to_string("tools/slips/definitions").map_err(|error| format!("definitions: {error}"))?;
    let mut known = Vec::new();
    for path in listed.lines().filter(|line| !line.is_empty() && !line.starts_with("--")) {
        let file = program
            .files
            .iter()
            .position(|file| file.path == path)
            .ok_or_else(|| format!("{path} is not there"))?;
        readable(program, file)?;
        for (name, definition) in program.definitions_of(file) {
            if !program.definitions[definition].signature.as_ref().is_some_and(types::has_values) {
                continue;
            }
            let slips =
                slips::of_definition(program, definition).map_err(|why| format!("{path} {name}: {why}"))?;
            let key = |slip: &Slip| (path.to_string(), name.to_string(), slip.text.clone());
            known.extend(slips.into_iter().map(|slip| Known { key: key(&slip), slip }));
        }
    }
    Ok(known)
}

/// Nothing of the file that has values was left unread.
fn readable(program: &Program, file: usize) -> Result<(), String> {
    let path = &program.files[file].path;
    let own = program.definitions_of(file);
    for (line, why) in &program.files[file].unread {
        let of = line.split_whitespace().next().and_then(|name| own.get(name));
        let signature = of.and_then(|&of| program.definitions[of].signature.as_ref());
        if signature.map_or(true, types::has_values) {
            return Err(format!("{path}: {line}: {why}"));
        }
    }
    Ok(())
}

/// The fixed sample: of each definition those whose texts are mixed to the lowest numbers.
fn sampled(known: &[Known]) -> HashSet<&Key> {
    let mut sample = HashSet::new();
    let mut from = 0;
    while from < known.len() {
        let of = known[from].slip.definition;
        let to = from + known[from..].iter().take_while(|known| known.slip.definition == of).count();
        let mut keys: Vec<&Key> = known[from..to].iter().map(|known| &known.key).collect();
        keys.sort_by_key(|key| (mixed(&key.2), &key.2));
        sample.extend(keys.into_iter().take((to - from).div_ceil(ONE_IN)));
        from = to;
    }
    sample
}

/// The bytes of a text mixed to a number, by the function of Fowler, Noll and Vo.
fn mixed(text: &str) -> u64 {
    text.bytes()
        .fold(0xcbf2_9ce4_8422_2325, |mixed, byte| (mixed ^ u64::from(byte)).wrapping_mul(0x0100_0000_01b3))
}

#[derive(Default)]
struct Count {
    tried: usize,
    noticed: usize,
    explained: usize,
    wrong: usize,
}

fn compare(program: &Program, task: &Task) -> Result<bool, String> {
    let begun = Instant::now();
    let mut trial = Trial::new(program);
    let sound = cases(program, &trial);
    let known = known(program)?;
    let text = fs::read_to_string("tools/slips/explained").unwrap_or_default();
    let explained = Explained::read(&text);
    let mut count = Count { wrong: stale(&explained, &known), ..Count::default() };
    let sample = sampled(&known);
    let mut above = None;
    for Known { key, slip } in &known {
        let asked = key.0.contains(&task.word) || key.1 == task.word;
        if !asked || task.sample && !sample.contains(key) {
            continue;
        }
        count.tried += 1;
        let entry = explained.entries.get(key);
        let said = match trial.of(slip) {
            Outcome::Noticed(part) => {
                count.noticed += 1;
                entry.map(|(line, _)| {
                    format!("line {line} of explained: noticed by {}", trial.parts[part].name)
                })
            }
            Outcome::Unnoticed(_) if entry.is_some() => {
                count.explained += 1;
                None
            }
            Outcome::Unnoticed(0) if explained.entries.contains_key(&whole(key)) => {
                count.explained += 1;
                None
            }
            Outcome::Unnoticed(touched) => Some(format!("unnoticed, {touched} tests come to it")),
            Outcome::Fault(why) => Some(format!("cannot be computed: {why}")),
        };
        count.wrong += usize::from(said.is_some());
        if said.is_some() || task.all && entry.is_some() {
            if above != Some((&key.0, &key.1)) {
                println!("{} {}", key.0, key.1);
                above = Some((&key.0, &key.1));
            }
            println!("    {}", key.2);
            said.filter(|_| !task.all).into_iter().for_each(|said| println!("        {said}"));
        }
    }
    let Count { tried, noticed, explained, wrong } = count;
    let of = known.len();
    println!(
        "{tried} of {of} slips tried: {noticed} noticed, {explained} explained, {wrong} wrong; {} s",
        begun.elapsed().as_secs()
    );
    Ok(sound && wrong == 0)
}

/// `*` in place of a slip's text: those of the definition that no test comes to.
fn whole(key: &Key) -> Key {
    (key.0.clone(), key.1.clone(), "*".to_string())
}

/// Entries that explain no slip, or explain nothing.
fn stale(explained: &Explained, known: &[Known]) -> usize {
    let mut keys: HashSet<Key> = known.iter().map(|known| known.key.clone()).collect();
    keys.extend(known.iter().map(|known| whole(&known.key)));
    let mut wrong = explained.twice.len();
    explained.twice.iter().for_each(|line| println!("line {line} of explained: it stands there twice"));
    for (key, (line, reason)) in &explained.entries {
        if !keys.contains(key) {
            println!("line {line} of explained: there is no such slip: {} {}: {}", key.0, key.1, key.2);
            wrong += 1;
        } else if !reason {
            println!("line {line} of explained: no reason stands above it");
            wrong += 1;
        }
    }
    wrong
}
