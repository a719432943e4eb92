//! Runs a program beside the model on the same scripts.
//!
//! Starting a program is slow, so several scripts go into one run: both sides
//! are given the concatenation. A script with answers of 17 needs a program
//! without a node and therefore begins a batch; one that quits ends it.

use crate::gen;
use crate::panel::{lines, Answer, Panel};
use std::io::{Read, Write};
use std::process::{Command, Stdio};
use std::time::{Duration, Instant};

const LARGEST_BATCH: usize = 60;

pub struct Task {
    pub seed: u64,
    pub count: u64,
    pub limit: Option<Limit>,
    pub program: Vec<String>,
}

/// No batch begins after so many seconds; by then at least so many scripts
/// must have been compared.
pub struct Limit {
    pub seconds: u64,
    pub least: u64,
}

struct Batch {
    text: String,
    seeds: Vec<u64>,
    /// For each script, the number of lines before it.
    first_lines: Vec<usize>,
}

/// One line that the model expects, and where it comes from.
struct Expected {
    /// None stands for free text, which is passed over.
    answer: Option<String>,
    line: usize,
    command: String,
}

/// Answers whether all compared scripts agree, and are enough.
pub fn compare(task: &Task) -> bool {
    let begun = Instant::now();
    let deadline = task.limit.as_ref().map(|limit| begun + Duration::from_secs(limit.seconds));
    let last = task.seed.saturating_add(task.count);
    let mut next = task.seed;
    let (mut scripts, mut answers) = (0u64, 0);
    while next < last && deadline.map_or(true, |d| Instant::now() < d) {
        let batch = fill_batch(next, last);
        next += batch.seeds.len() as u64;
        match compare_batch(task, &batch) {
            Ok(count) => answers += count,
            Err(difference) => {
                println!("{}", alone_if_possible(task, &batch, difference).report);
                return false;
            }
        }
        scripts += batch.seeds.len() as u64;
    }
    let seconds = begun.elapsed().as_secs_f64();
    println!("{scripts} scripts from seed {} agree, {answers} answer lines, {seconds:.1} s", task.seed);
    match &task.limit {
        Some(limit) if scripts < limit.least => {
            println!("too few: at least {} scripts are to be compared", limit.least);
            false
        }
        _ => true,
    }
}

fn fill_batch(first: u64, last: u64) -> Batch {
    let mut batch = Batch { text: String::new(), seeds: Vec::new(), first_lines: Vec::new() };
    for seed in first..last {
        let script = gen::script(seed);
        let alone = script.unstarted && !batch.seeds.is_empty();
        if alone || batch.seeds.len() == LARGEST_BATCH {
            break;
        }
        batch.first_lines.push(lines(batch.text.as_bytes()).len());
        batch.text += &script.text;
        batch.seeds.push(seed);
        // A missing end is given to the program as it is, and ends the run.
        if script.quits || !batch.text.ends_with('\n') {
            break;
        }
    }
    batch
}

impl Batch {
    fn script_of(&self, line: usize) -> usize {
        self.first_lines.iter().rposition(|&first| first <= line).expect("the first script begins at line 0")
    }
}

struct Difference {
    report: String,
    /// The script it shows in, unless it belongs to none.
    seed: Option<u64>,
}

/// The same difference from a run of the one script, if it shows there too:
/// that is easier to follow.
fn alone_if_possible(task: &Task, batch: &Batch, mut difference: Difference) -> Difference {
    let seed = match difference.seed {
        Some(seed) => seed,
        None => return difference,
    };
    if let Err(alone) = compare_batch(task, &fill_batch(seed, seed + 1)) {
        return alone;
    }
    let last = batch.seeds[batch.seeds.len() - 1];
    let note = format!("\n  only in one run of seeds {} to {last}, not in that script alone", batch.seeds[0]);
    difference.report += &note;
    difference
}

/// The number of answer lines, or the first difference.
fn compare_batch(task: &Task, batch: &Batch) -> Result<usize, Difference> {
    let expected = run_model(&batch.text);
    let run = run_program(&task.program, &batch.text);
    let (output, status) = run.map_err(|report| Difference { report, seed: None })?;
    let got = lines(output.as_bytes());
    let (mut at, mut in_free_text) = (0, false);
    for want in &expected {
        let answer = match &want.answer {
            Some(answer) => answer.as_bytes(),
            None => {
                in_free_text = true;
                continue;
            }
        };
        // Free text goes on until the next answer stands.
        while in_free_text && at < got.len() && got[at] != answer {
            at += 1;
        }
        if got.get(at) != Some(&answer) {
            return Err(describe(batch, want, got.get(at).copied(), &status));
        }
        (at, in_free_text) = (at + 1, false);
    }
    if at < got.len() && !in_free_text {
        let extra = String::from_utf8_lossy(got[at]);
        let report = format!("seeds {:?}: the program has a line past the end: {extra}", batch.seeds);
        return Err(Difference { report, seed: None });
    }
    Ok(expected.len())
}

fn describe(batch: &Batch, want: &Expected, got: Option<&[u8]>, status: &str) -> Difference {
    let script = batch.script_of(want.line);
    let seed = batch.seeds[script];
    let line = want.line - batch.first_lines[script] + 1;
    let command = shorten(&want.command);
    let got = got.map_or(format!("no line ({status})"), |line| String::from_utf8_lossy(line).into_owned());
    let model = want.answer.as_deref().unwrap_or("(free text)");
    let report = format!("seed {seed} line {line}: {command}\n  model:   {model}\n  program: {got}");
    Difference { report, seed: Some(seed) }
}

fn shorten(command: &str) -> String {
    if command.chars().count() <= 200 {
        return command.to_string();
    }
    let head: String = command.chars().take(200).collect();
    format!("{head}.. ({} bytes)", command.len())
}

fn run_model(text: &str) -> Vec<Expected> {
    let mut panel = Panel::default();
    let mut expected = Vec::new();
    for (line, command) in lines(text.as_bytes()).into_iter().enumerate() {
        let answers = match panel.line(command) {
            Some(Answer::Lines(lines)) => lines.into_iter().map(Some).collect(),
            Some(Answer::FreeText) => vec![None],
            None => vec![],
        };
        for answer in answers {
            let command = String::from_utf8_lossy(command).into_owned();
            expected.push(Expected { answer, line, command });
        }
    }
    expected
}

fn run_program(program: &[String], text: &str) -> Result<(String, String), String> {
    let mut child = Command::new(&program[0])
        .args(&program[1..])
        .stdin(Stdio::piped())
        .stdout(Stdio::piped())
        .spawn()
        .map_err(|error| format!("{} does not start: {error}", program[0]))?;
    let mut stdin = child.stdin.take().expect("piped");
    let mut stdout = child.stdout.take().expect("piped");
    let mut output = Vec::new();
    // Written from another thread: a full pipe each way would block both.
    std::thread::scope(|scope| {
        scope.spawn(move || {
            // A program that ends early shows as missing lines.
            let _ = stdin.write_all(text.as_bytes());
        });
        stdout.read_to_end(&mut output)
    })
    .map_err(|error| format!("{} cannot be read: {error}", program[0]))?;
    let status = child.wait().map_err(|error| error.to_string())?;
    Ok((String::from_utf8_lossy(&output).into_owned(), status.to_string()))
}
