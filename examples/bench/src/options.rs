//! The words of the command line, and the words that run a ring again.

use crate::lies::{How, HOWS};
use crate::random::Random;
use std::fs;
use std::path::PathBuf;

pub const MOST_FIRMS: usize = 2048;
const MOST_TOTAL: u64 = 1 << 48;
const MOST_LOST: u64 = 90;
const BREAKS: u64 = 6;

pub const USAGE: &str = "\
usage: bench [run] [OPTION..] [--page FILE]
       bench soak [OPTION..] --runs N
       bench page RECORD [RECORD] --page FILE
       bench convert FROM TO
Seats a ring of firms, some of them lying, over the library, with mail that comes
late, twice or never, in simulated time; the same history from a seed everywhere.
run   one ring: a table, the verdict, and with --page FILE a picture for a browser
soak  rings of seeds S, S+1 ..: ends with 1 at the first broken promise, and tells
      the words that run that ring again
page  a saved record as a picture, or two with every differing vote marked
convert  plain words, as the panel saves and differ reads them, of a stored
      record, or a stored record of plain words
  --firms N          1 to 2,048 (64); in a soak also A-B: of each seed one between
  --stakes WHICH     equal, steep (few heavy firms), or a FILE, a number a line
  --lying PERCENT    of the stake at most (19); from 20 on promises may break
  --how WAYS         equivocate, withhold, fork, certificates, flood, silent, with
                     commas (one of them in turn by seed, every seventh time all)
  --late, --twice, --lost PERCENT   of all mail (30, 10, 10)
  --stop PERCENT     of honest firms, which stop for good (0)
  --crash PERCENT    of stored calls after which a firm falls unsent (1)
  --watchers N       (2)
  --seed S           (1)
  --store DIR        records in files there, instead of memory
  --break K          spoils the run so that check K, 1 to 6, must fail
Ends with 0 where all that was promised held, 1 where not, 2 for words like these.
";

/// Where the stakes come from.
#[derive(Clone, Debug, PartialEq, Eq)]
pub enum Stakes {
    Equal,
    Steep,
    File { name: String, stakes: Vec<u64> },
}

/// Everything that a ring depends on.
#[derive(Clone, Debug, PartialEq, Eq)]
pub struct Options {
    pub firms: (usize, usize),
    pub stakes: Stakes,
    pub lying: u64,
    pub how: Option<Vec<How>>,
    pub late: u64,
    pub twice: u64,
    pub lost: u64,
    pub stop: u64,
    pub crash: u64,
    pub watchers: usize,
    pub seed: u64,
    pub store: Option<PathBuf>,
    pub spoil: Option<u64>,
}

impl Default for Options {
    fn default() -> Options {
        Options {
            firms: (64, 64),
            stakes: Stakes::Equal,
            lying: 19,
            how: None,
            late: 30,
            twice: 10,
            lost: 10,
            stop: 0,
            crash: 1,
            watchers: 2,
            seed: 1,
            store: None,
            spoil: None,
        }
    }
}

/// What is to be done.
#[derive(Clone, Debug, PartialEq, Eq)]
pub enum Command {
    Help,
    Run { options: Options, page: Option<PathBuf> },
    Soak { options: Options, runs: u64 },
    Page { records: Vec<PathBuf>, page: PathBuf },
    Convert { from: PathBuf, to: PathBuf },
}

impl Options {
    /// How many firms the ring of this seed has.
    pub fn firms_of_seed(&self) -> usize {
        let (least, most) = self.firms;
        least + Random::of(self.seed, 9).below((most - least + 1) as u64) as usize
    }

    /// An option and its value as words, and whether it is as usual.
    pub fn values(&self) -> Vec<(&'static str, String, bool)> {
        let usual = Options::default();
        let stakes = match &self.stakes {
            Stakes::Equal => "equal".to_string(),
            Stakes::Steep => "steep".to_string(),
            Stakes::File { name, .. } => name.clone(),
        };
        let how = |ways: &Vec<How>| ways.iter().map(|way| way.name()).collect::<Vec<_>>().join(",");
        let firms = self.firms_of_seed();
        let is_file = matches!(self.stakes, Stakes::File { .. });
        vec![
            ("firms", firms.to_string(), firms == usual.firms.0 || is_file),
            ("stakes", stakes, self.stakes == usual.stakes),
            ("lying", self.lying.to_string(), self.lying == usual.lying),
            ("late", self.late.to_string(), self.late == usual.late),
            ("twice", self.twice.to_string(), self.twice == usual.twice),
            ("lost", self.lost.to_string(), self.lost == usual.lost),
            ("stop", self.stop.to_string(), self.stop == usual.stop),
            ("crash", self.crash.to_string(), self.crash == usual.crash),
            ("watchers", self.watchers.to_string(), self.watchers == usual.watchers),
            ("seed", self.seed.to_string(), false),
            ("how", self.how.as_ref().map_or(String::new(), how), self.how.is_none()),
            ("break", self.spoil.map_or(String::new(), |k| k.to_string()), self.spoil.is_none()),
        ]
    }

    /// The words that run this ring again.
    pub fn replay(&self) -> Vec<String> {
        let mut words = vec![called().to_string(), "run".to_string()];
        let values = self.values().into_iter().filter(|(.., is_usual)| !is_usual);
        words.extend(values.map(|(name, value, _)| format!("--{name} {}", quoted(&value))));
        words
    }
}

/// How this program is called: by the name under which it is installed, else as in the repository.
pub fn called() -> &'static str {
    const INSTALLED: &str = "quointrowel-bench";
    let first = std::env::args_os().next().unwrap_or_default();
    let is_installed = std::path::Path::new(&first).file_name().is_some_and(|name| name == INSTALLED);
    if is_installed { INSTALLED } else { "./bench" }
}

/// A word as a shell takes it.
fn quoted(word: &str) -> String {
    let is_plain = |c: char| c.is_ascii_alphanumeric() || "-_./,".contains(c);
    if !word.is_empty() && word.chars().all(is_plain) {
        return word.to_string();
    }
    format!("'{}'", word.replace('\'', "'\\''"))
}

/// Reads the command line; an error is a line for standard error.
pub fn parse(words: &[String]) -> Result<Command, String> {
    if words.iter().any(|word| word == "-h" || word == "--help") {
        return Ok(Command::Help);
    }
    match words.first().map(String::as_str) {
        Some("soak") => parse_soak(&words[1..]),
        Some("page") => parse_page(&words[1..]),
        Some("convert") => parse_convert(&words[1..]),
        Some("run") => parse_run(&words[1..]),
        Some(word) if !word.starts_with("--") => Err(format!("{word}: no command; run, soak, page and convert are")),
        _ => parse_run(words),
    }
}

fn parse_run(words: &[String]) -> Result<Command, String> {
    let mut rest = Vec::new();
    let options = parse_options(words, &mut rest)?;
    if options.firms.0 != options.firms.1 {
        return Err("--firms A-B: a range is for a soak".to_string());
    }
    let mut page = None;
    for (name, value) in rest {
        match name.as_str() {
            "--page" => page = Some(PathBuf::from(value)),
            _ => return Err(format!("{name}: no option of run")),
        }
    }
    Ok(Command::Run { options, page })
}

fn parse_soak(words: &[String]) -> Result<Command, String> {
    let mut rest = Vec::new();
    let options = parse_options(words, &mut rest)?;
    let mut runs = None;
    for (name, value) in rest {
        match name.as_str() {
            "--runs" => runs = Some(number(&name, &value, 1, u64::MAX - options.seed)?),
            _ => return Err(format!("{name}: no option of soak")),
        }
    }
    let runs = runs.ok_or("soak wants --runs N")?;
    Ok(Command::Soak { options, runs })
}

fn parse_page(words: &[String]) -> Result<Command, String> {
    let (mut records, mut page) = (Vec::new(), None);
    let mut words = words.iter();
    while let Some(word) = words.next() {
        match word.as_str() {
            "--page" => page = Some(words.next().ok_or("--page wants a value")?),
            option if option.starts_with("--") => return Err(format!("{option}: no option of page")),
            file => records.push(PathBuf::from(file)),
        }
    }
    if !(1..=2).contains(&records.len()) {
        return Err(format!("page wants one or two records, and here are {}", records.len()));
    }
    Ok(Command::Page { records, page: PathBuf::from(page.ok_or("page wants --page FILE")?) })
}

fn parse_convert(words: &[String]) -> Result<Command, String> {
    match words {
        [from, to] => Ok(Command::Convert { from: PathBuf::from(from), to: PathBuf::from(to) }),
        _ => Err(format!("convert wants two files, and here are {} words", words.len())),
    }
}

/// The options of a ring; others are left with their values.
fn parse_options(words: &[String], rest: &mut Vec<(String, String)>) -> Result<Options, String> {
    let mut options = Options::default();
    let (mut words, mut firms_given) = (words.iter(), false);
    while let Some(name) = words.next() {
        if !name.starts_with("--") {
            return Err(format!("{name}: an option begins with --"));
        }
        let value = words.next().ok_or(format!("{name} wants a value"))?;
        let percent = |most| number(name, value, 0, most);
        match name.as_str() {
            "--firms" => {
                options.firms = firms(value)?;
                firms_given = true;
            }
            "--stakes" => options.stakes = stakes(value)?,
            "--lying" => options.lying = percent(100)?,
            "--how" => options.how = Some(ways(value)?),
            "--late" => options.late = percent(100)?,
            "--twice" => options.twice = percent(100)?,
            "--lost" => options.lost = percent(MOST_LOST)?,
            "--stop" => options.stop = percent(100)?,
            "--crash" => options.crash = percent(MOST_LOST)?,
            "--watchers" => options.watchers = number(name, value, 0, MOST_FIRMS as u64)? as usize,
            "--seed" => options.seed = number(name, value, 0, u64::MAX / 2)?,
            "--store" => options.store = Some(PathBuf::from(value)),
            "--break" => options.spoil = Some(number(name, value, 1, BREAKS)?),
            _ => rest.push((name.clone(), value.clone())),
        }
    }
    if let Stakes::File { name, stakes } = &options.stakes {
        if firms_given && options.firms != (stakes.len(), stakes.len()) {
            return Err(format!("--firms: {name} has the stakes of {} firms", stakes.len()));
        }
        options.firms = (stakes.len(), stakes.len());
    }
    Ok(options)
}

fn number(name: &str, value: &str, least: u64, most: u64) -> Result<u64, String> {
    let is_digits = !value.is_empty() && value.bytes().all(|byte| byte.is_ascii_digit());
    let parsed = value.parse().ok().filter(|number| is_digits && (least..=most).contains(number));
    parsed.ok_or(format!("{name} {value}: a whole number from {least} to {most} is wanted"))
}

fn firms(value: &str) -> Result<(usize, usize), String> {
    let (least, most) = value.split_once('-').unwrap_or((value, value));
    let one = |word| number("--firms", word, 1, MOST_FIRMS as u64).map(|firms| firms as usize);
    let (least, most) = (one(least)?, one(most)?);
    if least > most {
        return Err(format!("--firms {value}: the first is above the second"));
    }
    Ok((least, most))
}

fn ways(value: &str) -> Result<Vec<How>, String> {
    let way = |word: &str| HOWS.iter().find(|(_, name)| *name == word).map(|&(how, _)| how);
    let names: Vec<&str> = HOWS.iter().map(|&(_, name)| name).collect();
    value.split(',').map(|word| way(word).ok_or(format!("--how {word}: the ways are {}", names.join(", ")))).collect()
}

fn stakes(value: &str) -> Result<Stakes, String> {
    match value {
        "equal" => Ok(Stakes::Equal),
        "steep" => Ok(Stakes::Steep),
        file => read_stakes(file).map(|stakes| Stakes::File { name: file.to_string(), stakes }),
    }
}

fn read_stakes(file: &str) -> Result<Vec<u64>, String> {
    let text = fs::read_to_string(file).map_err(|error| format!("--stakes {file}: {error}"))?;
    let mut stakes = Vec::new();
    for (line, word) in text.lines().enumerate() {
        let name = format!("--stakes {file}: line {}:", line + 1);
        if line == MOST_FIRMS {
            return Err(format!("{name} a ring has {MOST_FIRMS} firms at most"));
        }
        stakes.push(number(&name, word.trim(), 1, MOST_TOTAL)?);
    }
    if stakes.is_empty() {
        return Err(format!("--stakes {file}: it has no line"));
    }
    let total: u128 = stakes.iter().map(|&stake| u128::from(stake)).sum();
    if total > u128::from(MOST_TOTAL) {
        return Err(format!("--stakes {file}: the stakes together are above 2^48"));
    }
    Ok(stakes)
}

#[cfg(test)]
mod tests {
    use super::*;

    fn words(line: &str) -> Vec<String> {
        line.split_whitespace().map(str::to_string).collect()
    }

    #[test]
    fn the_words_of_a_ring_give_it_again() {
        let line = "run --firms 9 --stakes steep --lying 24 --how fork,silent --late 1 --seed 77 --break 3";
        let Command::Run { options, page: None } = parse(&words(line)).unwrap() else { panic!() };
        let again: Vec<String> = words(&options.replay()[1..].join(" "));
        assert_eq!(parse(&again), parse(&words(line)));
        assert_eq!(Options::default().replay(), ["./bench", "run", "--seed 1"]);
    }

    #[test]
    fn bad_words_are_told() {
        for line in [
            "walk",
            "--firms 0",
            "--firms 2049",
            "--firms +3",
            "--firms 4-64",
            "soak --firms 9-4 --runs 1",
            "--firms",
            "--lying 101",
            "--lost 91",
            "--how fork,shout",
            "--seed -1",
            "--break 7",
            "--runs 3",
            "soak",
            "soak --runs 0",
            "page --page x",
            "page a b c --page x",
            "page a",
            "convert a",
            "convert a b c",
            "--stakes /no/such/file",
            "run fork",
        ] {
            assert!(parse(&words(line)).is_err(), "{line}");
        }
    }
}
