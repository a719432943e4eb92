//! Rings of firms over the Quointrowel library, some of them lying, with mail that comes late, twice or never.
//! `bench --help` tells the words.

#![forbid(unsafe_code)]

mod agreed;
mod checks;
mod host;
mod lies;
mod mail;
mod options;
mod packets;
mod page;
mod random;
mod ring;
mod seen;
mod soak;
mod store;
mod table;

use options::{Command, Options, USAGE};
use page::Named;
use quointrowel::{Kept, Store};
use std::fs;
use std::io::{self, Write};
use std::path::{Path, PathBuf};
use std::process::ExitCode;
use std::time::Instant;

/// Status 0: all that was promised held. 1: a promise broke. 2: what was asked for cannot be done.
const BROKEN: u8 = 1;
const REFUSED: u8 = 2;

/// The two forms of a saved record.
enum Form {
    Stored,
    Plain,
}

fn main() -> ExitCode {
    let words: Vec<String> = std::env::args().skip(1).collect();
    let done = same_version().and_then(|()| options::parse(&words)).and_then(|command| match command {
        Command::Help => say(USAGE).map(|()| true),
        Command::Run { options, page } => run(&options, page.as_deref()),
        Command::Soak { options, runs } => soak::soak(&options, runs),
        Command::Page { records, page } => draw(&records, &page),
        Command::Convert { from, to } => convert(&from, &to),
    });
    match done {
        Ok(true) => ExitCode::SUCCESS,
        Ok(false) => ExitCode::from(BROKEN),
        Err(why) => {
            eprintln!("bench: {why}");
            ExitCode::from(REFUSED)
        }
    }
}

/// A host compares the library's version with its header's before all else.
fn same_version() -> Result<(), String> {
    let (linked, wanted) = (quointrowel::version(), quointrowel::VERSION);
    if linked == wanted {
        return Ok(());
    }
    Err(format!("the library is of version {linked}, and this program is for version {wanted}"))
}

/// Writes to standard output, whole or with an error.
pub fn say(text: &str) -> Result<(), String> {
    let mut out = io::stdout().lock();
    out.write_all(text.as_bytes()).and_then(|()| out.flush()).map_err(|error| format!("standard output: {error}"))
}

/// A folder for stored records, made where there is none.
pub fn prepare(options: &Options) -> Result<(), String> {
    options
        .store
        .as_ref()
        .map_or(Ok(()), |folder| fs::create_dir_all(folder).map_err(|error| format!("--store {}: {error}", folder.display())))
}

fn run(options: &Options, page: Option<&Path>) -> Result<bool, String> {
    prepare(options)?;
    page.map_or(Ok(()), try_page)?;
    let began = Instant::now();
    let ring = ring::run(options).map_err(|error| format!("a record could not be stored or read: {error}"))?;
    let findings = checks::look_through(&ring);
    let seconds = began.elapsed().as_secs_f64();
    if let Some(file) = page {
        write_page(file, &page::ring_page(&ring, &findings))?;
    }
    say(&table::table(&ring, &findings))?;
    say(&table::speed(&ring, seconds))?;
    Ok(!findings.is_fault())
}

/// A saved record: a stored one, of `--store`, or a record's plain words, as the panel's `save FILE` writes them.
fn read_record(file: &Path) -> Result<(Named, Form), String> {
    let name = file.display().to_string();
    let bytes = fs::read(file).map_err(|error| format!("{name}: {error}"))?;
    let (words, form) = if Kept::is_marked(&bytes) {
        let kept = Kept::of_bytes(&bytes).map_err(|why| format!("{name}: {why}"))?;
        (kept.record.words().to_vec(), Form::Stored)
    } else {
        let words = store::words_of(&bytes);
        (words.ok_or(format!("{name}: it has {} bytes, and a record's words have 8 each", bytes.len()))?, Form::Plain)
    };
    Ok((Named::new(name.clone(), words).ok_or(format!("{name}: this is no node's record"))?, form))
}

/// Makes plain words of a stored record, and a stored one of plain words; a host's notes are left out.
fn convert(from: &Path, to: &Path) -> Result<bool, String> {
    let (named, form) = read_record(from)?;
    match form {
        Form::Stored => {
            let bytes: Vec<u8> = named.record.words().iter().flat_map(|word| word.to_le_bytes()).collect();
            write_whole(to, &bytes)
        }
        Form::Plain => Store::new(to).save(&named.record, &[]),
    }
    .map_err(|error| format!("{}: {error}", to.display()))?;
    Ok(true)
}

fn draw(records: &[PathBuf], file: &Path) -> Result<bool, String> {
    let records = records.iter().map(|file| Ok(read_record(file)?.0)).collect::<Result<Vec<_>, String>>()?;
    write_page(file, &page::record_page(&records))?;
    Ok(true)
}

fn write_page(file: &Path, text: &str) -> Result<(), String> {
    write_whole(file, text.as_bytes()).map_err(|error| format!("--page {}: {error}", file.display()))
}

/// Written beside its file and renamed, so that nothing half written stands there.
fn write_whole(file: &Path, bytes: &[u8]) -> io::Result<()> {
    let beside = beside(file);
    fs::write(&beside, bytes).and_then(|()| fs::rename(&beside, file)).inspect_err(|_| {
        let _ = fs::remove_file(&beside);
    })
}

fn beside(file: &Path) -> PathBuf {
    let mut name = file.as_os_str().to_owned();
    name.push(".new");
    PathBuf::from(name)
}

/// Whether a page can be written there, asked before a long run.
fn try_page(file: &Path) -> Result<(), String> {
    let beside = beside(file);
    let tried = fs::write(&beside, "").and_then(|()| fs::remove_file(&beside));
    tried.map_err(|error| format!("--page {}: {error}", file.display()))
}
