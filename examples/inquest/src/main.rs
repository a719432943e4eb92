//! The inquest: who is not blameless, by the firms' saved records and the packets in question. docs/INQUEST.md tells how to hold one.

#![forbid(unsafe_code)]

mod files;
mod form;
mod inquiry;
mod packets;
#[cfg(test)]
mod tests;
mod told;

use files::Handed;
use inquiry::Findings;
use packets::{bytes_of, Packet};
use std::collections::BTreeMap;
use std::io::{self, Write};
use std::path::Path;
use std::process::ExitCode;

/// Status 0: nothing contradicts. 1: something does. 2: it could not be done.
const NAMED: u8 = 1;
const REFUSED: u8 = 2;

const USAGE: &str = "\
usage: inquest FILE.. [HEX..]
Holds the firms' saved records against one another and against the packets in
question, and tells of every firm whether it is blameless, silent (it handed in
no record) or contradicted, and by which votes.
FILE is a saved record, one a firm: a record's plain words, as the panel saves
them, or a stored record, as a host keeps it; a watcher's may stand among them.
HEX is a certificate or a finality proof in hexadecimal digits.
Ends with 0 where nothing contradicts, 1 where something does, and 2 where it
could not be done; standard error then says why. docs/INQUEST.md is its manual.
";

fn main() -> ExitCode {
    let words: Vec<String> = std::env::args().skip(1).collect();
    let is_asked = matches!(words.first().map(String::as_str), None | Some("-h" | "--help"));
    let done = if is_asked { say(USAGE).map(|()| true).map_err(|why| vec![why]) } else { hold(&words) };
    match done {
        Ok(true) => ExitCode::SUCCESS,
        Ok(false) => ExitCode::from(NAMED),
        Err(reasons) => {
            reasons.iter().for_each(|why| eprintln!("inquest: {why}"));
            ExitCode::from(REFUSED)
        }
    }
}

/// Whether nothing contradicts; or every reason for which it could not be done.
fn hold(words: &[String]) -> Result<bool, Vec<String>> {
    let (linked, wanted) = (quointrowel::version(), quointrowel::VERSION);
    if linked != wanted {
        return Err(vec![format!("the library is of version {linked}, and this program is for version {wanted}")]);
    }
    let (files, packets) = sorted(words)?;
    let handed = every(files.iter().map(|file| Handed::read(Path::new(file))))?;
    one_ring(&handed)?;
    let stakes = &handed.first().ok_or(vec!["no record was handed in, and a packet alone names nobody".to_string()])?.stakes;
    let check = |(place, bytes)| {
        Packet::new(stakes, bytes).map_err(|why| format!("packet {}: {why} Nobody is bound by it: leave it out", place + 1))
    };
    let packets = every(packets.into_iter().enumerate().map(check))?;
    let found = Findings::new(handed, packets).map_err(|why| vec![why])?;
    say(&told::report(&found)).map_err(|why| vec![why])?;
    if !found.is_kept() {
        return Err(vec![
            "who is not blameless holds less than a fifth, which is promised not to be: keep the files, this is a fault"
                .to_string(),
        ]);
    }
    Ok(found.is_quiet())
}

/// What every one of them gives, or all that went wrong.
fn every<T>(results: impl Iterator<Item = Result<T, String>>) -> Result<Vec<T>, Vec<String>> {
    let (mut good, mut bad) = (Vec::new(), Vec::new());
    results.for_each(|result| result.map_or_else(|why| bad.push(why), |value| good.push(value)));
    if bad.is_empty() {
        Ok(good)
    } else {
        Err(bad)
    }
}

/// Files and packets: a word that is no file's name and has hexadecimal digits alone is a packet.
fn sorted(words: &[String]) -> Result<(Vec<String>, Vec<Vec<u8>>), Vec<String>> {
    let (mut files, mut packets) = (Vec::new(), Vec::new());
    let sort = |word: &String| {
        if Path::new(word).exists() {
            files.push(word.clone());
        } else {
            packets
                .push(bytes_of(word).ok_or(format!("{word}: there is no such file, and it is no packet in hexadecimal digits"))?);
        }
        Ok(())
    };
    every(words.iter().map(sort))?;
    Ok((files, packets))
}

/// One stake table, that of the most records, and one record a firm.
fn one_ring(handed: &[Handed]) -> Result<(), Vec<String>> {
    let mut tables: BTreeMap<&[u64], usize> = BTreeMap::new();
    handed.iter().for_each(|record| *tables.entry(&record.stakes).or_default() += 1);
    let common = tables.iter().max_by_key(|(_, &count)| count).map(|(&table, _)| table);
    let mut seated: BTreeMap<usize, &str> = BTreeMap::new();
    let seat = |record| {
        let Handed { name, own, stakes, .. }: &Handed = record;
        if Some(&stakes[..]) != common {
            return Err(format!("{name}: its stake table is not that of the other records; left out, its firm is silent"));
        }
        match own.and_then(|node| seated.insert(node.0, name).map(|other| (node, other))) {
            Some((node, other)) => Err(format!("{other} and {name} are both firm {}'s record: hand in the later one", node.0)),
            None => Ok(()),
        }
    };
    every(handed.iter().map(seat)).map(|_| ())
}

/// Writes to standard output, whole or with an error.
fn say(text: &str) -> Result<(), String> {
    let mut out = io::stdout().lock();
    out.write_all(text.as_bytes()).and_then(|()| out.flush()).map_err(|error| format!("standard output: {error}"))
}
