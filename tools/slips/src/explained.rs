//! The file of slips that no computed case notices, each with the reason why that is right.
//!
//! A paragraph of lines that begin with `--` is a reason. Behind it a line at the margin names a file and a definition, and each
//! indented line a slip of it, word for word as the tool prints it.

use std::collections::BTreeMap;

/// A file, a definition and a slip's text.
pub type Key = (String, String, String);

pub struct Explained {
    /// With the line on which it stands, and whether a reason stands above it.
    pub entries: BTreeMap<Key, (usize, bool)>,
    pub twice: Vec<usize>,
}

impl Explained {
    pub fn read(text: &str) -> Explained {
        let mut explained = Explained { entries: BTreeMap::new(), twice: Vec::new() };
        let (mut reason, mut file, mut definition) = (false, "", "");
        for (i, line) in text.lines().enumerate() {
            if line.starts_with("--") {
                reason = true;
            } else if let Some(slip) = line.strip_prefix("    ") {
                let key = (file.to_string(), definition.to_string(), slip.to_string());
                if explained.entries.insert(key, (i + 1, reason)).is_some() {
                    explained.twice.push(i + 1);
                }
            } else if let Some((front, name)) = line.split_once(' ') {
                (file, definition) = (front, name);
            } else {
                reason = false;
            }
        }
        explained
    }
}
