//! Rewrites what is stored in the old form of a record, with the header kb, m, t: "stored shelves are
//! rewritten once and the old form is no longer read" (document 02, CR 3).

mod edit;
mod lines;
mod record;
mod shelf;

use std::fs;
use std::io;
use std::path::Path;

use crate::shelf::{is_well_formed, Side, MOST_OCTETS};
use edit::apply;

/// What was done to a file.
#[derive(Debug, Default, PartialEq, Eq)]
struct Done {
    /// Records that were rewritten.
    records: usize,
    /// Lines in which one was, or none where the file is a shelf.
    lines: usize,
    /// What could not be rewritten, and why.
    left: Vec<String>,
}

/// Rewrites a shelf, or a text of requests. The new file is written whole or not at all, and what was done
/// is said.
pub fn rewrite(old: &Path, new: &Path) -> io::Result<String> {
    let octets = fs::read(old).map_err(|error| at(old, &error.to_string()))?;
    let (rewritten, done) = rewritten(&octets).map_err(|what| at(old, &what))?;
    // Written beside it first, since a file that is written over in its place could be left half done.
    let mut beside = new.as_os_str().to_owned();
    beside.push(".part");
    let written = fs::write(&beside, rewritten).and_then(|()| fs::rename(&beside, new));
    written.map_err(|error| {
        // It need not be there, and why it was not written is what is told.
        let _ = fs::remove_file(&beside);
        at(new, &error.to_string())
    })?;
    Ok(said(&done))
}

fn rewritten(octets: &[u8]) -> Result<(Vec<u8>, Done), String> {
    if is_well_formed(octets, Side::Private) || is_well_formed(octets, Side::Public) {
        return stored(octets);
    }
    // No request begins with this octet, and every shelf does.
    if octets.first() == Some(&0) {
        return Err("neither a private nor a public shelf, and no text".into());
    }
    lines::rewritten(octets)
}

/// A stored shelf.
fn stored(octets: &[u8]) -> Result<(Vec<u8>, Done), String> {
    let edits = shelf::edits(octets)?;
    let new = apply(octets, &edits.list);
    if new.len() > MOST_OCTETS {
        return Err(format!(
            "the shelf would have {} octets, and it may have {MOST_OCTETS}",
            new.len()
        ));
    }
    let done = Done {
        records: edits.records,
        lines: 0,
        left: edits.left,
    };
    Ok((new, done))
}

fn said(done: &Done) -> String {
    let counts = match done.lines {
        0 => format!("records rewritten: {}", done.records),
        lines => format!("records rewritten: {}, lines: {lines}", done.records),
    };
    let left = done.left.iter().map(String::as_str);
    let said: Vec<&str> = std::iter::once(&counts[..]).chain(left).collect();
    said.join("\n")
}

fn at(file: &Path, what: &str) -> io::Error {
    io::Error::other(format!("{}: {what}", file.display()))
}

#[cfg(test)]
mod tests;
