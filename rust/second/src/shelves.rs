//! Makes shelves from texts that a person can read and edit.

mod text;

use std::fs;
use std::io;
use std::path::Path;

use crate::shelf::Side;

/// Each shelf's side, its text and the shelf that is made of it. The trial shelf is a public one of its own,
/// for a table that nobody stands for.
const SHELVES: [(Side, &str, &str); 3] = [
    (Side::Public, "public.txt", "public.shelf"),
    (Side::Private, "private.txt", "private.shelf"),
    (Side::Public, "trial.txt", "trial.shelf"),
];

/// Reads the texts in one folder and writes the shelves into another. Nothing is written before all the
/// texts have been read without a fault.
pub fn make(from: &Path, to: &Path) -> io::Result<()> {
    let mut made = Vec::new();
    for (side, text, shelf) in SHELVES {
        made.push((to.join(shelf), read(&from.join(text), side)?));
    }
    for (file, octets) in made {
        fs::write(&file, octets).map_err(|error| at(&file, &error.to_string()))?;
    }
    Ok(())
}

/// The octets of the shelf that a text describes.
fn read(file: &Path, side: Side) -> io::Result<Vec<u8>> {
    let text = fs::read_to_string(file).map_err(|error| at(file, &error.to_string()))?;
    text::shelf(&text, side).map_err(|fault| at(file, &fault.to_string()))
}

/// The octets of the shelf that a text from standard input describes.
pub fn pack(text: &str, side: Side) -> io::Result<Vec<u8>> {
    text::shelf(text, side).map_err(|fault| io::Error::other(fault.to_string()))
}

fn at(file: &Path, what: &str) -> io::Error {
    io::Error::other(format!("{}: {what}", file.display()))
}

#[cfg(test)]
mod tests;
