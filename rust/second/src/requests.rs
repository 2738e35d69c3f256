//! Reads a line as a request, or says why it is none (docs/REQUESTS.md).

use crate::errors::Fault;
use crate::form::Given;
use crate::kinds::{self, Kind};
use crate::lines::LINE_ROOM;

/// The kind of a line and what the line gives for its words, or none where it has no answer.
pub fn request(line: &[u8]) -> Result<Option<(&'static Kind, Given)>, Fault> {
    // A comment has no answer however long it is.
    if line.starts_with(b"#") {
        return Ok(None);
    }
    if line.len() > LINE_ROOM {
        return Err(Fault::Long);
    }
    let text = without_ending(line);
    if text.is_empty() {
        return Ok(None);
    }
    let words: Vec<&[u8]> = text.split(|&octet| octet == b' ').collect();
    let kind = kinds::named(words[0]).ok_or(Fault::Request)?;
    Ok(Some((kind, kind.form.read(&words[1..])?)))
}

/// What stands before ` #`, without the spaces at its end.
fn without_ending(line: &[u8]) -> &[u8] {
    let mut end = line
        .windows(2)
        .position(|pair| pair == b" #")
        .unwrap_or(line.len());
    while end > 0 && line[end - 1] == b' ' {
        end -= 1;
    }
    &line[..end]
}

#[cfg(test)]
mod tests;
