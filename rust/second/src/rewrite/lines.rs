//! Rewrites a text of requests: in each line its record or its shelves. Comments and all other words stay.

use super::edit::{apply_to_digits, Edits};
use super::{record, shelf, Done};
use crate::lines::LINE_ROOM;
use crate::words::{hex, SHELF_ROOM};

/// The kinds whose first word is a record, and those whose first two words are shelves.
const WITH_RECORD: [&str; 7] = ["profile", "plan", "encode", "check", "sums", "send", "recv"];
const WITH_SHELVES: [&str; 4] = ["lookup", "hsend", "hrecv", "hcheck"];

pub fn rewritten(text: &[u8]) -> Result<(Vec<u8>, Done), String> {
    let mut new = Vec::with_capacity(text.len());
    let mut done = Done::default();
    for (number, line) in (1..).zip(text.split_inclusive(|&octet| octet == b'\n')) {
        let told = |what: &String| format!("line {number}: {what}");
        let line = rewritten_line(line).map_err(|what| told(&what))?;
        done.records += line.records;
        done.lines += usize::from(line.records > 0);
        done.left.extend(line.left.iter().map(told));
        new.extend(line.text);
    }
    Ok((new, done))
}

/// A line after rewriting.
struct Line {
    text: Vec<u8>,
    records: usize,
    left: Vec<String>,
}

impl Line {
    /// The line as it was.
    fn kept(text: &[u8], left: Vec<String>) -> Line {
        Line {
            text: text.to_vec(),
            records: 0,
            left,
        }
    }
}

fn rewritten_line(line: &[u8]) -> Result<Line, String> {
    // Neither a comment nor a line that is over its length is a request.
    if line.starts_with(b"#") || without_newline(line) > LINE_ROOM {
        return Ok(Line::kept(line, Vec::new()));
    }
    let end = line.windows(2).position(|pair| pair == b" #");
    let (request, ending) = line.split_at(end.unwrap_or(without_newline(line)));
    let mut words: Vec<Vec<u8>> = request
        .split(|&octet| octet == b' ')
        .map(<[u8]>::to_vec)
        .collect();
    let mut new = Line::kept(&[], Vec::new());
    for (place, edits_of) in places(&words) {
        match rewritten_word(&words[place], edits_of)? {
            Ok((word, edits)) => {
                words[place] = word;
                new.records += edits.records;
                new.left.extend(edits.left);
            }
            Err(what) => return Ok(Line::kept(line, vec![what])),
        }
    }
    new.text = [&words.join(&b' ')[..], ending].concat();
    if without_newline(&new.text) > LINE_ROOM {
        let what = format!("it stays: it would be over {LINE_ROOM} octets");
        return Ok(Line::kept(line, vec![what]));
    }
    Ok(new)
}

fn without_newline(line: &[u8]) -> usize {
    line.strip_suffix(b"\n").unwrap_or(line).len()
}

type EditsOf = fn(&[u8]) -> Result<Edits, String>;

/// Where records and shelves stand. Words that are empty are not counted, so that a request with a space
/// too many is rewritten as any other.
fn places(words: &[Vec<u8>]) -> Vec<(usize, EditsOf)> {
    let named = |names: &[&str]| names.iter().any(|name| name.as_bytes() == words[0]);
    let full = (1..words.len()).filter(|&place| !words[place].is_empty());
    if named(&WITH_RECORD) {
        let of_record: EditsOf = |octets| record::edits(octets, 0);
        full.take(1).map(|place| (place, of_record)).collect()
    } else if named(&WITH_SHELVES) {
        let of_shelf: EditsOf = shelf::edits;
        full.take(2).map(|place| (place, of_shelf)).collect()
    } else {
        Vec::new()
    }
}

/// A word of packed octets and what was done to it, or why it stays. A word that is none has nothing done.
fn rewritten_word(
    word: &[u8],
    edits_of: EditsOf,
) -> Result<Result<(Vec<u8>, Edits), String>, String> {
    let Ok(octets) = hex(word, SHELF_ROOM) else {
        return Ok(Ok((word.to_vec(), Edits::default())));
    };
    let edits = edits_of(&octets)?;
    if edits.list.is_empty() {
        return Ok(Ok((word.to_vec(), edits)));
    }
    let new = apply_to_digits(word, &edits.list);
    if new.len() > 2 * SHELF_ROOM {
        return Ok(Err(format!(
            "it stays: a word would be over {SHELF_ROOM} octets"
        )));
    }
    Ok(Ok((new, edits)))
}
