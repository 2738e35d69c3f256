//! Reads the text of a shelf: records with their tables, one row to a line, and records that no call accepts,
//! octet by octet.
//!
//! Each fault names the line that has to be changed.

mod accepted;
mod refused;

use std::fmt::{self, Display, Formatter};
use std::ops::RangeInclusive;

use crate::draft::ShelfDraft;
use crate::shelf::{self, Side};
use crate::words;
use accepted::Accepted;
use refused::Refused;

/// What is wrong with a text, and in which line, counted from 1.
#[derive(Debug, PartialEq, Eq)]
pub struct Fault {
    pub line: usize,
    pub what: String,
}

impl Display for Fault {
    fn fmt(&self, formatter: &mut Formatter) -> fmt::Result {
        write!(formatter, "line {}: {}", self.line, self.what)
    }
}

struct Record {
    line: usize,
    tenant: u16,
    profile: u16,
    contents: Contents,
}

/// A record is written with its tables where it is accepted, else with its octets.
enum Contents {
    Accepted(Accepted),
    Refused(Refused),
}

/// The octets of the shelf that a text describes.
pub fn shelf(text: &str, side: Side) -> Result<Vec<u8>, Fault> {
    let mut records: Vec<Record> = Vec::new();
    for (line, words) in (1..).zip(text.lines().map(words_of)) {
        let done = match words[..] {
            [] => Ok(()),
            ["tenant", tenant, "profile", profile, "kb", kb, "m", m, "x", x, "type", coding] => {
                finish(&records)?;
                let accepted = || Accepted::new([kb, m, x, coding]).map(Contents::Accepted);
                record(line, [tenant, profile], accepted, side)
                    .and_then(|record| put(&mut records, record))
            }
            ["tenant", tenant, "profile", profile, "refused", number, "octets", count] => {
                finish(&records)?;
                let refused = || Refused::new(number, count).map(Contents::Refused);
                record(line, [tenant, profile], refused, side)
                    .and_then(|record| put(&mut records, record))
            }
            ["z", _] => {
                finish_table(&records)?;
                more(&mut records, line, &words)
            }
            _ => more(&mut records, line, &words),
        };
        done.map_err(|what| Fault { line, what })?;
    }
    finish(&records)?;
    of_records(&records)
}

/// The shelf of records that have been judged.
fn of_records(records: &[Record]) -> Result<Vec<u8>, Fault> {
    let octets: Vec<Vec<u8>> = records.iter().map(Record::octets).collect();
    let parts: Vec<(u16, u16, &[u8])> = records
        .iter()
        .zip(&octets)
        .map(|(record, octets)| (record.tenant, record.profile, &octets[..]))
        .collect();
    let octets = ShelfDraft::new(&parts).octets();
    match records.last() {
        Some(last) if octets.len() > shelf::MOST_OCTETS => Err(Fault {
            line: last.line,
            what: format!(
                "with this record the shelf has {} octets, and it may have {}",
                octets.len(),
                shelf::MOST_OCTETS
            ),
        }),
        _ => Ok(octets),
    }
}

/// The words of a line, without what stands behind `#`.
fn words_of(line: &str) -> Vec<&str> {
    let text = line.split_once('#').map_or(line, |(text, _)| text);
    text.split_whitespace().collect()
}

impl Record {
    fn octets(&self) -> Vec<u8> {
        match &self.contents {
            Contents::Accepted(accepted) => accepted.octets(),
            Contents::Refused(refused) => refused.octets().to_vec(),
        }
    }
}

/// A record's first line.
fn record(
    line: usize,
    [tenant, profile]: [&str; 2],
    contents: impl FnOnce() -> Result<Contents, String>,
    side: Side,
) -> Result<Record, String> {
    let tenants = match side {
        Side::Private => 1..=u16::MAX,
        Side::Public => 0..=0,
    };
    Ok(Record {
        line,
        tenant: number("the tenant", tenant, tenants)?,
        profile: number("the profile number", profile, 0..=u16::MAX)?,
        contents: contents()?,
    })
}

/// Puts a record behind the others.
fn put(records: &mut Vec<Record>, record: Record) -> Result<(), String> {
    if records.len() == shelf::MOST_ENTRIES {
        return Err(format!(
            "a shelf has at most {} records",
            shelf::MOST_ENTRIES
        ));
    }
    if let Some(before) = records.last() {
        if (record.tenant, record.profile) <= (before.tenant, before.profile) {
            return Err(format!(
                "tenant {} profile {} does not stand above tenant {} profile {} before it",
                record.tenant, record.profile, before.tenant, before.profile
            ));
        }
    }
    records.push(record);
    Ok(())
}

/// Any other line than a record's first: a table's first, a row of it, or octets.
fn more(records: &mut [Record], line: usize, words: &[&str]) -> Result<(), String> {
    let contents = records.last_mut().map(|record| &mut record.contents);
    match (contents, words) {
        (Some(Contents::Refused(refused)), _) => refused.more(words),
        (Some(Contents::Accepted(accepted)), ["z", z]) => accepted.begin(line, z),
        (None, ["z", _]) => Err("a table stands before the first record".to_string()),
        (contents, _) => {
            accepted::begins_row(words[0])?;
            match contents {
                Some(Contents::Accepted(accepted)) => accepted.row(words),
                _ => Err("a row stands before the first record".to_string()),
            }
        }
    }
}

fn number(name: &str, word: &str, range: RangeInclusive<u16>) -> Result<u16, String> {
    let (first, last) = (*range.start(), *range.end());
    match words::short(word.as_bytes()) {
        Ok(number) if range.contains(&number) => Ok(number),
        _ if first == last => Err(format!("{name} is `{word}`, and has to be {first}")),
        _ => Err(format!(
            "{name} is `{word}`, and has to be a number from {first} to {last}"
        )),
    }
}

/// Judges the last record, where there is one, before another begins or the text ends.
fn finish(records: &[Record]) -> Result<(), Fault> {
    finish_table(records)?;
    let Some(record) = records.last() else {
        return Ok(());
    };
    let judged = match &record.contents {
        Contents::Accepted(accepted) => accepted.finish(),
        Contents::Refused(refused) => refused.finish(),
    };
    let line = record.line;
    judged.map_err(|what| Fault { line, what })
}

/// Judges the last record's last table, where there is one.
fn finish_table(records: &[Record]) -> Result<(), Fault> {
    match records.last().map(|record| &record.contents) {
        Some(Contents::Accepted(accepted)) => accepted.finish_table(),
        _ => Ok(()),
    }
}
