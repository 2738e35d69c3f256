//! Reads shelves and looks a record up (document 01, "Shelf and profile records").

use std::collections::BTreeMap;
use std::ops::Range;

use crate::numbers::{Number, NO_RECORD, PRIVATE_SHELF, PUBLIC_SHELF, TENANT_0};
use crate::octets::number_at;

pub const MOST_OCTETS: usize = 65_535;
pub const MOST_ENTRIES: usize = 64;

/// The tenant of every entry of a public shelf.
const PUBLIC: u16 = 0;

/// The two shelves, and what is looked for.
#[derive(Debug, PartialEq, Eq)]
pub struct Asked {
    pub private: Vec<u8>,
    pub public: Vec<u8>,
    pub tenant: u16,
    pub profile: u16,
}

/// Which shelf a record stands on.
#[derive(Clone, Copy, Debug, PartialEq, Eq)]
pub enum Side {
    Private,
    Public,
}

/// "that stretch of one shelf or the other".
#[derive(Clone, Debug, PartialEq, Eq)]
pub struct Found {
    pub side: Side,
    pub stretch: Range<usize>,
}

impl Asked {
    /// The octets of a stretch that was found.
    pub fn octets(&self, found: &Found) -> &[u8] {
        let octets = match found.side {
            Side::Private => &self.private,
            Side::Public => &self.public,
        };
        &octets[found.stretch.clone()]
    }
}

/// "n entries of tenant, profile number, offset, length".
#[derive(Clone, Copy, Debug, PartialEq, Eq)]
struct Entry {
    tenant: u16,
    profile: u16,
    offset: usize,
    length: usize,
}

/// "the tenant's own record, else the public record of that number", or 1 to 4.
pub fn lookup(asked: &Asked) -> Result<Found, Number> {
    if asked.tenant == PUBLIC {
        return Err(TENANT_0);
    }
    let private = entries(&asked.private, Side::Private).ok_or(PRIVATE_SHELF)?;
    let public = entries(&asked.public, Side::Public).ok_or(PUBLIC_SHELF)?;
    found(&private, asked.tenant, asked.profile, Side::Private)
        .or_else(|| found(&public, PUBLIC, asked.profile, Side::Public))
        .ok_or(NO_RECORD)
}

/// The stretch of the entry that has both numbers.
fn found(entries: &[Entry], tenant: u16, profile: u16, side: Side) -> Option<Found> {
    let entry = entries
        .iter()
        .find(|entry| entry.tenant == tenant && entry.profile == profile)?;
    Some(Found {
        side,
        stretch: entry.offset..entry.offset + entry.length,
    })
}

/// Records by tenant and profile number, in the order in which a shelf has them.
pub type Records = BTreeMap<(u16, u16), Vec<u8>>;

/// The records of a well-formed shelf.
pub fn records(shelf: &[u8], side: Side) -> Option<Records> {
    let record = |entry: Entry| {
        let octets = shelf[entry.offset..entry.offset + entry.length].to_vec();
        ((entry.tenant, entry.profile), octets)
    };
    Some(entries(shelf, side)?.into_iter().map(record).collect())
}

/// Whether a shelf is well formed.
pub fn is_well_formed(shelf: &[u8], side: Side) -> bool {
    entries(shelf, side).is_some()
}

/// The entries of a well-formed shelf.
fn entries(shelf: &[u8], side: Side) -> Option<Vec<Entry>> {
    let entries = read(shelf)?;
    // "A shelf is at most 65,535 octets."
    let well_formed = shelf.len() <= MOST_OCTETS
        && rise(&entries)
        && follow_one_another(&entries, shelf.len())
        && entries.iter().all(|entry| belongs(entry.tenant, side));
    well_formed.then_some(entries)
}

/// "a count n (0 to 64); then n entries".
fn read(shelf: &[u8]) -> Option<Vec<Entry>> {
    let count = usize::from(number_at(shelf, 0)?);
    if count > MOST_ENTRIES {
        return None;
    }
    (0..count)
        .map(|place| entry(shelf, 2 + 8 * place))
        .collect()
}

fn entry(shelf: &[u8], place: usize) -> Option<Entry> {
    Some(Entry {
        tenant: number_at(shelf, place)?,
        profile: number_at(shelf, place + 2)?,
        offset: usize::from(number_at(shelf, place + 4)?),
        length: usize::from(number_at(shelf, place + 6)?),
    })
}

/// "Pairs (tenant, profile number) strictly rise."
fn rise(entries: &[Entry]) -> bool {
    entries.windows(2).all(|pair| {
        let (left, right) = (pair[0], pair[1]);
        left.tenant < right.tenant || (left.tenant == right.tenant && left.profile < right.profile)
    })
}

/// "The first offset is 2 + 8n, each next offset is the end of the record before, and the shelf ends
/// with the last record (at 2 when n = 0)."
fn follow_one_another(entries: &[Entry], shelf_length: usize) -> bool {
    let starts = entries.iter().map(|entry| entry.offset);
    let ends = entries.iter().map(|entry| entry.offset + entry.length);
    // Where each record has to start, and at last where the shelf has to end.
    let due = std::iter::once(2 + 8 * entries.len()).chain(ends);
    due.eq(starts.chain([shelf_length]))
}

/// "Every tenant is 0 in a public shelf and 1 or more in a private one."
fn belongs(tenant: u16, side: Side) -> bool {
    match side {
        Side::Private => tenant >= 1,
        Side::Public => tenant == PUBLIC,
    }
}

#[cfg(test)]
mod tests;
