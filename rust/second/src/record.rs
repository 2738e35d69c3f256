//! Reads a profile record and judges it (document 01, "Shelf and profile records"; document 02, CR 3).

use std::ops::RangeInclusive;

use crate::numbers::{Number, RECORD, STAIRCASE};
use crate::octets::number_at;

/// What an accepted record says.
#[derive(Debug, PartialEq, Eq)]
pub struct Profile {
    pub kb: usize,
    /// The staircase rows of a table.
    pub m: usize,
    /// The extension rows behind them.
    pub x: usize,
    pub coding: Coding,
    pub tables: Vec<Table>,
}

/// The type of 5G.212, section 5.1.3.2.
#[derive(Clone, Copy, Debug, PartialEq, Eq)]
pub enum Coding {
    One,
    Two,
}

impl Profile {
    /// The entries of a table's row: "a table has m + x rows of kb+m+x entries".
    pub fn columns(&self) -> usize {
        self.kb + self.m + self.x
    }

    /// The table of a z, where there is one.
    pub fn table(&self, z: usize) -> Option<&Table> {
        self.tables.iter().find(|table| table.z == z)
    }
}

/// "a table has m + x rows of kb+m+x entries".
#[derive(Debug, PartialEq, Eq)]
pub struct Table {
    pub z: usize,
    pub rows: Vec<Vec<Entry>>,
}

/// "255 for empty, else a shift below its z".
#[derive(Clone, Copy, Debug, PartialEq, Eq)]
pub enum Entry {
    Empty,
    Shift(usize),
}

const EMPTY: u8 = 255;

/// "m + x at most 40".
const MOST_ROWS: usize = 40;

/// Where the pairs begin: behind "kb, m, x, type, t".
const PAIRS: usize = 10;

/// The profile of a record, or 5, or 6. The whole record is read before any staircase is judged,
/// so that a fault in the last table goes before a first table that is no staircase.
pub fn profile(record: &[u8]) -> Result<Profile, Number> {
    let profile = read(record).ok_or(RECORD)?;
    let staircases = profile
        .tables
        .iter()
        .all(|table| is_staircase(table, profile.kb, profile.m) && is_extended(table, &profile));
    if staircases {
        Ok(profile)
    } else {
        Err(STAIRCASE)
    }
}

/// Whether a record is well formed, whatever its tables are.
pub fn is_well_formed(record: &[u8]) -> bool {
    read(record).is_some()
}

/// The profile of a well-formed record, its staircases not yet judged.
fn read(record: &[u8]) -> Option<Profile> {
    let kb = number_in(record, 0, 1..=20)?;
    let m = number_in(record, 2, 3..=12)?;
    let x = number_in(record, 4, 0..=37)?;
    let coding = match number_in(record, 6, 1..=2)? {
        1 => Coding::One,
        _ => Coding::Two,
    };
    let t = number_in(record, 8, 1..=3)?;
    // "m + x at most 40"; "Type 1 requires ... x 0".
    if m + x > MOST_ROWS || (coding == Coding::One && x > 0) {
        return None;
    }
    let sizes = rising_sizes(record, t)?;
    let columns = kb + m + x;
    let table_length = (m + x) * columns;
    // "the first offset is 10 + 4t", and each next one is a table further.
    let offset = |place: usize| PAIRS + 4 * t + place * table_length;
    for place in 0..t {
        number_in(record, PAIRS + 2 + 4 * place, offset(place)..=offset(place))?;
    }
    // "the record ends with the last table".
    if record.len() != offset(t) {
        return None;
    }
    let tables = (0..t)
        .map(|place| {
            table(
                sizes[place],
                &record[offset(place)..offset(place + 1)],
                columns,
            )
        })
        .collect::<Option<Vec<Table>>>()?;
    Some(Profile {
        kb,
        m,
        x,
        coding,
        tables,
    })
}

/// The number at a place, where it is there and in its range.
fn number_in(record: &[u8], place: usize, range: RangeInclusive<usize>) -> Option<usize> {
    let number = usize::from(number_at(record, place)?);
    range.contains(&number).then_some(number)
}

/// "t pairs of z (1 to 81, strictly rising) and offset": each z.
fn rising_sizes(record: &[u8], t: usize) -> Option<Vec<usize>> {
    let sizes = (0..t)
        .map(|place| number_in(record, PAIRS + 4 * place, 1..=81))
        .collect::<Option<Vec<usize>>>()?;
    let rising = sizes.windows(2).all(|pair| pair[0] < pair[1]);
    rising.then_some(sizes)
}

fn table(z: usize, octets: &[u8], columns: usize) -> Option<Table> {
    let rows = octets
        .chunks(columns)
        .map(|row| row.iter().map(|&octet| entry(octet, z)).collect())
        .collect::<Option<Vec<Vec<Entry>>>>()?;
    Some(Table { z, rows })
}

fn entry(octet: u8, z: usize) -> Option<Entry> {
    match usize::from(octet) {
        _ if octet == EMPTY => Some(Entry::Empty),
        shift if shift < z => Some(Entry::Shift(shift)),
        _ => None,
    }
}

/// "The staircase rule now speaks of the first m rows only".
fn is_staircase(table: &Table, kb: usize, m: usize) -> bool {
    let filled = |column: usize| filled(&table.rows[..m], column);
    is_first_column(&filled(kb), m)
        // "Column kb+j, for j from 1 to m−1, holds 0 in rows j−1 and j and is empty elsewhere."
        && (1..m).all(|j| filled(kb + j) == [(j - 1, 0), (j, 0)])
}

/// "In extension row m+i, column kb+m+i holds 0, later columns are empty, earlier ones are free; staircase
/// rows are empty in all extension columns".
fn is_extended(table: &Table, profile: &Profile) -> bool {
    let (m, first) = (profile.m, profile.kb + profile.m);
    let is_empty = |entries: &[Entry]| entries.iter().all(|&entry| entry == Entry::Empty);
    let (staircase, extension) = table.rows.split_at(m);
    staircase.iter().all(|row| is_empty(&row[first..]))
        && extension
            .iter()
            .enumerate()
            .all(|(i, row)| row[first + i] == Entry::Shift(0) && is_empty(&row[first + i + 1..]))
}

/// "column kb is filled in row 0, row m−1 and exactly one row between. The two outer shifts are
/// equal and the middle one is 0."
fn is_first_column(filled: &[(usize, usize)], m: usize) -> bool {
    match *filled {
        [(first, upper), (_, middle), (last, lower)] => {
            first == 0 && last == m - 1 && upper == lower && middle == 0
        }
        _ => false,
    }
}

/// The filled rows of a column from top to bottom, each with its shift.
fn filled(rows: &[Vec<Entry>], column: usize) -> Vec<(usize, usize)> {
    let entries = rows.iter().map(|row| row[column]).enumerate();
    entries
        .filter_map(|(row, entry)| match entry {
            Entry::Empty => None,
            Entry::Shift(shift) => Some((row, shift)),
        })
        .collect()
}

#[cfg(test)]
mod tests;
