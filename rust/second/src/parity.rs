//! Codes a block and checks a word by the spread-out matrix (document 01, step 4; document 02, CR 3).

use std::ops::Range;

use crate::matrix::{Equations, Matrix, Row};
use crate::numbers::{Number, NO_BIT, OUTPUT, PARAMETER};
use crate::record::{profile, Entry, Profile, Table};

/// "Inside a code block a filler place is marked 2".
pub const FILLER: u8 = 2;

/// Codes one block of places alone: the count of places written, or 5, 6, 8, 11, 12.
pub fn encode(record: &[u8], z: u64, places: &[u8], output: &mut [u8]) -> Result<usize, Number> {
    let profile = profile(record)?;
    let table = table(&profile, z)?;
    if places.len() != profile.kb * table.z {
        return Err(PARAMETER);
    }
    let count = profile.columns() * table.z;
    if output.len() < count {
        return Err(OUTPUT);
    }
    if places.iter().any(|&place| place > FILLER) {
        return Err(NO_BIT);
    }
    let coded = Code::new(&profile, table.z).coded(places);
    output[..count].copy_from_slice(&coded);
    Ok(count)
}

/// Whether one word of single bits checks, or 5, 6, 8, 12.
pub fn check(record: &[u8], z: u64, word: &[u8]) -> Result<bool, Number> {
    let matrix = matrix_of(record, z, word)?;
    // "a word has (kb+m+x)·z bits", and it "checks when every row of the spread-out matrix sums to an even
    // number over it."
    Ok(row_sums(&matrix, word)?.iter().all(|&sum| sum == 0))
}

/// Writes what each row of the spread-out matrix sums to over one word of single bits, modulo two: the
/// count of rows, or 5, 6, 8, 11, 12.
pub fn sums(record: &[u8], z: u64, word: &[u8], output: &mut [u8]) -> Result<usize, Number> {
    let matrix = matrix_of(record, z, word)?;
    let count = matrix.rows.len();
    if output.len() < count {
        return Err(OUTPUT);
    }
    output[..count].copy_from_slice(&row_sums(&matrix, word)?);
    Ok(count)
}

/// The spread-out matrix for a word of its length, or 5, 6, 8.
fn matrix_of(record: &[u8], z: u64, word: &[u8]) -> Result<Matrix, Number> {
    let profile = profile(record)?;
    let table = table(&profile, z)?;
    let columns = profile.columns();
    if word.len() != columns * table.z {
        return Err(PARAMETER);
    }
    Ok(spread_out(table, 0..columns))
}

/// Each row's sum over a word of single bits, modulo two, or 12.
fn row_sums(matrix: &Matrix, word: &[u8]) -> Result<Vec<u8>, Number> {
    if word.iter().any(|&bit| bit > 1) {
        return Err(NO_BIT);
    }
    Ok(matrix.sums_over(&Row::of(word)))
}

/// The table of a z, or 8 for "a z ... that the profile does not give".
fn table(profile: &Profile, z: u64) -> Result<&Table, Number> {
    let z = usize::try_from(z).map_err(|_| PARAMETER)?;
    profile.table(z).ok_or(PARAMETER)
}

/// Some columns of a table spread out: "Shift s stands for the z by z matrix whose row i has its
/// one in column (i+s) mod z. Empty stands for zeros."
fn spread_out(table: &Table, columns: Range<usize>) -> Matrix {
    let z = table.z;
    let mut matrix = Matrix::zeros(table.rows.len() * z, columns.len() * z);
    for (upper, row) in table.rows.iter().enumerate() {
        for (left, entry) in row[columns.clone()].iter().enumerate() {
            if let Entry::Shift(shift) = entry {
                for i in 0..z {
                    matrix.rows[upper * z + i].flip(left * z + (i + shift) % z);
                }
            }
        }
    }
    matrix
}

/// What coding the blocks of one table needs, made once for all of them.
pub struct Code {
    systematic: Matrix,
    parity: Equations,
}

impl Code {
    /// The code of a z that the profile gives.
    pub fn new(profile: &Profile, z: usize) -> Code {
        let kb = profile.kb;
        let table = profile.table(z).expect("the profile gives this z");
        Code {
            systematic: spread_out(table, 0..kb),
            parity: Equations::new(&spread_out(table, kb..profile.columns())),
        }
    }

    /// "The coded block is K systematic places and then" (m+x)·z "parity bits. It must check with filler
    /// read as 0. Filler places stay marked." With an accepted profile some parity bits make it
    /// check.
    pub fn coded(&self, places: &[u8]) -> Vec<u8> {
        let read = |&place: &u8| if place == FILLER { 0 } else { place };
        let bits: Vec<u8> = places.iter().map(read).collect();
        // A row is even when the parity bits add to it what the systematic ones do.
        let sums = self.systematic.sums_over(&Row::of(&bits));
        let parity = self.parity.solve(&sums);
        [places, &parity].concat()
    }
}

#[cfg(test)]
mod tests;
