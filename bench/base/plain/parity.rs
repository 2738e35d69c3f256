//! Coding one block and checking one word: each group stands twice in a row, so that a rotated one is one run of it.

use super::judge::judge;
use super::octets::{all_zero, some_over, xor};
use crate::record::Profile;
use core::ops::Range;

/// The most rows of a table, the most places of a coded block, and the most of its sums.
pub const ROWS: usize = 40;
pub const WORD: usize = (20 + ROWS) * 81;
pub const SUMS: usize = ROWS * 81;

/// One table and its size.
#[derive(Clone, Copy)]
pub struct Matrix<'a> {
    pub table: &'a [u8],
    pub kb: usize,
    pub m: usize,
    pub rows: usize,
    pub columns: usize,
    pub z: usize,
}

impl<'a> Matrix<'a> {
    pub fn of(profile: &Profile<'a>, index: usize, z: usize) -> Self {
        let (kb, m, rows, columns) = (profile.kb, profile.m, profile.rows, profile.columns());
        Matrix { table: profile.table(index), kb, m, rows, columns, z }
    }

    /// Adds these columns to the sums of the rows from `top` on.
    fn add_columns(&self, columns: Range<usize>, top: usize, word: &[u8], sums: &mut [u8]) {
        let (z, mut twice) = (self.z, [0u8; 162]);
        let rows = &self.table[top * self.columns..];
        let sums = &mut sums[top * z..];
        for j in columns {
            doubled(&word[j * z..(j + 1) * z], &mut twice);
            for (sum, row) in sums.chunks_exact_mut(z).zip(rows.chunks_exact(self.columns)) {
                let shift = row[j] as usize;
                if shift != 255 {
                    xor(sum, &twice[shift..shift + z]);
                }
            }
        }
    }

    /// The sums of all rows over no column, in a room that is used again for each block.
    fn no_sums<'r>(&self, room: &'r mut [u8; SUMS]) -> &'r mut [u8] {
        let sums = &mut room[..self.rows * self.z];
        sums.fill(0);
        sums
    }

    /// Lays the parity behind the systematic places; a filler place counts as 0.
    pub fn code(&self, word: &mut [u8], room: &mut [u8; SUMS]) {
        let (kb, m, z) = (self.kb, self.m, self.z);
        let sums = self.no_sums(room);
        self.add_columns(0..kb, 0, word, sums);
        let mut room = [0; 81];
        let group = &mut room[..z];
        sums[..m * z].chunks_exact(z).for_each(|sum| xor(group, sum));
        word[kb * z..(kb + 1) * z].copy_from_slice(group);
        self.add_columns(kb..kb + 1, 0, word, sums);
        group.fill(0);
        let stairs = &mut word[(kb + 1) * z..(kb + m) * z];
        for (sum, out) in sums.chunks_exact(z).zip(stairs.chunks_exact_mut(z)) {
            xor(group, sum);
            out.copy_from_slice(group);
        }
        if self.rows > m {
            self.extend(word, sums);
        }
    }

    /// Lays the column of each row behind the staircase: its sum over all columns before.
    fn extend(&self, word: &mut [u8], sums: &mut [u8]) {
        let (kb, m, z) = (self.kb, self.m, self.z);
        self.add_columns(kb + 1..kb + m, m, word, sums);
        for row in m..self.rows {
            let own = kb + row;
            word[own * z..(own + 1) * z].copy_from_slice(&sums[row * z..(row + 1) * z]);
            self.add_columns(own..own + 1, row + 1, word, sums);
        }
    }

    pub fn checks(&self, word: &[u8], room: &mut [u8; SUMS]) -> bool {
        let sums = self.no_sums(room);
        self.add_columns(0..self.columns, 0, word, sums);
        all_zero(sums)
    }
}

fn doubled(group: &[u8], twice: &mut [u8]) {
    let (first, second) = twice.split_at_mut(group.len());
    for (to, &from) in first.iter_mut().zip(group) {
        *to = from & 1;
    }
    second[..group.len()].copy_from_slice(first);
}

pub fn code(record: &[u8], z: usize, places: &[u8], out: &mut [u8]) -> Result<(), u32> {
    judge(record)?;
    let profile = Profile::of(record);
    let matrix = Matrix::of(&profile, profile.index_of(z)?, z);
    let coded = profile.coded(z);
    block_accepted(&profile, z, places, out.len())?;
    let word = &mut out[..coded];
    word[..places.len()].copy_from_slice(places);
    matrix.code(word, &mut [0; SUMS]);
    Ok(())
}

/// 8, 11 and 12 of a block that is to be coded.
pub fn block_accepted(profile: &Profile, z: usize, places: &[u8], room: usize) -> Result<(), u32> {
    if places.len() != profile.kb * z {
        return Err(8);
    }
    if room < profile.coded(z) {
        return Err(11);
    }
    if some_over(2, places) {
        Err(12)
    } else {
        Ok(())
    }
}

pub fn check(record: &[u8], z: usize, word: &[u8]) -> Result<bool, u32> {
    judge(record)?;
    let profile = Profile::of(record);
    let matrix = Matrix::of(&profile, profile.index_of(z)?, z);
    word_accepted(&profile, z, word)?;
    Ok(matrix.checks(word, &mut [0; SUMS]))
}

/// 8 and 12 of a word that is to be checked.
pub fn word_accepted(profile: &Profile, z: usize, word: &[u8]) -> Result<(), u32> {
    if word.len() != profile.coded(z) {
        return Err(8);
    }
    if some_over(1, word) {
        Err(12)
    } else {
        Ok(())
    }
}
