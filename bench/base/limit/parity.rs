//! Coding and checking with a group of up to 81 bits in the highest places of one u128.

use super::bits::{bits_at, pack, put, top};
use crate::plain::judge::judge;
use crate::plain::parity::{block_accepted, word_accepted, Matrix, ROWS, WORD};
use crate::record::Profile;

/// The octets of the longest word.
pub const PACKED: usize = WORD.div_ceil(8);

/// Room for the sums of all rows, or for the parity groups.
pub type Groups = [u128; ROWS];

impl Matrix<'_> {
    /// Adds column j to the sums of the rows from `top` on.
    #[inline(always)]
    fn add(&self, j: usize, group: u128, top: usize, sums: &mut [u128]) {
        let rows = self.table[top * self.columns..].chunks_exact(self.columns);
        for (sum, row) in sums[top..].iter_mut().zip(rows) {
            let shift = row[j] as usize;
            if shift != 255 {
                *sum ^= (group << shift) | (group >> (self.z - shift));
            }
        }
    }

    /// The sums of all rows over the first columns, whose groups `group` gives.
    fn sums<'r>(&self, columns: usize, group: impl Fn(usize) -> u128, room: &'r mut Groups) -> &'r mut [u128] {
        let sums = &mut room[..self.rows];
        sums.fill(0);
        for j in 0..columns {
            self.add(j, group(j), 0, sums);
        }
        sums
    }

    /// The parity groups of the systematic groups that `group` gives; each takes the place of its row's sum.
    pub fn parity<'r>(&self, group: impl Fn(usize) -> u128, room: &'r mut Groups) -> &'r [u128] {
        let sums = self.sums(self.kb, group, room);
        let mut next = sums[..self.m].iter().fold(0, |all, &sum| all ^ sum) & top(self.z);
        self.add(self.kb, next, 0, sums);
        let mut stair = 0;
        for sum in &mut sums[..self.m] {
            stair ^= *sum;
            *sum = next;
            next = stair & top(self.z);
        }
        if self.rows > self.m {
            self.extend_groups(sums);
        }
        sums
    }

    /// The groups of the rows behind the staircase: each is its row's sum over all columns before.
    fn extend_groups(&self, sums: &mut [u128]) {
        for k in 1..self.m {
            self.add(self.kb + k, sums[k], self.m, sums);
        }
        for k in self.m..self.rows {
            sums[k] &= top(self.z);
            self.add(self.kb + k, sums[k], k + 1, sums);
        }
    }

    /// Whether a word of the groups that `group` gives checks.
    pub fn all_even(&self, group: impl Fn(usize) -> u128, room: &mut Groups) -> bool {
        let sums = self.sums(self.columns, group, room);
        sums.iter().fold(0, |any, &sum| any | sum) & top(self.z) == 0
    }
}

pub fn code(record: &[u8], z: usize, places: &[u8], out: &mut [u8]) -> Result<(), u32> {
    judge(record)?;
    let profile = Profile::of(record);
    let matrix = Matrix::of(&profile, profile.index_of(z)?, z);
    block_accepted(&profile, z, places, out.len())?;
    let mut packed = [0; 203 + 16];
    pack_places(places, &mut packed);
    let mut room = [0; ROWS];
    let parity = matrix.parity(|j| bits_at(&packed, j * z, z), &mut room);
    let (systematic, rest) = out[..profile.coded(z)].split_at_mut(places.len());
    systematic.copy_from_slice(places);
    let mut spread = [0; 88];
    for (out, &group) in rest.chunks_exact_mut(z).zip(parity) {
        put(&mut spread, group, z);
        out.copy_from_slice(&spread[..z]);
    }
    Ok(())
}

/// A filler place counts as 0.
fn pack_places(places: &[u8], packed: &mut [u8]) {
    let mut bits = [0; 20 * 81];
    for (bit, &place) in bits.iter_mut().zip(places) {
        *bit = place & 1;
    }
    pack(&bits[..places.len()], packed);
}

pub fn check(record: &[u8], z: usize, word: &[u8]) -> Result<bool, u32> {
    judge(record)?;
    let profile = Profile::of(record);
    let matrix = Matrix::of(&profile, profile.index_of(z)?, z);
    word_accepted(&profile, z, word)?;
    let mut packed = [0; PACKED + 16];
    pack(word, &mut packed);
    Ok(matrix.all_even(|j| bits_at(&packed, j * z, z), &mut [0; ROWS]))
}
