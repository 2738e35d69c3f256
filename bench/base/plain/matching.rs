//! Rate matching of one coded block with marks anywhere: one pass that leaves the marked places out, then repetition.

use super::octets::some_over;
use crate::record::{misversioned, start};

pub const FILLER: u8 = 2;

pub fn by_place(coded: &[u8], kind: usize, rv: usize, e: usize, out: &mut [u8]) -> Result<(), u32> {
    accepted(coded, kind, rv, e, out.len())?;
    let out = &mut out[..e];
    let mut places = out.iter_mut();
    let (last, first) = coded.split_at(start(kind, rv, coded.len()));
    for part in [first, last] {
        for (place, to) in part.iter().filter(|&&place| place != FILLER).zip(&mut places) {
            *to = *place;
        }
    }
    let left = places.len();
    repeat(out, e - left);
    Ok(())
}

/// 5, 16, 8, 11 and 12.
pub fn accepted(coded: &[u8], kind: usize, rv: usize, e: usize, room: usize) -> Result<(), u32> {
    if !matches!(kind, 1 | 2) {
        return Err(5);
    }
    if misversioned(kind, rv) {
        return Err(16);
    }
    if e > 65536 || e > 0 && coded.iter().all(|&place| place == FILLER) {
        return Err(8);
    }
    if room < e {
        return Err(11);
    }
    if some_over(FILLER, coded) {
        return Err(12);
    }
    Ok(())
}

/// Fills the output with its first places again and again.
pub fn repeat(out: &mut [u8], period: usize) {
    if period == out.len() {
        return;
    }
    let (once, rest) = out.split_at_mut(period);
    for run in rest.chunks_mut(period) {
        run.copy_from_slice(&once[..run.len()]);
    }
}
