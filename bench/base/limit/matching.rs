//! Rate matching by runs: 32 places with no mark among them are copied as a whole.

use crate::plain::matching::{accepted, repeat, FILLER};
use crate::record::start;

pub fn by_run(coded: &[u8], kind: usize, rv: usize, e: usize, out: &mut [u8]) -> Result<(), u32> {
    accepted(coded, kind, rv, e, out.len())?;
    let out = &mut out[..e];
    let mut written = 0;
    let (last, first) = coded.split_at(start(kind, rv, coded.len()));
    for part in [first, last] {
        for run in part.chunks(32) {
            written += put(run, &mut out[written..]);
        }
    }
    repeat(out, written);
    Ok(())
}

/// Writes the unmarked places of a run, as many as there is room for, and says how many.
fn put(run: &[u8], out: &mut [u8]) -> usize {
    if run.len() <= out.len() && !run.iter().fold(false, |any, &place| any | (place == FILLER)) {
        out[..run.len()].copy_from_slice(run);
        return run.len();
    }
    let mut places = out.iter_mut();
    let room = places.len();
    for (place, to) in run.iter().filter(|&&place| place != FILLER).zip(&mut places) {
        *to = *place;
    }
    room - places.len()
}
