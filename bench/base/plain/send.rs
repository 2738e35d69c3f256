//! Sending a transport block: each code block is coded and written at once.

use super::checksum::{by_octets, of_block};
use super::judge::judge;
use super::matching::repeat;
use super::octets::unpack;
use super::parity::{Matrix, SUMS, WORD};
use crate::record::{accepted, Plan, Profile, Terms};

const BITS: usize = 8 * 2048 + 24;

pub fn send(record: &[u8], block: &[u8], terms: Terms, out: &mut [u8]) -> Result<(), u32> {
    let (profile, plan) = planned(record, block, terms, out.len())?;
    let mut bits = [0; BITS];
    carried(block, &mut bits[..plan.bits]);
    let matrix = Matrix::of(&profile, plan.index, plan.z);
    let (mut room, mut sums) = ([0; WORD], [0; SUMS]);
    let word = &mut room[..profile.coded(plan.z)];
    let (shares, from) = (plan.shares(terms), profile.start(plan.z, terms.rv));
    let mut start = 0;
    let mut at = 0;
    for r in 0..plan.blocks {
        let (own, share) = (plan.own(r), shares.of(r));
        lay(&bits[start..start + own], plan.sums, &mut word[..plan.places]);
        matrix.code(word, &mut sums);
        matched(word, own + plan.sums, plan.places, from, &mut out[at..at + share]);
        start += own;
        at += share;
    }
    Ok(())
}

/// The plan, or the first of 5 to 11, 16 and 19.
pub fn planned<'a>(record: &'a [u8], block: &[u8], terms: Terms, room: usize) -> Result<(Profile<'a>, Plan), u32> {
    judge(record)?;
    let profile = Profile::of(record);
    let plan = accepted(&profile, block.len(), terms)?;
    if room < terms.g {
        return Err(11);
    }
    Ok((profile, plan))
}

/// The block's bits and its checksum's.
fn carried(block: &[u8], bits: &mut [u8]) {
    let (body, sum) = bits.split_at_mut(8 * block.len());
    unpack(block, body);
    unpack(&by_octets(24, block).to_be_bytes()[1..], sum);
}

/// A block's own bits, their checksum where it has one, and filler behind them.
fn lay(own: &[u8], sums: usize, places: &mut [u8]) {
    let (front, rest) = places.split_at_mut(own.len());
    let (sum, filler) = rest.split_at_mut(sums);
    front.copy_from_slice(own);
    if sums > 0 {
        unpack(&of_block(own).to_be_bytes()[1..], sum);
    }
    filler.fill(2);
}

/// The filler lies in one stretch, so two runs behind the start and two before it are copied and then repeated.
fn matched(word: &[u8], carried: usize, places: usize, from: usize, out: &mut [u8]) {
    let (low, high) = (carried.min(from), places.max(from));
    let mut written = 0;
    for run in [&word[low..carried], &word[high..], &word[..low], &word[places..high]] {
        let more = run.len().min(out.len() - written);
        out[written..written + more].copy_from_slice(&run[..more]);
        written += more;
    }
    repeat(out, written);
}
