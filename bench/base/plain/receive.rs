//! Receiving: every repetition, every parity bit and every checksum are tested.

use super::checksum::{by_octets, of_block};
use super::judge::judge;
use super::octets::{pack, some_over};
use super::parity::{Matrix, SUMS, WORD};
use crate::record::{accepted, Plan, Profile, Terms};

const BITS: usize = 8 * 2048 + 24;

pub fn receive(record: &[u8], a: usize, terms: Terms, bits: &[u8], out: &mut [u8]) -> Result<(), u32> {
    let (profile, plan, octets) = planned(record, a, terms, bits, out.len())?;
    let mut room = [0; BITS];
    let own = &mut room[..plan.bits];
    take_all(&profile, &plan, terms, bits, own)?;
    let mut block = [0; 2048 + 3];
    pack(own, &mut block[..octets + 3]);
    attached(&block[..octets + 3], out)
}

/// The plan and the octets, or the first of 5 to 13, 16 and 19.
#[inline(always)]
pub fn planned<'a>(
    record: &'a [u8],
    a: usize,
    terms: Terms,
    bits: &[u8],
    room: usize,
) -> Result<(Profile<'a>, Plan, usize), u32> {
    judge(record)?;
    let profile = Profile::of(record);
    let octets = if a % 8 == 0 { a / 8 } else { 0 };
    let plan = accepted(&profile, octets, terms)?;
    if room < octets {
        return Err(11);
    }
    if some_over(1, bits) {
        return Err(12);
    }
    // Shares never rise, so the last block that carries the most bits is the first to be short, or the last of all is.
    let shares = plan.shares(terms);
    let short = |r: usize| shares.of(r) < plan.carried(r) + profile.rows * plan.z;
    if short((plan.bits - 1) % plan.blocks) || short(plan.blocks - 1) {
        return Err(13);
    }
    Ok((profile, plan, octets))
}

/// The own bits of all blocks, or 14.
fn take_all(profile: &Profile, plan: &Plan, terms: Terms, bits: &[u8], own: &mut [u8]) -> Result<(), u32> {
    let matrix = Matrix::of(profile, plan.index, plan.z);
    let (shares, from) = (plan.shares(terms), profile.start(plan.z, terms.rv));
    let (mut room, mut sums) = ([0; WORD], [0; SUMS]);
    let word = &mut room[..profile.coded(plan.z)];
    let mut start = 0;
    let mut rest = bits;
    for r in 0..plan.blocks {
        let (count, carried) = (plan.own(r), plan.carried(r));
        let (sent, after) = rest.split_at(shares.of(r));
        rest = after;
        if !repeats(sent, carried + word.len() - plan.places) {
            return Err(14);
        }
        lay(sent, carried, plan.places, from, word);
        if !matrix.checks(word, &mut sums) || carried > count && !summed(&word[..carried]) {
            return Err(14);
        }
        own[start..start + count].copy_from_slice(&word[..count]);
        start += count;
    }
    Ok(())
}

/// Whether a block's bits end in the checksum of those before it: then, and only then, the sum over all of them is 0.
fn summed(carried: &[u8]) -> bool {
    of_block(carried) == 0
}

fn repeats(sent: &[u8], period: usize) -> bool {
    sent[period..] == sent[..sent.len() - period]
}

/// The word that was sent from this place on, with its filler again.
fn lay(sent: &[u8], carried: usize, places: usize, from: usize, word: &mut [u8]) {
    let (low, high) = (carried.min(from), places.max(from));
    let mut rest = sent;
    for run in [low..carried, high..word.len(), 0..low, places..high] {
        let (first, after) = rest.split_at(run.len());
        word[run].copy_from_slice(first);
        rest = after;
    }
    word[carried..places].fill(2);
}

/// Writes the block where its checksum is the attached one.
pub fn attached(block: &[u8], out: &mut [u8]) -> Result<(), u32> {
    let (body, sum) = block.split_at(block.len() - 3);
    if by_octets(24, body).to_be_bytes()[1..] != *sum {
        return Err(14);
    }
    out[..body.len()].copy_from_slice(body);
    Ok(())
}
