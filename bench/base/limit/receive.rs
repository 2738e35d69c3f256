//! Receiving with each block packed once; repetitions are compared by memcmp.

use super::bits::{bits_at, own_group, pack};
use super::checksum::{by_eight_octets, of_packed_block};
use super::parity::PACKED;
use super::send::kept;
use crate::plain::parity::{Matrix, ROWS, WORD};
use crate::plain::receive::planned;
use crate::record::{Plan, Profile, Terms};

pub fn receive(record: &[u8], a: usize, terms: Terms, bits: &[u8], out: &mut [u8]) -> Result<(), u32> {
    let (profile, plan, octets) = planned(record, a, terms, bits, out.len())?;
    let mut room = [0; 8 * 2048 + 24];
    let own = &mut room[..plan.bits];
    take_all(&profile, &plan, terms, bits, own)?;
    let mut room = [0; 2048 + 3];
    let block = &mut room[..octets + 3];
    pack(own, block);
    let (body, sum) = block.split_at(octets);
    if by_eight_octets(24, body).to_be_bytes()[1..] != *sum {
        return Err(14);
    }
    out[..octets].copy_from_slice(body);
    Ok(())
}

/// The own bits of all blocks, or 14.
fn take_all(profile: &Profile, plan: &Plan, terms: Terms, bits: &[u8], own: &mut [u8]) -> Result<(), u32> {
    let matrix = Matrix::of(profile, plan.index, plan.z);
    let (shares, from) = (plan.shares(terms), profile.start(plan.z, terms.rv));
    let (mut packed, mut room) = ([0; PACKED + 32], [0; ROWS]);
    let mut start = 0;
    let mut rest = bits;
    for r in 0..plan.blocks {
        let (count, carried) = (plan.own(r), plan.carried(r));
        let (sent, after) = rest.split_at(shares.of(r));
        rest = after;
        let (once, again) = sent.split_at(carried + matrix.rows * matrix.z);
        if again != &sent[..again.len()] {
            return Err(14);
        }
        take(once, kept(carried, plan.places, from), &mut packed, &mut own[start..start + count]);
        if !matrix.all_even(|j| group(matrix, &packed, carried, j), &mut room) {
            return Err(14);
        }
        if carried > count && of_packed_block(&packed, 0, carried) != 0 {
            return Err(14);
        }
        start += count;
    }
    Ok(())
}

/// Packs a block, and copies its own bits. The first places of the block come last, so many of them.
fn take(once: &[u8], turned: usize, packed: &mut [u8], own: &mut [u8]) {
    if turned > 0 {
        return take_turned(once, turned, packed, own);
    }
    pack(once, packed);
    own.copy_from_slice(&once[..own.len()]);
}

#[inline(never)]
fn take_turned(once: &[u8], turned: usize, packed: &mut [u8], own: &mut [u8]) {
    let mut room = [0; WORD];
    let line = &mut room[..once.len()];
    let (first, last) = once.split_at(once.len() - turned);
    line[..turned].copy_from_slice(last);
    line[turned..].copy_from_slice(first);
    take(line, 0, packed, own);
}

/// Group j of a block whose filler was left out.
fn group(matrix: Matrix, packed: &[u8], carried: usize, j: usize) -> u128 {
    let Matrix { kb, z, .. } = matrix;
    if j >= kb {
        bits_at(packed, carried + (j - kb) * z, z)
    } else {
        own_group(packed, 0, carried, j * z, z)
    }
}
