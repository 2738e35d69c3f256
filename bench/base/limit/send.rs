//! Sending from packed octets: a block's bits are spread once, its parity is put behind them, and runs are copied.

use super::bits::{bits_at, own_group, put, spread_octet};
use super::checksum::{by_eight_octets, of_packed_block};
use super::parity::Groups;
use crate::plain::parity::{Matrix, ROWS, WORD};
use crate::plain::send::planned;
use crate::record::Terms;

pub fn send(record: &[u8], block: &[u8], terms: Terms, out: &mut [u8]) -> Result<(), u32> {
    let (profile, plan) = planned(record, block, terms, out.len())?;
    let mut carried = [0; 2051 + 32];
    carry(block, &mut carried);
    let matrix = Matrix::of(&profile, plan.index, plan.z);
    let (shares, from) = (plan.shares(terms), profile.start(plan.z, terms.rv));
    let (mut sent, mut room) = ([0; WORD + 16], [0; ROWS]);
    let mut start = 0;
    let mut at = 0;
    for r in 0..plan.blocks {
        let (own, count, share) = (plan.own(r), plan.carried(r), shares.of(r));
        if count > own {
            lay(matrix, &with_sum(&carried, start, own), 0, count, &mut room, &mut sent);
        } else {
            lay(matrix, &carried, start, own, &mut room, &mut sent);
        }
        let (last, first) = sent[..count + matrix.rows * plan.z].split_at(kept(count, plan.places, from));
        put_round(first, last, &mut out[at..at + share]);
        start += own;
        at += share;
    }
    Ok(())
}

/// The unmarked places before a place.
pub fn kept(own: usize, places: usize, place: usize) -> usize {
    own.min(place) + place.saturating_sub(places)
}

/// Fills the output with both parts in turn.
fn put_round(first: &[u8], last: &[u8], out: &mut [u8]) {
    for round in out.chunks_mut(first.len() + last.len()) {
        let (front, back) = round.split_at_mut(first.len().min(round.len()));
        front.copy_from_slice(&first[..front.len()]);
        if !back.is_empty() {
            back.copy_from_slice(&last[..back.len()]);
        }
    }
}

/// The octets of the block and of its checksum, with room behind them to read words from.
fn carry(block: &[u8], octets: &mut [u8]) {
    let (body, rest) = octets.split_at_mut(block.len());
    body.copy_from_slice(block);
    rest[..3].copy_from_slice(&by_eight_octets(24, block).to_be_bytes()[1..]);
}

/// The octets of the widest block's places, with room behind them to read words from.
const PLACES: usize = 203 + 32;

/// One block's own bits from the first octet on, and their checksum behind them.
fn with_sum(carried: &[u8], start: usize, own: usize) -> [u8; PLACES] {
    let mut octets = [0; PLACES];
    for (eight, at) in octets.chunks_exact_mut(8).zip((0..own).step_by(64)) {
        let word = (bits_at(carried, start + at, 64.min(own - at)) >> 64) as u64;
        eight.copy_from_slice(&word.to_be_bytes());
    }
    let sum = (of_packed_block(carried, start, own) << 8) >> (own % 8);
    for (octet, more) in octets[own / 8..].iter_mut().zip(sum.to_be_bytes()) {
        *octet |= more;
    }
    octets
}

/// The unmarked places of one coded block.
fn lay(matrix: Matrix, carried: &[u8], start: usize, own: usize, room: &mut Groups, sent: &mut [u8]) {
    let z = matrix.z;
    let parity = matrix.parity(|j| own_group(carried, start, own, j * z, z), room);
    spread_from(carried, start, &mut sent[..own.next_multiple_of(8)]);
    for (i, &group) in parity.iter().enumerate() {
        put(&mut sent[own + i * z..], group, z);
    }
}

/// The bits from bit `start` on, an octet each.
fn spread_from(octets: &[u8], start: usize, out: &mut [u8]) {
    let shift = start % 8;
    for (eight, pair) in out.chunks_exact_mut(8).zip(octets[start / 8..].windows(2)) {
        let octet = (u16::from_be_bytes([pair[0], pair[1]]) >> (8 - shift)) as u8;
        eight.copy_from_slice(&spread_octet(octet));
    }
}
