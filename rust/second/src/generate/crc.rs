//! Well-formed `crc` requests: ones that are done, and ones that are refused with 8 or 12.

use super::makers::Makers;
use super::write::{self, Words};
use crate::random::Random;

pub const CRC: Makers = Makers {
    done,
    refused,
    large: &[],
};

pub const WIDTHS: [u64; 3] = [8, 16, 24];

fn done(random: &mut Random) -> Words {
    let width = random.pick(&WIDTHS);
    let bits = message(random);
    request(width, &bits, random)
}

fn refused(random: &mut Random) -> Words {
    let mut width = random.pick(&WIDTHS);
    let mut bits = message(random);
    let kind = random.below(3);
    if kind != 0 {
        spoil(&mut bits, 1, random);
    }
    if kind != 1 {
        width = other_width(random);
    }
    request(width, &bits, random)
}

fn request(width: u64, bits: &[u8], random: &mut Random) -> Words {
    vec![write::number(width, random), write::bits(bits, random)]
}

/// Single bits of many lengths.
pub fn message(random: &mut Random) -> Vec<u8> {
    let length = length(random);
    bits(length, random)
}

/// Single bits, even or mostly of one kind.
pub fn bits(length: usize, random: &mut Random) -> Vec<u8> {
    let choices: &[u8] = random.pick(&[
        &[0, 1][..],
        &[0, 1],
        &[0, 0, 0, 0, 0, 0, 0, 1],
        &[0, 1, 1, 1, 1, 1, 1, 1],
        &[0],
        &[1],
    ]);
    (0..length).map(|_| random.pick(choices)).collect()
}

fn length(random: &mut Random) -> usize {
    match random.below(20) {
        0 => 0,
        1..=9 => 1 + random.below(40),
        10..=18 => random.below(400),
        _ => 1000 + random.below(4000),
    }
}

/// Puts an octet over the highest that may stand there at the start, in the middle, at the end, or
/// anywhere.
pub fn spoil(bits: &mut Vec<u8>, highest: u8, random: &mut Random) {
    if bits.is_empty() {
        bits.push(1);
    }
    let last = bits.len() - 1;
    let anywhere = random.below(bits.len());
    let place = random.pick(&[0, last / 2, last.saturating_sub(1), last, anywhere]);
    let next = highest + 1;
    let any = random.octet().max(next);
    bits[place] = random.pick(&[next, next, next + 1, 9, 10, 0x11, 0x80, 0x81, 0xff, any]);
}

/// A width that is none of the three: close to them, or equal to one of them in fewer places.
pub fn other_width(random: &mut Random) -> u64 {
    let near = random.pick(&[0, 1, 7, 9, 15, 17, 23, 25, 32, 48]);
    let wrapped = (1 << random.pick(&[8, 16, 31, 32, 63])) + random.pick(&WIDTHS);
    let any = random.next().max(25);
    random.pick(&[near, near, near, wrapped, any, u64::MAX, u64::MAX - 7])
}
