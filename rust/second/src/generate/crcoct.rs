//! Well-formed `crcoct` requests: ones that are done, and ones that are refused with 8.

use super::crc::{other_width, WIDTHS};
use super::makers::Makers;
use super::write::{self, Words};
use crate::random::Random;

pub const CRCOCT: Makers = Makers {
    done: |random| {
        let width = random.pick(&WIDTHS);
        request(width, random)
    },
    refused: |random| {
        let width = other_width(random);
        request(width, random)
    },
    large: &[],
};

fn request(width: u64, random: &mut Random) -> Words {
    let octets = octets(random);
    vec![write::number(width, random), write::hex(&octets, random)]
}

/// Octets of many lengths, any of them, or with a single bit each, so that an order of bits is seen.
fn octets(random: &mut Random) -> Vec<u8> {
    let length = match random.below(20) {
        0 => 0,
        1..=9 => 1 + random.below(9),
        10..=18 => random.below(100),
        _ => 500 + random.below(2000),
    };
    let single = random.one_in(4);
    let octet = |random: &mut Random| {
        if single {
            random.pick(&[0x00, 0x01, 0x02, 0x40, 0x80])
        } else {
            random.octet()
        }
    };
    (0..length).map(|_| octet(random)).collect()
}
