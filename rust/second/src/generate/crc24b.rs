//! Well-formed `crc24b` requests: ones that are done, and ones that are refused with 12.

use super::crc::{message, spoil};
use super::makers::Makers;
use super::write::{self, Words};
use crate::checksum::{with_block_checksum, with_checksum};
use crate::random::Random;

pub const CRC24B: Makers = Makers {
    done: |random| {
        let bits = summed(random);
        request(&bits, random)
    },
    refused: |random| {
        let mut bits = summed(random);
        spoil(&mut bits, 1, random);
        request(&bits, random)
    },
    large: &[],
};

fn request(bits: &[u8], random: &mut Random) -> Words {
    vec![write::bits(bits, random)]
}

/// A message; or one with its checksum behind it, which leaves nothing, or with 24A there.
fn summed(random: &mut Random) -> Vec<u8> {
    let bits = message(random);
    match random.below(6) {
        0 => with_block_checksum(&bits),
        1 => with_checksum(&bits),
        _ => bits,
    }
}
