//! Requests `profile` and `plan`: records good and bad, editions, and lengths about the places where
//! the plan changes.

use super::makers::Makers;
use super::records::{bad, good, to_cut};
use super::write::{self, Words};
use crate::draft::Draft;
use crate::random::Random;

pub const PROFILE: Makers = Makers {
    done: |random| profile(&good(random).octets(), random),
    refused: |random| profile(&bad(random), random),
    large: &[],
};

pub const PLAN: Makers = Makers {
    done: |random| {
        let draft = to_cut(random);
        let ed = fitting_edition(&draft, random);
        let octets = fitting_octets(&draft, ed, random);
        plan(&draft.octets(), octets, ed, random)
    },
    refused: refused_plan,
    large: &[],
};

fn profile(record: &[u8], random: &mut Random) -> Words {
    vec![write::hex(record, random)]
}

fn plan(record: &[u8], octets: u64, ed: u64, random: &mut Random) -> Words {
    let mut words = vec![write::hex(record, random), write::number(octets, random)];
    words.extend(write::edition(ed, random));
    words
}

/// One thing is wrong, or two, so that the order of the numbers is compared.
fn refused_plan(random: &mut Random) -> Words {
    let draft = to_cut(random);
    let mut record = draft.octets();
    let mut ed = fitting_edition(&draft, random);
    let mut octets = fitting_octets(&draft, ed, random);
    for fault in random.one_or_two(7) {
        match fault {
            0..=2 => octets = other_octets(&draft, ed, random),
            3 => ed = other_edition(random),
            // With a Kmax up to 24 edition 2 is refused; with another the plan is mostly another one.
            4 => ed = 3 - ed.clamp(1, 2),
            _ => record = bad(random),
        }
    }
    plan(&record, octets, ed, random)
}

/// An edition in which the record takes some block: 2 for the most part, where its code blocks have room for their
/// checksum.
pub fn fitting_edition(draft: &Draft, random: &mut Random) -> u64 {
    if kmax(draft) > 24 && !random.one_in(4) {
        2
    } else {
        1
    }
}

/// One that there is not: just beside those that there are, equal to one of them in fewer places, or any.
pub fn other_edition(random: &mut Random) -> u64 {
    let wrapped = random.pick(&[1, 2]) | 1 << random.pick(&[2, 8, 16, 32, 63]);
    let any = random.next().max(3);
    random.pick(&[0, 0, 0, 3, 3, 3, wrapped, wrapped, u64::MAX, any])
}

fn kmax(draft: &Draft) -> u64 {
    let z = draft.sizes.iter().max().copied().unwrap_or(1);
    u64::from(draft.kb) * u64::from(z)
}

/// The most bits of so many code blocks that have K places each, in an edition; of one block it is enough that they
/// have room without a checksum.
fn most_bits(blocks: u64, k: u64, ed: u64) -> u64 {
    let sum = if ed == 2 { 24 } else { 0 };
    (blocks * k.saturating_sub(sum)).max(k)
}

/// The most octets that are cut into so many blocks.
pub fn most_octets(draft: &Draft, blocks: u64, ed: u64) -> u64 {
    most_bits(blocks, kmax(draft), ed).saturating_sub(24) / 8
}

/// A length that the record takes in an edition: often some few octets, else the most, any, or about where
/// a second block, one more block or a larger z is needed.
pub fn fitting_octets(draft: &Draft, ed: u64, random: &mut Random) -> u64 {
    let most = most_octets(draft, 64, ed).min(2048);
    if !random.one_in(3) {
        return (1 + random.next() % 6).min(most);
    }
    let k = u64::from(draft.kb) * u64::from(random.pick(&draft.sizes));
    let blocks = 1 + random.next() % 64;
    let full = most_bits(blocks, k, ed).saturating_sub(24) / 8;
    let single = most_octets(draft, 1, ed);
    let any = 1 + random.next() % most;
    let octets = random.pick(&[most, any, any, full, full + 1, single, single + 1]);
    octets.clamp(1, most)
}

/// A length that no block may have, or one that may be too long for this record in an edition.
pub fn other_octets(draft: &Draft, ed: u64, random: &mut Random) -> u64 {
    let most = most_octets(draft, 64, ed);
    let any = random.next();
    random.pick(&[
        0,
        most + 1,
        most + 1,
        most + 2,
        2048,
        2049,
        4096,
        u64::MAX,
        any,
    ])
}
