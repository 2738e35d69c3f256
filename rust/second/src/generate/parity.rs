//! Requests `encode`, `check` and `sums`: blocks with and without marks, words that check and that just
//! do not, and each refusal at its boundary.

use super::crc::{bits, spoil};
use super::makers::Makers;
use super::records::{bad, good};
use super::write::{self, Words};
use crate::draft::Draft;
use crate::parity;
use crate::random::Random;

pub const ENCODE: Makers = Makers {
    done: |random| {
        let block = Block::drawn(random);
        let more = random.pick(&[0, 0, 1, 100]);
        writing(&block, block.coded + more, random)
    },
    refused: refused_encode,
    large: &[],
};

pub const CHECK: Makers = Makers {
    done: |random| {
        let word = word(random);
        check(&word, random)
    },
    refused: |random| {
        let word = refused_word(random);
        check(&word, random)
    },
    large: &[],
};

pub const SUMS: Makers = Makers {
    done: |random| {
        let word = word(random);
        let more = random.pick(&[0, 0, 1, 100]);
        writing(&word, word.rows + more, random)
    },
    refused: refused_sums,
    large: &[],
};

/// One block, or one word, with the record and the z that it is for.
pub struct Block {
    /// The record's parts, as they were drawn.
    pub draft: Draft,
    pub record: Vec<u8>,
    pub z: u64,
    pub places: Vec<u8>,
    /// How many places the coded block has.
    pub coded: usize,
    /// How many rows the spread-out matrix has.
    pub rows: usize,
}

impl Block {
    fn drawn(random: &mut Random) -> Block {
        let draft = good(random);
        let z = random.pick(&draft.sizes);
        let mut places = bits(usize::from(draft.kb * z), random);
        mark(&mut places, random);
        Block {
            record: draft.octets(),
            z: u64::from(z),
            places,
            coded: usize::from((draft.kb + draft.m + draft.x) * z),
            rows: usize::from((draft.m + draft.x) * z),
            draft,
        }
    }

    /// The words after the record, or after the shelves, that all these requests have.
    pub fn words(&self, random: &mut Random) -> Vec<Vec<u8>> {
        vec![
            write::number(self.z, random),
            write::bits(&self.places, random),
        ]
    }
}

/// Marks no place, those at the end, some, or all.
pub fn mark(places: &mut [u8], random: &mut Random) {
    let end = random.below(places.len() + 1);
    let rarity = random.pick(&[1, 2, 10]);
    match random.below(4) {
        0 => places[end..].fill(parity::FILLER),
        1 => {
            for place in places {
                if random.one_in(rarity) {
                    *place = parity::FILLER;
                }
            }
        }
        _ => {}
    }
}

/// The words of `encode` and `sums`.
fn writing(block: &Block, length: usize, random: &mut Random) -> Words {
    let mut words = vec![write::hex(&block.record, random)];
    words.extend(block.words(random));
    words.push(write::count(length, random));
    words
}

/// The words of `check`.
fn check(word: &Block, random: &mut Random) -> Words {
    let mut words = vec![write::hex(&word.record, random)];
    words.extend(word.words(random));
    words.extend(write::checker(random));
    words
}

/// A word that checks, one with one bit changed, or any bits.
pub fn word(random: &mut Random) -> Block {
    let mut block = Block::drawn(random);
    let mixed = random.one_in(2);
    for place in &mut block.places {
        // Groups of zeros or of ones alone tell no shift from another.
        if mixed {
            *place = random.pick(&[0, 1]);
        }
        *place %= parity::FILLER;
    }
    let mut word = vec![0; block.coded];
    let number = parity::encode(&block.record, block.z, &block.places, &mut word);
    assert_eq!(number, Ok(block.coded), "the record is accepted");
    let anywhere = random.below(word.len());
    let place = random.pick(&[0, block.places.len(), word.len() - 1, anywhere]);
    match random.below(4) {
        0..=1 => {}
        2 => word[place] = 1 - word[place],
        _ => word = bits(word.len(), random),
    }
    block.places = word;
    block
}

/// One thing is wrong with the request, or two, so that the order of the numbers is compared.
fn refused_encode(random: &mut Random) -> Words {
    let mut block = Block::drawn(random);
    let mut length = block.coded;
    for fault in random.one_or_two(5) {
        match fault {
            0 => block.record = bad(random),
            1 => other_z(&mut block, random),
            2 => other_length(&mut block, random),
            3 => spoil(&mut block.places, parity::FILLER, random),
            _ => length = random.pick(&[length - 1, 0, block.places.len()]),
        }
    }
    writing(&block, length, random)
}

/// A word of which one thing is wrong, or two.
pub fn refused_word(random: &mut Random) -> Block {
    let mut word = word(random);
    for fault in random.one_or_two(4) {
        spoil_word(&mut word, fault, random);
    }
    word
}

fn refused_sums(random: &mut Random) -> Words {
    let mut word = word(random);
    let mut length = word.rows;
    for fault in random.one_or_two(5) {
        match fault {
            4 => length = random.pick(&[length - 1, length - 1, 0]),
            _ => spoil_word(&mut word, fault, random),
        }
    }
    writing(&word, length, random)
}

/// One of the four things that may be wrong with a word.
fn spoil_word(word: &mut Block, fault: usize, random: &mut Random) {
    match fault {
        0 => word.record = bad(random),
        1 => other_z(word, random),
        2 => other_length(word, random),
        _ => spoil(&mut word.places, 1, random),
    }
}

/// A z close to the right one, or equal to it in fewer places. Now and then the places are as many
/// as go with it.
fn other_z(block: &mut Block, random: &mut Random) {
    let z = block.z;
    let wrapped = z + (1 << random.pick(&[8, 16, 32, 63]));
    let near = random.pick(&[z + 1, z - 1, 0, 82]);
    block.z = random.pick(&[near, near, near, wrapped, u64::MAX]);
    if near == block.z && random.one_in(2) {
        let group = block.places.len() / usize::try_from(z).expect("a z is small");
        let new = group * usize::try_from(near).expect("a z is small");
        block.places.resize(new, 0);
    }
}

/// One place too few or too many, or some other count.
fn other_length(block: &mut Block, random: &mut Random) {
    let length = block.places.len();
    let other = random.pick(&[
        length.saturating_sub(1),
        length + 1,
        0,
        block.coded + 1,
        2 * length,
    ]);
    block.places.resize(other, random.pick(&[0, 1]));
}

#[cfg(test)]
mod tests {
    use super::{word, Block};
    use crate::draft::{Draft, EMPTY};
    use crate::parity::{check, sums};
    use crate::random::Random;

    /// The record with every shift the other way round.
    fn mirrored(draft: &Draft) -> Vec<u8> {
        let mut draft = draft.clone();
        for (table, z) in draft.tables.iter_mut().zip(&draft.sizes) {
            let z = u8::try_from(*z).unwrap();
            let shifts = table.iter_mut().flatten().filter(|shift| **shift != EMPTY);
            shifts.for_each(|shift| *shift = (z - *shift) % z);
        }
        draft.octets()
    }

    fn sums_of(record: &[u8], word: &Block) -> Vec<u8> {
        let mut output = vec![0; word.rows];
        assert_eq!(
            sums(record, word.z, &word.places, &mut output),
            Ok(word.rows)
        );
        output
    }

    #[test]
    fn words_tell_a_shift_from_one_the_other_way_round() {
        // A slip of document 01: "place (i−s) for (i+s)". With z 1 and z 2 the two are the same, and so
        // they are over groups of equal bits. A word that does not check mostly checks neither way.
        let mut random = Random::new(1);
        let (mut checked, mut summed, mut over_3) = (0, 0, 0);
        for _ in 0..1000 {
            let word = word(&mut random);
            let other = mirrored(&word.draft);
            let checks = |record: &[u8]| check(record, word.z, &word.places).unwrap();
            let sums = |record: &[u8]| sums_of(record, &word);
            checked += usize::from(checks(&word.record) != checks(&other));
            summed += usize::from(sums(&word.record) != sums(&other));
            over_3 += usize::from(word.z > 3);
        }
        assert!(checked > 200, "{checked}");
        assert!(summed > 400, "{summed}");
        assert!(over_3 > 500, "{over_3}");
    }
}
