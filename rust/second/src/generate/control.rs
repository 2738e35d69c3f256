//! Requests `tbenc`, `tbrm`, `tbsend` and `tbback`: words with and without dummies, counts about so many times
//! round, copies that agree and that just do not, and each refusal at its boundary.

use super::crc::{bits, spoil};
use super::makers::Makers;
use super::write::{self, Words};
use crate::control::{code, rate};
use crate::random::Random;
use crate::words::OUTPUT_ROOM;

pub const TBENC: Makers = Makers {
    done: |random| {
        let word = word(random);
        let length = enough(3 * word.len(), random);
        coding(&word, length, random)
    },
    refused: refused_coding,
    large: &[|random| {
        let word = wrapped_word(random);
        coding(&word, OUTPUT_ROOM, random)
    }],
};

pub const TBRM: Makers = Makers {
    done: |random| {
        let matching = Matching::drawn(random);
        matching.words(random)
    },
    refused: refused_matching,
    large: &[
        |random| {
            let matching = Matching::drawn(random);
            matching.longest(65_536).words(random)
        },
        |random| {
            let matching = Matching::drawn(random);
            matching.longest(65_537).words(random)
        },
        |random| {
            let mut matching = Matching::drawn(random);
            // As many octets as three streams have, in two octets.
            let more = bits(65_536, random);
            matching.streams.extend(more);
            matching.words(random)
        },
    ],
};

pub const TBSEND: Makers = Makers {
    done: |random| {
        let word = word(random);
        let e = count(word.len(), random);
        let length = enough(e, random);
        sending(&word, e as u64, length, random)
    },
    refused: refused_sending,
    large: &[
        |random| {
            let word = word(random);
            sending(&word, 65_536, 65_536, random)
        },
        |random| {
            let word = wrapped_word(random);
            sending(&word, 100, 100, random)
        },
    ],
};

pub const TBBACK: Makers = Makers {
    done: |random| {
        let receiving = Receiving::drawn(random);
        receiving.words(random)
    },
    refused: refused_receiving,
    large: &[
        |random| Receiving::long(65_535, random).words(random),
        |random| Receiving::long(65_536, random).words(random),
        |random| Receiving::long(65_537, random).words(random),
        |random| Receiving::long(131_072, random).words(random),
        |random| {
            let mut receiving = Receiving::long(65_536, random);
            // The last copy alone differs.
            receiving.bits[65_535] ^= 1;
            receiving.words(random)
        },
    ],
};

/// Lengths that have one row less, no dummies, and one row more, and both bounds.
const EDGES: [usize; 13] = [6, 7, 31, 32, 33, 63, 64, 65, 95, 96, 97, 127, 128];

/// A length that words have.
fn word_length(random: &mut Random) -> usize {
    let any = 6 + random.below(123);
    let edge = random.pick(&EDGES);
    random.pick(&[any, edge])
}

/// A length that no word has: close to the bounds, or one that words have again in one octet.
fn other_length(random: &mut Random) -> usize {
    let near = random.pick(&[5, 5, 5, 4, 1, 0, 129, 129, 129, 130, 255, 256]);
    let wrapped = 256 + word_length(random);
    random.pick(&[near, near, near, wrapped])
}

/// The same of a number: also one that words have again in fewer places.
pub fn other_number(d: usize, random: &mut Random) -> u64 {
    let near = other_length(random) as u64;
    let wrapped = d as u64 + (1 << random.pick(&[8, 16, 31, 32, 63]));
    random.pick(&[near, near, near, wrapped, u64::MAX, u64::MAX / 3])
}

fn word(random: &mut Random) -> Vec<u8> {
    bits(word_length(random), random)
}

/// A word whose length is one that words have again in two octets.
fn wrapped_word(random: &mut Random) -> Vec<u8> {
    bits(65_536 + word_length(random), random)
}

fn is_word_length(d: usize) -> bool {
    (6..=128).contains(&d)
}

/// Three streams, of a word or any.
fn streams(d: usize, random: &mut Random) -> Vec<u8> {
    let any = bits(3 * d, random);
    if !is_word_length(d) || random.one_in(2) {
        return any;
    }
    let mut coded = any.clone();
    assert_eq!(code(&any[..d], &mut coded), Ok(3 * d), "a word is coded");
    coded
}

/// So many bits that three streams are sent as. Streams of a length that no word has are not matched, but they go
/// round as well.
fn sent(streams: &[u8], e: usize) -> Vec<u8> {
    let d = streams.len() / 3;
    let mut once = streams.to_vec();
    if is_word_length(d) {
        let matched = rate(d as u64, streams, once.len() as u64, &mut once);
        assert_eq!(matched, Ok(once.len()), "streams are matched");
    }
    once.into_iter().cycle().take(e).collect()
}

/// A count that is accepted: about the streams' ends, about once or twice round, any, or now and then the most.
fn count(d: usize, random: &mut Random) -> usize {
    if random.one_in(60) {
        return random.pick(&[65_535, 65_536, 65_536]);
    }
    let any = 1 + random.below(7 * d);
    let times = random.pick(&[1, 2, 3, 3, 4, 6]) * d;
    random.pick(&[1, 2, times - 1, times, times, times + 1, any, any])
}

/// A count that is none: 0, one over the most, or one that is accepted again in fewer places.
fn other_count(e: usize, random: &mut Random) -> u64 {
    let wrapped = e as u64 + (1 << random.pick(&[17, 31, 32, 63]));
    random.pick(&[0, 0, 65_537, 65_537, 65_538, 131_072, wrapped, u64::MAX])
}

/// An output that has just the room for so many bits, or more.
pub fn enough(exactly: usize, random: &mut Random) -> usize {
    random.pick(&[exactly, exactly, exactly + 1, exactly + 100, OUTPUT_ROOM])
}

/// An output that has one place too few, a third, none, or any of these counts.
pub fn too_few(exactly: usize, random: &mut Random) -> usize {
    let any = random.below(exactly.max(1));
    let short = exactly.saturating_sub(1);
    random.pick(&[short, short, exactly / 3, 0, any])
}

/// The length of an output that has room or, where that is what is wrong, has not.
fn output(exactly: usize, is_wrong: bool, random: &mut Random) -> usize {
    if is_wrong {
        too_few(exactly, random)
    } else {
        enough(exactly, random)
    }
}

fn coding(word: &[u8], length: usize, random: &mut Random) -> Words {
    vec![write::bits(word, random), write::count(length, random)]
}

/// One thing is wrong with the request, or two, so that the order of the numbers is compared.
fn refused_coding(random: &mut Random) -> Words {
    let faults = random.one_or_two(3);
    let word = refused_word(faults.contains(&0), faults.contains(&2), random);
    let length = output(3 * word.len(), faults.contains(&1), random);
    coding(&word, length, random)
}

/// A word of another length, with an octet over 1, or with both.
fn refused_word(other: bool, spoilt: bool, random: &mut Random) -> Vec<u8> {
    let length = if other {
        other_length(random)
    } else {
        word_length(random)
    };
    let mut word = bits(length, random);
    if spoilt {
        spoil(&mut word, 1, random);
    }
    word
}

fn sending(word: &[u8], e: u64, length: usize, random: &mut Random) -> Words {
    vec![
        write::bits(word, random),
        write::number(e, random),
        write::count(length, random),
    ]
}

/// One thing is wrong with the request, or two.
fn refused_sending(random: &mut Random) -> Words {
    let faults = random.one_or_two(4);
    let word = refused_word(faults.contains(&0), faults.contains(&3), random);
    let e = count(word.len().max(1), random);
    let length = output(e, faults.contains(&2), random);
    let e = if faults.contains(&1) {
        other_count(e, random)
    } else {
        e as u64
    };
    sending(&word, e, length, random)
}

/// What is matched.
struct Matching {
    d: u64,
    streams: Vec<u8>,
    e: u64,
    length: usize,
}

impl Matching {
    fn drawn(random: &mut Random) -> Matching {
        let d = word_length(random);
        let e = count(d, random);
        Matching::of(d, e, random)
    }

    fn of(d: usize, e: usize, random: &mut Random) -> Matching {
        Matching {
            d: d as u64,
            streams: streams(d, random),
            e: e as u64,
            length: enough(e, random),
        }
    }

    /// The same with another count, and an output that has room for any.
    fn longest(mut self, e: u64) -> Matching {
        self.e = e;
        self.length = OUTPUT_ROOM;
        self
    }

    fn words(&self, random: &mut Random) -> Words {
        vec![
            write::number(self.d, random),
            write::bits(&self.streams, random),
            write::number(self.e, random),
            write::count(self.length, random),
        ]
    }
}

/// One thing is wrong with the request, or two.
fn refused_matching(random: &mut Random) -> Words {
    let d = word_length(random);
    let e = count(d, random);
    let mut matching = Matching::of(d, e, random);
    for fault in random.one_or_two(5) {
        match fault {
            0 => matching.d = other_number(d, random),
            1 => matching.e = other_count(e, random),
            2 => {
                let length = other_streams(d, random);
                matching.streams = bits(length, random);
            }
            3 => matching.length = too_few(e, random),
            _ => spoil(&mut matching.streams, 1, random),
        }
    }
    lend_own_streams(matching.d, &mut matching.streams, random);
    matching.words(random)
}

/// Gives a D that no word has streams of its own, so that nothing else is wrong with them.
pub fn lend_own_streams(d: u64, streams: &mut Vec<u8>, random: &mut Random) {
    let own = usize::try_from(d).unwrap_or(usize::MAX);
    if own < 400 && !is_word_length(own) && random.one_in(2) {
        streams.resize(3 * own, 1);
    }
}

/// How many octets are no three streams: one less, one more, a word too few, too many, or none.
pub fn other_streams(d: usize, random: &mut Random) -> usize {
    let all = 3 * d;
    let near = random.pick(&[all - 1, all + 1, all - 3, all + 3]);
    random.pick(&[near, near, near, d, 2 * d, 4 * d, 0])
}

/// What is taken back.
struct Receiving {
    d: u64,
    bits: Vec<u8>,
    length: usize,
}

impl Receiving {
    fn drawn(random: &mut Random) -> Receiving {
        let d = word_length(random);
        let e = whole_count(d, random);
        Receiving::of(d, e, random)
    }

    /// So many bits as streams of this length are sent as, with room for the streams.
    fn of(d: usize, e: usize, random: &mut Random) -> Receiving {
        Receiving {
            d: d as u64,
            bits: sent(&streams(d, random), e),
            length: enough(3 * d, random),
        }
    }

    fn long(e: usize, random: &mut Random) -> Receiving {
        let d = word_length(random);
        Receiving::of(d, e, random)
    }

    fn words(&self, random: &mut Random) -> Words {
        vec![
            write::number(self.d, random),
            write::bits(&self.bits, random),
            write::count(self.length, random),
        ]
    }
}

/// A count that is enough for three streams: just, some more, twice or three times round, or now and then the
/// most.
fn whole_count(d: usize, random: &mut Random) -> usize {
    if random.one_in(300) {
        return random.pick(&[65_535, 65_536, 65_536]);
    }
    let once = 3 * d;
    let some = once + 1 + random.below(10);
    let any = once + random.below(2 * once);
    random.pick(&[once, once, once + 1, some, 4 * d, any, 2 * once, 3 * once])
}

/// What can be wrong with bits that are taken back, in the order of the numbers.
const LENGTH: usize = 0;
const COUNT: usize = 1;
const OUTPUT: usize = 2;
const OCTET: usize = 3;
const SHORT: usize = 4;
const COPIES: usize = 5;

/// One thing is wrong with the request, or two; or the bits are any, of which some are sent and some are not.
fn refused_receiving(random: &mut Random) -> Words {
    if random.one_in(8) {
        return any_received(random).words(random);
    }
    let faults = random.one_or_two(6);
    let is_wrong = |fault| faults.contains(&fault);
    let d = if is_wrong(LENGTH) {
        // A length of 0 has no bits; it is among the numbers below.
        other_length(random).max(1)
    } else {
        word_length(random)
    };
    let e = refused_count(d, &faults, random);
    let mut receiving = Receiving::of(d, e, random);
    if is_wrong(LENGTH) && random.one_in(3) {
        receiving.d = other_number(word_length(random), random);
    }
    if is_wrong(OUTPUT) {
        receiving.length = too_few(3 * d, random);
    }
    if is_wrong(COPIES) {
        part_copies(&mut receiving.bits, 3 * d, random);
    }
    if is_wrong(OCTET) && e > 0 {
        spoil(&mut receiving.bits, 1, random);
    }
    receiving.words(random)
}

/// As many bits as the faults ask for. Counts over the most make long lines and are therefore rare.
fn refused_count(d: usize, faults: &[usize], random: &mut Random) -> usize {
    let is_wrong = |fault| faults.contains(&fault);
    if is_wrong(COUNT) {
        // Where bits are to be wrong too there have to be some.
        let has_bits = is_wrong(OCTET) || is_wrong(COPIES);
        let is_over = random.one_in(if has_bits { 3 } else { 40 });
        return if is_over { over_the_most(d, random) } else { 0 };
    }
    if is_wrong(SHORT) {
        return short_count(d, random);
    }
    let copies = usize::from(is_wrong(COPIES));
    whole_count(d, random).max(3 * d + copies)
}

fn over_the_most(d: usize, random: &mut Random) -> usize {
    random.pick(&[65_537, 65_537, 65_538, 65_536 + 3 * d])
}

/// A count that is not enough for three streams, but some: one too few, one stream, two, or any.
fn short_count(d: usize, random: &mut Random) -> usize {
    let once = 3 * d;
    let any = 1 + random.below(once - 1);
    random.pick(&[once - 1, once - 1, once - 2, d, 2 * d, any])
}

/// Turns one bit that is a copy or has one: the first copy, the last, what these are of, or any copy. Where the
/// bits are too few for copies nothing is turned.
fn part_copies(bits: &mut [u8], once: usize, random: &mut Random) {
    if bits.len() <= once {
        return;
    }
    let last = bits.len() - 1;
    let any = once + random.below(bits.len() - once);
    let place = random.pick(&[once, last, 0, last - once, any]);
    bits[place] = 1 - bits[place];
}

/// Any bits, as many as three streams have or a few more.
fn any_received(random: &mut Random) -> Receiving {
    let d = word_length(random);
    let e = 3 * d + random.below(5);
    Receiving {
        d: d as u64,
        bits: bits(e, random),
        length: enough(3 * d, random),
    }
}

#[cfg(test)]
mod tests;
