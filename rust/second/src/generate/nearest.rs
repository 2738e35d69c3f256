//! Requests `near`: the streams of a word as they are, with a few bits turned or many, between two words, or of no
//! word at all, and each refusal at its boundary.

use super::control::{enough, lend_own_streams, other_number, other_streams, too_few};
use super::crc::{bits, spoil};
use super::makers::Makers;
use super::write::{self, Words};
use crate::control::code;
use crate::random::Random;
use crate::words::OUTPUT_ROOM;

pub const NEAR: Makers = Makers {
    done: |random| {
        let asked = Asked::drawn(random);
        asked.words(random)
    },
    refused,
    large: &[
        |random| {
            let mut asked = Asked::drawn(random);
            // As many octets as three streams have, in two octets.
            let more = bits(65_536, random);
            asked.received.extend(more);
            asked.words(random)
        },
        |random| {
            // A length that words have again in one octet, and streams of just that length.
            let d = 32_768 + word_length(random);
            let asked = Asked {
                d: d as u64,
                received: bits(3 * d, random),
                length: OUTPUT_ROOM,
            };
            asked.words(random)
        },
    ],
};

/// What is asked for.
struct Asked {
    d: u64,
    received: Vec<u8>,
    length: usize,
}

impl Asked {
    fn drawn(random: &mut Random) -> Asked {
        let d = word_length(random);
        Asked::of(d, random)
    }

    fn of(d: usize, random: &mut Random) -> Asked {
        Asked {
            d: d as u64,
            received: received(d, random),
            length: enough(d, random),
        }
    }

    fn words(&self, random: &mut Random) -> Words {
        vec![
            write::number(self.d, random),
            write::bits(&self.received, random),
            write::count(self.length, random),
        ]
    }
}

/// A length that words have: one in fifty is over 12, where not all words are tried, and then often the most.
fn word_length(random: &mut Random) -> usize {
    if !random.one_in(50) {
        return 6 + random.below(7);
    }
    let any = 13 + random.below(116);
    random.pick(&[any, any, any, 128])
}

/// Three streams that may be received.
fn received(d: usize, random: &mut Random) -> Vec<u8> {
    match random.below(8) {
        0 => of_a_word(d, random),
        1 | 2 => with_some_turned(1 + random.below(4), d, random),
        3 => with_some_turned(5 + random.below(d), d, random),
        4 => with_one_stream_turned(d, random),
        5 => between_two_words(d, random),
        6 => (0..3 * d).map(|_| random.pick(&[0, 1])).collect(),
        // Mostly of one kind, or all of one.
        _ => bits(3 * d, random),
    }
}

/// The streams of a word of many kinds.
fn of_a_word(d: usize, random: &mut Random) -> Vec<u8> {
    coded(&bits(d, random))
}

fn coded(word: &[u8]) -> Vec<u8> {
    let mut streams = vec![0; 3 * word.len()];
    assert_eq!(code(word, &mut streams), Ok(streams.len()), "it is coded");
    streams
}

/// So many bits turned, wherever they stand; a place may be turned back again.
fn with_some_turned(count: usize, d: usize, random: &mut Random) -> Vec<u8> {
    let mut streams = of_a_word(d, random);
    for _ in 0..count {
        turn(&mut streams[random.below(3 * d)]);
    }
    streams
}

fn with_one_stream_turned(d: usize, random: &mut Random) -> Vec<u8> {
    let mut streams = of_a_word(d, random);
    let first = d * random.below(3);
    streams[first..first + d].iter_mut().for_each(turn);
    streams
}

fn turn(bit: &mut u8) {
    *bit = 1 - *bit;
}

/// Half of the places where the streams of two words differ are turned, so that both words are as near, or one by one
/// place. The words differ in two bits that stand close: in all but short words these are 16 places, and no two words
/// differ in fewer than 15, so that a third one is seldom nearer.
fn between_two_words(d: usize, random: &mut Random) -> Vec<u8> {
    let mut word = bits(d, random);
    let mut streams = coded(&word);
    let first = random.below(d);
    for place in [first, first + random.pick(&[1, 2])] {
        turn(&mut word[place % d]);
    }
    let other = coded(&word);
    let bits = streams.iter_mut().zip(other);
    let differing: Vec<&mut u8> = bits
        .filter(|(bit, other)| **bit != *other)
        .map(|pair| pair.0)
        .collect();
    turn_half(differing, random);
    streams
}

/// Turns half of the bits, any half being as likely as another.
fn turn_half(bits: Vec<&mut u8>, random: &mut Random) {
    let mut left = bits.len();
    let mut due = left / 2;
    for bit in bits {
        if random.below(left) < due {
            turn(bit);
            due -= 1;
        }
        left -= 1;
    }
}

/// One thing is wrong with the request, or two, so that the order of the numbers is compared.
fn refused(random: &mut Random) -> Words {
    let d = word_length(random);
    let mut asked = Asked::of(d, random);
    for fault in random.one_or_two(4) {
        match fault {
            0 => asked.d = other_number(d, random),
            1 => {
                let length = other_streams(d, random);
                asked.received = bits(length, random);
            }
            2 => asked.length = too_few(d, random),
            _ => spoil(&mut asked.received, 1, random),
        }
    }
    lend_own_streams(asked.d, &mut asked.received, random);
    asked.words(random)
}

#[cfg(test)]
mod tests;
