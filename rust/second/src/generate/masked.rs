//! Requests `crcm`, `crcappend` and `crctest`: masks below, about and past the width, words that are
//! appended under the mask and that just are not, and each refusal at its boundary.

use super::crc::{bits, message, other_width, spoil, WIDTHS};
use super::makers::Makers;
use super::write::{self, Words};
use crate::masked::append;
use crate::random::Random;
use crate::words::{BITS_ROOM, OUTPUT_ROOM};

pub const CRCM: Makers = Makers {
    done: |random| {
        let asked = Asked::drawn(random);
        asked.words(random)
    },
    refused: |random| {
        let asked = Asked::drawn(random);
        refused(asked, random)
    },
    large: &[],
};

pub const CRCAPPEND: Makers = Makers {
    done: |random| {
        let asked = Asked::drawn(random);
        let length = enough(&asked, random);
        appending(&asked, length, random)
    },
    refused: refused_append,
    large: &[
        |random| {
            let asked = Asked::filling(OUTPUT_ROOM, random);
            appending(&asked, OUTPUT_ROOM, random)
        },
        |random| {
            let asked = Asked::filling(OUTPUT_ROOM + 1, random);
            appending(&asked, OUTPUT_ROOM, random)
        },
    ],
};

pub const CRCTEST: Makers = Makers {
    done: |random| {
        let asked = word(random);
        asked.words(random)
    },
    refused: |random| {
        let asked = word(random);
        refused(asked, random)
    },
    large: &[
        |random| {
            let asked = Asked::filling(BITS_ROOM, random).appended();
            asked.words(random)
        },
        |random| {
            let asked = Asked::filling(BITS_ROOM, random).appended();
            turned(asked, random).words(random)
        },
    ],
};

/// What the three kinds have in common. The bits are a message, or a whole word to be tested.
struct Asked {
    width: u64,
    mask: u64,
    bits: Vec<u8>,
}

impl Asked {
    /// A message.
    fn drawn(random: &mut Random) -> Asked {
        let width = random.pick(&WIDTHS);
        Asked {
            width,
            mask: mask(width, random),
            bits: message(random),
        }
    }

    /// A message that has so many places together with its checksum.
    fn filling(count: usize, random: &mut Random) -> Asked {
        let mut asked = Asked::drawn(random);
        asked.bits = bits(count - asked.places(), random);
        asked
    }

    /// The places of the checksum; the width is one of the three.
    fn places(&self) -> usize {
        usize::try_from(self.width).expect("a width is small")
    }

    /// The word of a message.
    fn appended(mut self) -> Asked {
        let mut word = vec![0; self.bits.len() + self.places()];
        let number = append(self.width, self.mask, &self.bits, &mut word);
        assert_eq!(number, Ok(word.len()), "the message is accepted");
        self.bits = word;
        self
    }

    /// The word that a message has under another mask.
    fn appended_under(mut self, other: u64) -> Asked {
        let mask = self.mask;
        self.mask = other;
        let mut word = self.appended();
        word.mask = mask;
        word
    }

    fn words(&self, random: &mut Random) -> Words {
        vec![
            write::number(self.width, random),
            write::mask(self.mask, random),
            write::bits(&self.bits, random),
        ]
    }
}

/// None, one that shows the order of bits, one about the edge of the width or past it, or any.
fn mask(width: u64, random: &mut Random) -> u64 {
    let over = 1 << width;
    let any = random.next();
    let below = any % over;
    let small = random.pick(&[1, 1, 2, 3]);
    let known = random.pick(&[0x5555, 0xaaaa, 0xffff]);
    let edge = random.pick(&[over / 2, over - 1, over, over + 1, over + below]);
    random.pick(&[0, small, known, edge, edge, below, below, any, u64::MAX])
}

/// A word to be tested: half of them are appended under the very mask.
fn word(random: &mut Random) -> Asked {
    let asked = Asked::drawn(random);
    match random.below(20) {
        0..=9 => asked.appended(),
        10..=12 => under_an_agreeing_mask(asked, random),
        13..=14 => under_another_mask(asked, random),
        15..=16 => turned(asked.appended(), random),
        17 => asked.appended_under(0),
        18 => short(asked, random),
        _ => asked,
    }
}

/// The word of a mask that differs past the width only.
fn under_an_agreeing_mask(asked: Asked, random: &mut Random) -> Asked {
    let place = asked.places() + random.below(64 - asked.places());
    let any = random.next() >> asked.width << asked.width;
    let other = asked.mask ^ random.pick(&[1 << place, 1 << asked.width, any]);
    asked.appended_under(other)
}

/// The word of a mask that differs within the width: in one place, in some, or in all.
fn under_another_mask(asked: Asked, random: &mut Random) -> Asked {
    let all = (1 << asked.width) - 1;
    let one = 1 << random.below(asked.places());
    let some = 1 + random.next() % all;
    let other = asked.mask ^ random.pick(&[one, one, some, all]);
    asked.appended_under(other)
}

/// One bit turned: the first, the last, the last in front of the checksum, the first of it, or any.
fn turned(mut word: Asked, random: &mut Random) -> Asked {
    let length = word.bits.len();
    let start = length - word.places();
    let anywhere = random.below(length);
    let in_front = random.below(start.max(1));
    let behind = start + random.below(word.places());
    let place = random.pick(&[
        0,
        length - 1,
        start.saturating_sub(1),
        start,
        anywhere,
        in_front,
        behind,
    ]);
    word.bits[place] = 1 - word.bits[place];
    word
}

/// A word that has at most the places of the checksum: any bits, or the last digits of the mask, which
/// read as a number are the mask again where those dropped are zeros.
fn short(mut asked: Asked, random: &mut Random) -> Asked {
    let length = random.below(asked.places() + 1);
    if random.one_in(2) {
        asked.bits = bits(length, random);
        return asked;
    }
    asked.bits.clear();
    let mut word = asked.appended();
    word.bits.drain(..length);
    word
}

/// The width or an octet is wrong, or both, so that the order of the numbers is compared.
fn refused(mut asked: Asked, random: &mut Random) -> Words {
    for fault in random.one_or_two(2) {
        match fault {
            0 => asked.width = other_width(random),
            _ => spoil(&mut asked.bits, 1, random),
        }
    }
    asked.words(random)
}

fn appending(asked: &Asked, length: usize, random: &mut Random) -> Words {
    let mut words = asked.words(random);
    words.push(write::count(length, random));
    words
}

/// An output that has just the room for a message and its checksum, or more.
fn enough(asked: &Asked, random: &mut Random) -> usize {
    let exactly = asked.bits.len() + asked.places();
    random.pick(&[exactly, exactly, exactly + 1, exactly + 100, OUTPUT_ROOM])
}

/// One thing is wrong with the request, or two.
fn refused_append(random: &mut Random) -> Words {
    let mut asked = Asked::drawn(random);
    let faults = random.one_or_two(3);
    if faults.contains(&0) {
        spoil(&mut asked.bits, 1, random);
    }
    let mut length = enough(&asked, random);
    if faults.contains(&1) {
        length = too_few(&asked, random);
    }
    if faults.contains(&2) {
        asked.width = other_width(random);
    }
    appending(&asked, length, random)
}

/// An output that has one place too few, none for the checksum, none at all, or any of these counts.
fn too_few(asked: &Asked, random: &mut Random) -> usize {
    let exactly = asked.bits.len() + asked.places();
    let any = random.below(exactly);
    random.pick(&[exactly - 1, exactly - 1, asked.bits.len(), 0, any])
}

#[cfg(test)]
mod tests {
    use super::{
        mask, short, turned, under_an_agreeing_mask, under_another_mask, Asked, Words, WIDTHS,
    };
    use crate::answer::answer;
    use crate::generate::write;
    use crate::kinds::named;
    use crate::masked::is_appended;
    use crate::random::Random;

    const NAMES: [&str; 3] = ["crcm", "crcappend", "crctest"];

    fn tests(word: &Asked) -> bool {
        is_appended(word.width, word.mask, &word.bits).unwrap()
    }

    fn is_done(words: &Words) -> bool {
        let text = answer(&write::line(words)).unwrap();
        assert!(!text.starts_with("error"));
        text.starts_with("0 ")
    }

    #[test]
    fn words_are_what_they_are_made_for() {
        let random = &mut Random::new(1);
        for _ in 0..1000 {
            let [own, agreeing, other, changed, plain] =
                std::array::from_fn(|_| Asked::drawn(random));
            assert!(tests(&own.appended()));
            assert!(tests(&under_an_agreeing_mask(agreeing, random)));
            assert!(!tests(&under_another_mask(other, random)));
            assert!(!tests(&turned(changed.appended(), random)));
            let masked = plain.mask % (1 << plain.width) != 0;
            assert_eq!(tests(&plain.appended_under(0)), !masked);
        }
    }

    #[test]
    fn short_words_have_every_length_up_to_the_checksum() {
        let random = &mut Random::new(2);
        for width in WIDTHS {
            let mut lengths: Vec<u64> = (0..1000)
                .map(|_| {
                    let asked = Asked {
                        width,
                        ..Asked::drawn(random)
                    };
                    short(asked, random).bits.len() as u64
                })
                .collect();
            lengths.sort_unstable();
            lengths.dedup();
            assert_eq!(lengths, (0..=width).collect::<Vec<u64>>());
        }
    }

    #[test]
    fn masks_of_every_sort_are_drawn() {
        let random = &mut Random::new(3);
        for width in WIDTHS {
            let over = 1 << width;
            let drawn: Vec<u64> = (0..1000).map(|_| mask(width, random)).collect();
            for mask in [
                0,
                1,
                2,
                3,
                0x5555,
                0xaaaa,
                0xffff,
                over / 2,
                over - 1,
                over,
                over + 1,
                u64::MAX,
            ] {
                assert!(drawn.contains(&mask), "{width} {mask:x}");
            }
            let past = drawn.iter().filter(|&&mask| mask >= over).count();
            assert!((300..700).contains(&past), "{width} {past}");
        }
    }

    #[test]
    fn requests_are_done_or_refused_as_they_are_made_for() {
        let random = &mut Random::new(4);
        for name in NAMES {
            let kind = named(name.as_bytes()).unwrap();
            for _ in 0..1000 {
                assert!(is_done(&kind.done(random)), "{name}");
                assert!(!is_done(&kind.refused(random)), "{name}");
            }
        }
    }

    #[test]
    fn the_longest_requests_are_just_done_or_just_not() {
        let random = &mut Random::new(5);
        let mut answers = |name: &str| -> Vec<String> {
            let kind = named(name.as_bytes()).unwrap();
            let lines = kind.makers.large.iter();
            let lines = lines.map(|&make| write::line(&kind.request(make, random)));
            lines.map(|line| answer(&line).unwrap()).collect()
        };
        assert_eq!(answers("crctest"), ["0 1", "0 0"]);
        let appended = answers("crcappend");
        assert!(appended[0].starts_with("0 140000 "));
        assert_eq!(appended[1], "11 0 -");
    }
}
