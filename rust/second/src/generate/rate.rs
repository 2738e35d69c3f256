//! Requests `rate`: coded blocks with marks anywhere, about once round, and each refusal at its
//! boundary.

use super::crc::{bits, spoil};
use super::makers::Makers;
use super::parity::mark;
use super::write::{self, Words};
use crate::parity::FILLER;
use crate::random::Random;
use crate::words::OUTPUT_ROOM;

pub const RATE: Makers = Makers {
    done,
    refused,
    large: &[|random| {
        let places = bits(1000, random);
        let asked = Asked::drawn(random);
        rate(65_536, &places, OUTPUT_ROOM, asked, random)
    }],
};

/// The type and the redundancy version that are asked for, where they are.
#[derive(Clone, Copy)]
struct Asked {
    coding: Option<u64>,
    rv: Option<u64>,
}

impl Asked {
    /// Ones that go together.
    fn drawn(random: &mut Random) -> Asked {
        let coding = random.pick(&[None, Some(1), Some(2), Some(2), Some(2)]);
        let rv = match coding {
            Some(2) => random.pick(&[None, Some(0), Some(1), Some(2), Some(3), Some(3)]),
            _ => random.pick(&[None, Some(0)]),
        };
        Asked { coding, rv }
    }
}

fn rate(e: u64, places: &[u8], length: usize, asked: Asked, random: &mut Random) -> Words {
    let mut words = vec![
        write::number(e, random),
        write::bits(places, random),
        write::count(length, random),
    ];
    let mut optional =
        |name, held: Option<u64>| held.map(|held| write::optional(name, held, random));
    let (coding, rv) = (optional("type", asked.coding), optional("rv", asked.rv));
    words.extend(write::in_any_order([coding, rv], random));
    words
}

/// A coded block, now and then with no place or with every place marked.
fn coded_block(random: &mut Random) -> Vec<u8> {
    let length = random.pick(&[0, 1, 2, 10, 40, 300]);
    let mut places = bits(random.below(length + 1), random);
    mark(&mut places, random);
    places
}

fn done(random: &mut Random) -> Words {
    let places = coded_block(random);
    let e = fitting_count(&places, random);
    let more = random.pick(&[0, 0, 1, 100]);
    let asked = Asked::drawn(random);
    rate(e as u64, &places, e + more, asked, random)
}

/// A count about once or twice round, or any.
fn fitting_count(places: &[u8], random: &mut Random) -> usize {
    let unmarked = places.iter().filter(|&&place| place != FILLER).count();
    if unmarked == 0 {
        return 0;
    }
    let any = random.below(500);
    let long = if random.one_in(50) { 65_536 } else { any };
    random.pick(&[
        0,
        1,
        unmarked - 1,
        unmarked,
        unmarked + 1,
        2 * unmarked,
        any,
        long,
    ])
}

/// One thing is wrong with the request, or two, so that the order of the numbers is compared.
fn refused(random: &mut Random) -> Words {
    let mut places = coded_block(random);
    let mut e = fitting_count(&places, random) as u64;
    let mut length = fitting_count(&places, random).max(600);
    let mut asked = Asked::drawn(random);
    for fault in random.one_or_two(6) {
        match fault {
            0 => {
                let wrapped = e + (1 << random.pick(&[17, 31, 32, 63]));
                e = random.pick(&[65_537, 65_537, 65_538, wrapped, u64::MAX]);
            }
            1 => {
                places.fill(FILLER);
                e = random.pick(&[1, 1, 2, 65_536, 65_537]);
            }
            2 => {
                e = e.max(1);
                let short = usize::try_from(e - 1).unwrap_or(OUTPUT_ROOM);
                length = random.pick(&[short, short, 0]).min(OUTPUT_ROOM);
            }
            3 => {
                let wrapped = random.pick(&[1, 2]) | 1 << random.pick(&[2, 8, 16, 32, 63]);
                asked.coding = Some(random.pick(&[0, 3, 3, 4, wrapped, wrapped, u64::MAX]));
            }
            4 => {
                let wrapped = random.pick(&[0, 1, 3]) | 1 << random.pick(&[2, 8, 16, 32, 63]);
                let over = random.pick(&[4, 5, wrapped, wrapped, u64::MAX]);
                // Type 1 may have none but 0.
                let low = if asked.coding == Some(2) {
                    over
                } else {
                    random.pick(&[1, 2, 3])
                };
                asked.rv = Some(random.pick(&[over, low]));
            }
            _ => spoil(&mut places, FILLER, random),
        }
    }
    rate(e, &places, length, asked, random)
}
