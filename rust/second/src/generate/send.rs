//! Requests `send`: blocks of every length with shares about what they need, mostly unequal ones, and
//! each refusal at its boundary.

use super::makers::Makers;
use super::profile::{fitting_edition, fitting_octets, most_octets, other_edition};
use super::records::{bad, largest, to_cut};
use super::write::{self, Words};
use crate::draft::Draft;
use crate::plan;
use crate::random::Random;
use crate::samples::half;
use crate::transfer::Asked;

pub const SEND: Makers = Makers {
    done: |random| {
        let draft = to_cut(random);
        let sending = Sending::drawn(&draft, random);
        request(&draft.octets(), &sending, random)
    },
    refused: |random| {
        let (record, sending) = refused(random);
        request(&record, &sending, random)
    },
    large: &[
        |random| longest(&half(), 0, 1, random),
        |random| {
            let draft = largest(&[81], random);
            longest(&draft, random.pick(&[1, 2, 3]), 1, random)
        },
        |random| longest(&half(), 0, 2, random),
        |random| {
            let draft = largest(&[81], random);
            longest(&draft, random.pick(&[0, 1, 2, 3]), 2, random)
        },
    ],
};

/// The longest block with as many bits as there may be.
fn longest(draft: &Draft, rv: u64, ed: u64, random: &mut Random) -> Words {
    let sending = Sending {
        block: octets(2048, random),
        asked: Asked {
            layers: 2,
            order: 2,
            g: 65_536,
            rv,
            ed,
        },
        length: 65_536,
    };
    request(&draft.octets(), &sending, random)
}

/// What is sent, and the length of the output.
pub struct Sending {
    pub block: Vec<u8>,
    pub asked: Asked,
    pub length: usize,
}

impl Sending {
    /// A block that the record takes, and an allocation that it can be sent with, in an edition.
    pub fn drawn(draft: &Draft, random: &mut Random) -> Sending {
        let ed = fitting_edition(draft, random);
        Sending::drawn_in(draft, ed, random)
    }

    /// The same in this edition: as few symbol places as may be, or about as many as have room for all that
    /// there is to send, or any number.
    pub fn drawn_in(draft: &Draft, ed: u64, random: &mut Random) -> Sending {
        let count = length(draft, ed, random);
        let cut = Cut::of(draft, count, ed);
        let blocks = cut.blocks();
        let places = |least: u64, random: &mut Random| {
            let any = random.next() % (3 * least);
            let large = if random.one_in(20) { 65_536 } else { any };
            let (below, above) = (least - blocks, least + blocks);
            let about = random.pick(&[blocks, below, least, least, above, any, large]);
            about + spare(blocks, random)
        };
        let asked = Asked {
            rv: fitting_version(draft, count, ed, random),
            ed,
            ..allocation(&cut, places, random)
        };
        let more = random.pick(&[0, 0, 1, 100]);
        Sending {
            block: octets(small(count), random),
            asked,
            length: small(asked.g) + more,
        }
    }

    /// The words after the record, or after the shelves.
    pub fn words(&self, random: &mut Random) -> Vec<Vec<u8>> {
        let mut words = vec![
            write::hex(&self.block, random),
            write::number(self.asked.layers, random),
            write::number(self.asked.order, random),
            write::number(self.asked.g, random),
            write::count(self.length, random),
        ];
        let version = write::version(self.asked.rv, random);
        let edition = write::edition(self.asked.ed, random);
        words.extend(write::in_any_order([version, edition], random));
        words
    }
}

/// A redundancy version that goes with the record's type; often one that starts inside filler, where there is
/// one.
fn fitting_version(draft: &Draft, octets: u64, ed: u64, random: &mut Random) -> u64 {
    if draft.coding == 1 {
        return 0;
    }
    let plan = plan::plan(&draft.octets(), octets, ed).expect("the record takes this block");
    let d = usize::from(draft.kb + draft.m + draft.x) * plan.z;
    let shortest = plan.carried_bits(plan.c - 1);
    let inside = (1..4).filter(|&rv| (shortest..plan.k).contains(&(d / 4 * rv)));
    let inside: Vec<u64> = inside.map(|rv| rv as u64).collect();
    if !inside.is_empty() && !random.one_in(3) {
        return random.pick(&inside);
    }
    random.pick(&[0, 1, 2, 3])
}

/// One that does not, or none at all.
pub fn other_version(draft: &Draft, random: &mut Random) -> u64 {
    let wrapped = random.pick(&[0, 1, 3]) | 1 << random.pick(&[2, 8, 16, 32, 63]);
    let any = random.next().max(4);
    let over = random.pick(&[4, 4, 5, wrapped, wrapped, u64::MAX, any]);
    match draft.coding {
        1 => random.pick(&[1, 2, 3, over]),
        _ => over,
    }
}

/// How a transport block is cut: the coded places of each code block that are not marked.
pub struct Cut {
    unmarked: Vec<u64>,
}

impl Cut {
    /// The cut of a count of octets that the record takes in an edition.
    pub fn of(draft: &Draft, octets: u64, ed: u64) -> Cut {
        let plan = plan::plan(&draft.octets(), octets, ed).expect("the record takes this block");
        let parity = usize::from(draft.m + draft.x) * plan.z;
        let unmarked = (0..plan.c).map(|r| (plan.carried_bits(r) + parity) as u64);
        Cut {
            unmarked: unmarked.collect(),
        }
    }

    pub fn blocks(&self) -> u64 {
        self.unmarked.len() as u64
    }

    /// The symbol places that each block needs, of so many bits.
    fn needs(&self, place: u64) -> Vec<u64> {
        let blocks = self.unmarked.iter();
        blocks.map(|unmarked| unmarked.div_ceil(place)).collect()
    }

    /// The fewest symbol places with room for every block: where the first blocks need one more than
    /// the others, they are the ones that are given it.
    pub fn least(&self, place: u64) -> u64 {
        self.needs(place).iter().sum()
    }

    /// Whether there can be room for every block with any N_L and Q_m: none needs more than its places
    /// and 23 bits, and of 65,536 bits at most 23 are not in a symbol place.
    pub fn fits(&self) -> bool {
        let most: u64 = self.unmarked.iter().map(|unmarked| unmarked + 23).sum();
        most <= 65_536 - 23
    }

    /// N_L and Q_m, often such that the first blocks need a symbol place more than the last.
    fn layers_and_order(&self, random: &mut Random) -> (u64, u64) {
        let is_uneven = |(layers, order)| {
            let needs = self.needs(layers * order);
            needs.first() != needs.last()
        };
        let all = (1..=4).flat_map(|layers| [2, 4, 6].map(|order| (layers, order)));
        let uneven: Vec<(u64, u64)> = all.filter(|&pair| is_uneven(pair)).collect();
        if !uneven.is_empty() && random.one_in(2) {
            return random.pick(&uneven);
        }
        let layers = random.pick(&[1, 1, 2, 3, 4]);
        (layers, random.pick(&[2, 2, 4, 6]))
    }
}

/// An allocation whose symbol places are drawn knowing the fewest with room for every block: at least
/// one for each block, and no more than there may be.
pub fn allocation(
    cut: &Cut,
    places: impl FnOnce(u64, &mut Random) -> u64,
    random: &mut Random,
) -> Asked {
    let (layers, order) = cut.layers_and_order(random);
    let place = layers * order;
    let places = places(cut.least(place), random).clamp(cut.blocks(), 65_536 / place);
    Asked {
        layers,
        order,
        g: place * places,
        rv: 0,
        ed: 1,
    }
}

/// Symbol places that the first blocks have more than the others: for one block, for some, for all but
/// the last, and now and then none.
pub fn spare(blocks: u64, random: &mut Random) -> u64 {
    if blocks == 1 || random.one_in(3) {
        return 0;
    }
    let any = 1 + random.next() % (blocks - 1);
    random.pick(&[1, blocks / 2, blocks - 1, any])
}

/// A length that the record takes in an edition, and mostly one that is cut: a single block has all of G.
fn length(draft: &Draft, ed: u64, random: &mut Random) -> u64 {
    let count = fitting_octets(draft, ed, random);
    if Cut::of(draft, count, ed).blocks() > 1 || random.one_in(3) {
        return count;
    }
    over(draft, random.pick(&[1, 1, 2]), ed)
}

pub fn small(number: u64) -> usize {
    usize::try_from(number).expect("it is a length")
}

fn request(record: &[u8], sending: &Sending, random: &mut Random) -> Words {
    let mut words = vec![write::hex(record, random)];
    words.extend(sending.words(random));
    words
}

pub fn octets(count: usize, random: &mut Random) -> Vec<u8> {
    let kinds: [&[u8]; 4] = [&[], &[], &[0], &[0, 0, 0, 1, 255]];
    let choices = random.pick(&kinds);
    (0..count)
        .map(|_| match choices {
            [] => random.octet(),
            some => random.pick(some),
        })
        .collect()
}

/// A record and what is sent with it: one thing is wrong, or two, so that the order of the numbers
/// is compared.
pub fn refused(random: &mut Random) -> (Vec<u8>, Sending) {
    let draft = to_cut(random);
    let mut record = draft.octets();
    let mut sending = Sending::drawn(&draft, random);
    for fault in random.one_or_two(9) {
        match fault {
            0 => record = bad(random),
            1 => {
                let count = random.pick(&[0, 0, 0, 2049]);
                sending.block = octets(count, random);
            }
            2 => spoil_allocation(&mut sending.asked, random),
            3 => {
                let count = one_too_many(&draft, sending.asked.ed);
                sending.block = octets(count, random);
            }
            4 => few_places(&draft, &mut sending, random),
            5 => sending.asked.rv = other_version(&draft, random),
            6 => sending.asked.ed = other_edition(random),
            // With a Kmax up to 24 edition 2 is refused; with another it mostly gives other bits.
            7 => sending.asked.ed = 3 - sending.asked.ed.clamp(1, 2),
            _ => {
                let g = small(sending.asked.g.min(65_536));
                sending.length = random.pick(&[g.saturating_sub(1), g.saturating_sub(1), g / 2, 0]);
            }
        }
    }
    (record, sending)
}

/// N_L, Q_m or G that step 5 does not have.
pub fn spoil_allocation(asked: &mut Asked, random: &mut Random) {
    let top = 1 << random.pick(&[8, 16, 31, 32, 63]);
    let any = random.next();
    match random.below(3) {
        0 => asked.layers = random.pick(&[0, 5, 5, 6, asked.layers | top, u64::MAX, any.max(5)]),
        1 => asked.order = random.pick(&[0, 1, 3, 5, 7, 8, asked.order | top, u64::MAX]),
        _ => {
            let place = asked.layers * asked.order;
            let over = 65_536 / place * place + place;
            let near = random.pick(&[asked.g + 1, asked.g.max(1) - 1, asked.g + place / 2]);
            asked.g = random.pick(&[near, near, over, 65_538, asked.g | 1 << 32, u64::MAX, any]);
        }
    }
}

/// One octet more than can be cut into 64 blocks in an edition, or the most that there may be.
pub fn one_too_many(draft: &Draft, ed: u64) -> usize {
    small(over(draft, 64, ed).min(2048))
}

/// One octet more than can be cut into so many blocks in an edition.
fn over(draft: &Draft, blocks: u64, ed: u64) -> u64 {
    most_octets(draft, blocks, ed) + 1
}

/// One symbol place too few, or none at all.
fn few_places(draft: &Draft, sending: &mut Sending, random: &mut Random) {
    let count = sending.block.len() as u64;
    let place = sending.asked.layers.min(4) * sending.asked.order.min(6);
    let plan = plan::plan(&draft.octets(), count, sending.asked.ed);
    let blocks = plan.map_or(1, |plan| plan.c);
    sending.asked.g = random.pick(&[place * (blocks as u64 - 1), 0]);
}

#[cfg(test)]
mod tests {
    use super::{length, Cut};
    use crate::generate::profile::fitting_edition;
    use crate::generate::records::{small, summed};
    use crate::random::Random;
    use crate::receive::has_room;
    use crate::transfer::{Asked, Transfer};

    #[test]
    fn the_least_has_room_and_one_symbol_place_fewer_has_not() {
        let mut random = Random::new(1);
        let mut uneven = 0;
        for _ in 0..1000 {
            let draft = random.pick(&[small, summed])(&mut random);
            let ed = fitting_edition(&draft, &mut random);
            let octets = length(&draft, ed, &mut random);
            let cut = Cut::of(&draft, octets, ed);
            let (layers, order) = cut.layers_and_order(&mut random);
            let least = cut.least(layers * order);
            let transfer = |places: u64| {
                let g = layers * order * places;
                let asked = Asked {
                    layers,
                    order,
                    g,
                    rv: 0,
                    ed,
                };
                Transfer::new(&draft.octets(), 8 * octets, asked)
            };
            assert!(has_room(&transfer(least).unwrap()));
            // With fewer symbol places than blocks there is no transfer at all.
            assert!(!transfer(least - 1).is_ok_and(|transfer| has_room(&transfer)));
            uneven += usize::from(least % cut.blocks() != 0);
        }
        assert!(uneven > 60, "{uneven}");
    }
}
