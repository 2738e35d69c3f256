//! Requests `recv`: bits as they were sent, the same with each kind of damage, and each refusal at
//! its boundary.

mod sums;

use super::crc::spoil;
use super::makers::Makers;
use super::profile::other_edition;
use super::records::{bad, extended, largest, to_cut};
use super::send::{
    allocation, octets, one_too_many, other_version, small, spare, spoil_allocation, Cut, Sending,
};
use super::write::{self, Words};
use crate::draft::Draft;
use crate::random::Random;
#[cfg(test)]
use crate::receive::Received;
use crate::receive::{has_room, order, unmarked_places};
use crate::samples::TOY;
use crate::transfer::{Asked, Transfer};

pub const RECV: Makers = Makers {
    done: |random| {
        let draft = to_cut(random);
        let receiving = Receiving::drawn(&draft, random);
        request(&draft.octets(), &receiving, random)
    },
    refused: |random| {
        let (record, receiving) = refused(random);
        request(&record, &receiving, random)
    },
    large: &[
        |random| long(65_536, random),
        |random| long(65_534, random),
        |random| long(65_538, random),
        |random| long(131_072, random),
        |random| {
            let draft = largest(&[27, 54, 81], random);
            let receiving = Receiving::drawn(&draft, random);
            request(&draft.octets(), &receiving, random)
        },
    ],
};

/// What is received, and the length of the output.
pub struct Receiving {
    pub a: u64,
    pub asked: Asked,
    pub bits: Vec<u8>,
    pub length: usize,
}

impl Receiving {
    /// Bits that are received as some block.
    pub fn drawn(draft: &Draft, random: &mut Random) -> Receiving {
        let sending = sending_with_room(draft, random);
        let more = random.pick(&[0, 0, 1, 100]);
        Receiving::of(draft, &sending, more)
    }

    /// The bits that a block is sent as, and an output with room for its octets and some more.
    fn of(draft: &Draft, sending: &Sending, more: usize) -> Receiving {
        let a = 8 * sending.block.len() as u64;
        let transfer = Transfer::new(&draft.octets(), a, sending.asked);
        let transfer = transfer.expect("the record takes this block");
        Receiving {
            a,
            asked: sending.asked,
            bits: transfer.sent(&sending.block),
            length: sending.block.len() + more,
        }
    }

    /// What the receiver is given.
    #[cfg(test)]
    fn received(&self) -> Received<'_> {
        Received {
            a: self.a,
            layers: self.asked.layers,
            order: self.asked.order,
            rv: self.asked.rv,
            ed: self.asked.ed,
            bits: &self.bits,
        }
    }

    /// The words after the record, or after the shelves.
    pub fn words(&self, random: &mut Random) -> Vec<Vec<u8>> {
        let mut words = vec![
            write::number(self.a, random),
            write::number(self.asked.layers, random),
            write::number(self.asked.order, random),
            write::bits(&self.bits, random),
            write::count(self.length, random),
        ];
        let version = write::version(self.asked.rv, random);
        let edition = write::edition(self.asked.ed, random);
        let checker = write::checker(random);
        words.extend(write::in_any_order([version, edition, checker], random));
        words
    }
}

fn request(record: &[u8], receiving: &Receiving, random: &mut Random) -> Words {
    let mut words = vec![write::hex(record, random)];
    words.extend(receiving.words(random));
    words
}

/// A block and an allocation in which each share has room for what its block has to send: as few
/// symbol places as may be, or some more.
fn sending_with_room(draft: &Draft, random: &mut Random) -> Sending {
    let mut sending = Sending::drawn(draft, random);
    let Asked { rv, ed, .. } = sending.asked;
    let mut cut = Cut::of(draft, sending.block.len() as u64, ed);
    if !cut.fits() {
        sending.block.truncate(1);
        cut = Cut::of(draft, 1, ed);
    }
    let blocks = cut.blocks();
    let places = |least: u64, random: &mut Random| {
        let any = random.next() % (2 * least);
        let whole = random.pick(&[0, 0, 0, 0, blocks, blocks, 2 * blocks, any]);
        least + whole + spare(blocks, random)
    };
    sending.asked = Asked {
        rv,
        ed,
        ..allocation(&cut, places, random)
    };
    sending
}

/// The same with shares that have not room: only the last block's, or the last ones', only that of the
/// last block which needs a spare place, or all of them.
fn sending_without_room(draft: &Draft, random: &mut Random) -> Sending {
    let mut sending = Sending::drawn(draft, random);
    let Asked { rv, ed, .. } = sending.asked;
    let cut = Cut::of(draft, sending.block.len() as u64, ed);
    let blocks = cut.blocks();
    let places = |least: u64, random: &mut Random| {
        let any = random.next() % least;
        let some = spare(blocks, random).max(1);
        let fewer = random.pick(&[1, 1, 1, 2, some, blocks, any]);
        least - fewer.min(least)
    };
    sending.asked = Asked {
        rv,
        ed,
        ..allocation(&cut, places, random)
    };
    sending
}

/// A record and what is received with it: one thing is wrong, or two, so that the order of the
/// numbers is compared.
pub fn refused(random: &mut Random) -> (Vec<u8>, Receiving) {
    match random.below(24) {
        0..=1 => return another_version(random),
        2..=3 => return sums::with_other_sums(random),
        4..=5 => return sums::across_editions(random),
        _ => {}
    }
    let draft = to_cut(random);
    let mut record = draft.octets();
    let mut receiving = Receiving::drawn(&draft, random);
    // Another count of bits and another length are refused with several numbers each, and so drawn more;
    // damage of any kind is refused with one. With another version or another edition stands one of those
    // faults about which it has to be seen where 16 and 19 are tested.
    let faults = match random.below(16) {
        0..=1 => vec![8],
        2..=3 => vec![10],
        4 => vec![12, random.pick(&[10, 11, 15])],
        5 => vec![random.pick(&[10, 11, 12, 15]), 13],
        6..=7 => vec![random.pick(&[0, 7, 7, 9, 14, 14, 15])],
        _ => random.one_or_two(16),
    };
    for fault in faults {
        match fault {
            0..=1 => receiving = Receiving::of(&draft, &sending_without_room(&draft, random), 0),
            2..=4 => damage(&draft, &mut receiving, random),
            5 => mix(&draft, &mut receiving, random),
            6 => other_shares(&draft, &mut receiving, random),
            7 => octet_over_1(&draft, &mut receiving, random),
            8 => other_count(&draft, &mut receiving, random),
            9 => {
                let short = receiving.length.min(small(receiving.a / 8)) - 1;
                receiving.length = random.pick(&[short, short, short / 2, 0]);
            }
            10 => other_a(&draft, &mut receiving, random),
            11 => spoil_allocation(&mut receiving.asked, random),
            12 => receiving.asked.rv = other_version(&draft, random),
            13 => receiving.asked.ed = other_edition(random),
            // With a Kmax up to 24 edition 2 is refused.
            14 => receiving.asked.ed = 3 - receiving.asked.ed.clamp(1, 2),
            _ => record = bad(random),
        }
    }
    (record, receiving)
}

/// Bits that were sent with another redundancy version than they are received with.
fn another_version(random: &mut Random) -> (Vec<u8>, Receiving) {
    let draft = extended(random);
    let mut receiving = Receiving::drawn(&draft, random);
    receiving.asked.rv = (receiving.asked.rv + random.pick(&[1, 2, 3])) % 4;
    (draft.octets(), receiving)
}

/// The transfer that the bits belong to.
fn transfer(draft: &Draft, receiving: &Receiving) -> Transfer {
    let transfer = Transfer::new(&draft.octets(), receiving.a, receiving.asked);
    transfer.expect("these bits were sent with it")
}

/// One of a block's own bits, of its checksum, a parity place or a copy, in the first block, a middle one,
/// the last, or any; a place of the transport block's checksum; and where the spare symbol places end.
/// Without room for them any place.
fn place(transfer: &Transfer, random: &mut Random) -> usize {
    if !has_room(transfer) {
        return random.below(transfer.g);
    }
    let plan = &transfer.plan;
    let any = random.below(plan.c);
    let r = random.pick(&[0, plan.c / 2, plan.c - 1, any]);
    let (own, carried) = (plan.own_bits(r), plan.carried_bits(r));
    let unmarked = unmarked_places(transfer, r);
    let first = transfer.stretch(r).start;
    let copies = transfer.shares[r] - unmarked;
    match random.below(6) {
        0 => first_copy(transfer, r, plan.k + random.below(unmarked - carried)),
        1 if copies > 0 => first + unmarked + random.below(copies),
        2 if longer(transfer) > 0 => spare_place(transfer, random),
        3 => place_of_bit(transfer, plan.b - 1 - random.below(24)),
        4 if carried > own => first_copy(transfer, r, own + random.below(carried - own)),
        _ => first_copy(transfer, r, random.below(own)),
    }
}

/// Where a coded place of a block is sent first.
fn first_copy(transfer: &Transfer, r: usize, place: usize) -> usize {
    let sent = order(transfer, r);
    let offset = sent.iter().position(|&other| other == place);
    transfer.stretch(r).start + offset.expect("there is room for each place")
}

/// How many blocks have a longer share than the last: they are the first.
fn longer(transfer: &Transfer) -> usize {
    let last = transfer.shares[transfer.plan.c - 1];
    let shares = transfer.shares.iter();
    shares.filter(|&&share| share > last).count()
}

/// A bit of the symbol place that a longer share has and the others have not, or the first bit behind
/// the longer shares.
fn spare_place(transfer: &Transfer, random: &mut Random) -> usize {
    let longer = longer(transfer);
    if random.one_in(4) {
        return transfer.stretch(longer).start;
    }
    let any = random.below(longer);
    let r = random.pick(&[0, longer - 1, any]);
    let bits = transfer.shares[r] - transfer.shares[longer];
    transfer.stretch(r).end - 1 - random.below(bits)
}

/// Where a bit of the transport block with its checksum stands first.
fn place_of_bit(transfer: &Transfer, mut bit: usize) -> usize {
    let mut r = 0;
    while bit >= transfer.plan.own_bits(r) {
        bit -= transfer.plan.own_bits(r);
        r += 1;
    }
    first_copy(transfer, r, bit)
}

/// The block in whose stretch a place is, and how far the place is behind its first.
fn block_of(transfer: &Transfer, place: usize) -> (usize, usize) {
    let blocks = 0..transfer.plan.c;
    let mut stretches = blocks.map(|r| (r, transfer.stretch(r)));
    let found = stretches.find(|(_, stretch)| stretch.contains(&place));
    let (r, stretch) = found.expect("the shares add up to G");
    (r, place - stretch.start)
}

/// One bit the other way round, now and then in all its copies.
fn damage(draft: &Draft, receiving: &mut Receiving, random: &mut Random) {
    let transfer = transfer(draft, receiving);
    let place = place(&transfer, random);
    let other = 1 - receiving.bits[place].min(1);
    receiving.bits[place] = other;
    if random.one_in(3) {
        let (r, offset) = block_of(&transfer, place);
        let unmarked = unmarked_places(&transfer, r);
        let stretch = receiving.bits[transfer.stretch(r)].iter_mut();
        let copies = stretch.skip(offset % unmarked).step_by(unmarked);
        copies.for_each(|bit| *bit = other);
    }
}

/// One code block as another transport block has it: all parity rows sum to even numbers, the block's own
/// checksum is right, and only that of the transport block is not.
fn mix(draft: &Draft, receiving: &mut Receiving, random: &mut Random) {
    let transfer = transfer(draft, receiving);
    let block = octets(transfer.octets, random);
    let other = transfer.sent(&block);
    let stretch = transfer.stretch(random.below(transfer.plan.c));
    receiving.bits[stretch.clone()].copy_from_slice(&other[stretch]);
}

/// The bits of a block with the spare symbol places elsewhere: left at the end as zeros, in the last
/// blocks, or all in the first one.
fn other_shares(draft: &Draft, receiving: &mut Receiving, random: &mut Random) {
    let mut transfer = transfer(draft, receiving);
    let last = transfer.shares[transfer.plan.c - 1];
    match random.below(3) {
        0 => transfer.shares.fill(last),
        1 => transfer.shares.reverse(),
        _ => {
            transfer.shares.fill(last);
            transfer.shares[0] += transfer.g - transfer.plan.c * last;
        }
    }
    receiving.bits = transfer.sent(&octets(transfer.octets, random));
    receiving.bits.resize(transfer.g, 0);
}

fn octet_over_1(draft: &Draft, receiving: &mut Receiving, random: &mut Random) {
    if random.one_in(2) {
        spoil(&mut receiving.bits, 1, random);
    } else {
        let place = place(&transfer(draft, receiving), random);
        receiving.bits[place] = random.pick(&[2, 2, 3, 128, 129, 254, 255]);
    }
}

/// Some bits too few or too many, or one symbol place less than there are blocks.
fn other_count(draft: &Draft, receiving: &mut Receiving, random: &mut Random) {
    let count = receiving.bits.len();
    let place = small(receiving.asked.layers * receiving.asked.order);
    let few = place * (transfer(draft, receiving).plan.c - 1);
    let any = random.below(count);
    let near = random.pick(&[count - 1, count + 1, count - place, count + place]);
    let other = random.pick(&[near, near, few, few, any, 0]);
    receiving.bits.resize(other, random.pick(&[0, 1]));
}

/// Another length of the transport block, or none that there is.
fn other_a(draft: &Draft, receiving: &mut Receiving, random: &mut Random) {
    let a = receiving.a;
    let most = 8 * one_too_many(draft, receiving.asked.ed) as u64;
    let near = random.pick(&[a - 1, a + 1, a + 4, a + 8, a - 8]);
    let any = random.next();
    let far = random.pick(&[
        16_384,
        16_385,
        16_392,
        a | 1 << 32,
        a | 1 << 63,
        u64::MAX,
        any,
    ]);
    receiving.a = random.pick(&[near, near, most, most, most, far]);
}

/// As many bits as this, of the toy: as they are sent, or zeros where they cannot be.
fn long(count: usize, random: &mut Random) -> Words {
    let asked = Asked {
        layers: 1,
        order: 2,
        g: count as u64,
        rv: 0,
        ed: 1,
    };
    let sent = Transfer::new(&TOY, 8, asked).map(|transfer| transfer.sent(&[random.octet()]));
    let receiving = Receiving {
        a: 8,
        asked,
        bits: sent.unwrap_or(vec![0; count]),
        length: 1,
    };
    request(&TOY, &receiving, random)
}

#[cfg(test)]
mod tests {
    use super::{block_of, longer, place, sending_without_room, transfer, Receiving};
    use crate::draft::Draft;
    use crate::random::Random;
    use crate::receive::{order, receive, unmarked_places};
    use crate::samples::plain;
    use crate::transfer::Transfer;

    fn draft() -> Draft {
        plain(2, 4, &[3, 5])
    }

    /// Its blocks carry sums in edition 2.
    fn summed() -> Draft {
        plain(2, 3, &[15, 18])
    }

    #[test]
    fn what_is_drawn_is_received() {
        let mut random = Random::new(1);
        for _ in 0..300 {
            let draft = random.pick(&[draft, summed])();
            let drawn = Receiving::drawn(&draft, &mut random);
            let mut output = vec![0; drawn.length];
            let number = receive(&draft.octets(), drawn.received(), &mut output);
            assert_eq!(number.map(|count| 8 * count as u64), Ok(drawn.a));
        }
    }

    #[test]
    fn every_kind_of_place_is_damaged() {
        // Systematic, parity, copy; in the first, a middle and the last block. A copy that only the
        // longer shares have, in the first of them and the last; and the first bit behind them.
        let mut random = Random::new(2);
        let mut seen = [[false; 3]; 3];
        let mut spare = [false; 2];
        let mut behind = false;
        for _ in 0..3000 {
            let drawn = Receiving::drawn(&draft(), &mut random);
            let transfer = transfer(&draft(), &drawn);
            let place = place(&transfer, &mut random);
            let (r, offset) = block_of(&transfer, place);
            let kind = match offset {
                _ if offset < transfer.plan.own_bits(r) => 0,
                _ if offset < unmarked_places(&transfer, r) => 1,
                _ => 2,
            };
            let block = match r {
                0 => 0,
                _ if r + 1 < transfer.plan.c => 1,
                _ => 2,
            };
            seen[kind][block] = true;
            let longer = longer(&transfer);
            if kind == 2 && offset >= transfer.shares[longer] {
                spare[0] |= r == 0 && longer > 1;
                spare[1] |= r + 1 == longer && longer > 1;
            }
            behind |= longer > 0 && place == transfer.stretch(longer).start;
        }
        assert_eq!(seen, [[true; 3]; 3]);
        assert_eq!(spare, [true; 2]);
        assert!(behind);
    }

    #[test]
    fn bits_of_a_blocks_own_checksum_are_damaged() {
        // In the first block, a middle one, and the last.
        let mut random = Random::new(4);
        let mut seen = [0; 3];
        for _ in 0..1000 {
            let drawn = Receiving::drawn(&summed(), &mut random);
            let transfer = transfer(&summed(), &drawn);
            let (r, offset) = block_of(&transfer, place(&transfer, &mut random));
            let place = order(&transfer, r)[offset];
            let plan = &transfer.plan;
            if (plan.own_bits(r)..plan.carried_bits(r)).contains(&place) {
                seen[usize::from(r > 0) + usize::from(r + 1 == plan.c)] += 1;
            }
        }
        assert!(seen.iter().all(|&count| count > 20), "{seen:?}");
    }

    #[test]
    fn every_kind_of_short_share_is_drawn() {
        // Only the last block's, only the last ones', only that of a block between, all of them. Blocks
        // of 15 coded places and of 14 need a different number of symbol places.
        let draft = plain(2, 3, &[3]);
        let mut random = Random::new(3);
        let mut seen = [0; 4];
        for _ in 0..1000 {
            let sending = sending_without_room(&draft, &mut random);
            let a = 8 * sending.block.len() as u64;
            let transfer = Transfer::new(&draft.octets(), a, sending.asked).unwrap();
            let last = transfer.plan.c - 1;
            let is_short = |&r: &usize| transfer.shares[r] < unmarked_places(&transfer, r);
            let short: Vec<usize> = (0..=last).filter(is_short).collect();
            match short[..] {
                [r] if r == last => seen[0] += 1,
                [r, .., end] if r > 0 && end == last => seen[1] += 1,
                [r] if r > 0 => seen[2] += 1,
                [0, .., end] if end == last => seen[3] += 1,
                _ => {}
            }
        }
        assert!(seen.iter().all(|&count| count > 50), "{seen:?}");
    }
}
