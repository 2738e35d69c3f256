//! Received bits about the checksums of the code blocks: other sums in some blocks, all parity rows being even, and
//! bits that were sent in the other edition (document 02, CR 8).

use super::{Cut, Receiving, Sending};
use crate::checksum::{with_block_checksum, with_checksum};
use crate::draft::Draft;
use crate::generate::records::summed;
use crate::parity::FILLER;
use crate::random::Random;
use crate::transfer::Transfer;

/// Which blocks carry something else in the place of their checksum, and what.
#[derive(Clone, Copy)]
struct Wrong {
    /// The block, and whether those before it and behind it are wrong too.
    block: usize,
    all: bool,
    kind: Kind,
    /// The bit that is turned, where one is.
    turned: usize,
}

#[derive(Clone, Copy)]
enum Kind {
    /// One bit of the checksum is turned.
    Turned,
    /// 24A of the own bits.
    Of24A,
    /// Zeros.
    Zeros,
    /// The checksum with its last bit first.
    Reversed,
    /// The checksum of the own bits and of the filler, "read as 0" behind them.
    OfTheFiller,
    /// The checksum of the block's own bits without the first.
    WithoutTheFirst,
    /// The checksum behind the filler: sent in the same order, with the parity of other places.
    BehindTheFiller,
    /// No checksum, and filler in its place: as many bits fewer are sent.
    None,
}

const KINDS: [Kind; 8] = [
    Kind::Turned,
    Kind::Of24A,
    Kind::Zeros,
    Kind::Reversed,
    Kind::OfTheFiller,
    Kind::WithoutTheFirst,
    Kind::BehindTheFiller,
    Kind::None,
];

/// Bits whose code blocks do not all carry their checksum: only the first, a middle one, only the last, or all of
/// them. Every parity row is even, and the transport block's own checksum is right.
pub fn with_other_sums(random: &mut Random) -> (Vec<u8>, Receiving) {
    let draft = summed(random);
    let mut receiving = drawn(&draft, random);
    let block = super::octets(super::small(receiving.a / 8), random);
    let transfer = super::transfer(&draft, &receiving);
    let wrong = Wrong::drawn(&transfer, random);
    receiving.bits = transfer.sent_with(&block, |r, own| wrong.places(&transfer, r, own));
    (draft.octets(), receiving)
}

/// Bits that are received, mostly of blocks that carry their checksums.
fn drawn(draft: &Draft, random: &mut Random) -> Receiving {
    let receiving = Receiving::drawn(draft, random);
    if super::transfer(draft, &receiving).plan.l > 0 || random.one_in(6) {
        return receiving;
    }
    drawn(draft, random)
}

impl Wrong {
    fn drawn(transfer: &Transfer, random: &mut Random) -> Wrong {
        let last = transfer.plan.c - 1;
        let any = random.below(transfer.plan.c);
        Wrong {
            block: random.pick(&[0, last / 2, last, last, any]),
            all: random.one_in(6),
            // One bit alone more often: the least that there is to be seen.
            kind: if random.one_in(3) {
                Kind::Turned
            } else {
                random.pick(&KINDS)
            },
            turned: random.below(24),
        }
    }

    /// The K places of block r.
    fn places(&self, transfer: &Transfer, r: usize, own: &[u8]) -> Vec<u8> {
        if r != self.block && !self.all {
            return transfer.places(own);
        }
        let (k, filler) = (transfer.plan.k, transfer.plan.filler(r));
        let behind = |bits: &[u8]| with_block_checksum(bits)[bits.len()..].to_vec();
        let sum = match self.kind {
            Kind::Turned => {
                let mut sum = behind(own);
                sum[self.turned] = 1 - sum[self.turned];
                sum
            }
            Kind::Of24A => with_checksum(own)[own.len()..].to_vec(),
            Kind::Zeros => vec![0; 24],
            Kind::Reversed => behind(own).into_iter().rev().collect(),
            Kind::OfTheFiller => behind(&[own, &vec![0; filler]].concat()),
            Kind::WithoutTheFirst => behind(&own[own.len().min(1)..]),
            Kind::BehindTheFiller => [vec![FILLER; filler], behind(own)].concat(),
            Kind::None => vec![],
        };
        let mut places = [own, &sum].concat();
        // A block that carries no sum may have no room for one.
        places.truncate(k);
        places.resize(k, FILLER);
        places
    }
}

/// Bits that were sent in one edition and are received in the other, with room for either; often zeros, since
/// these are sent as zeros in both.
pub fn across_editions(random: &mut Random) -> (Vec<u8>, Receiving) {
    let draft = summed(random);
    let mut sending = Sending::drawn_in(&draft, 2, random);
    let count = sending.block.len() as u64;
    let cuts = [1, 2].map(|ed| Cut::of(&draft, count, ed));
    if !cuts.iter().all(Cut::fits) {
        return across_editions(random);
    }
    if random.one_in(3) {
        sending.block.fill(0);
    }
    let place = sending.asked.layers * sending.asked.order;
    let least = cuts.iter().map(|cut| cut.least(place)).max().unwrap_or(0);
    let more = random.pick(&[0, 0, 1, 2, cuts[1].blocks()]);
    sending.asked.g = place * (least + more).min(65_536 / place);
    let from = random.pick(&[1, 2]);
    sending.asked.ed = from;
    let mut receiving = Receiving::of(&draft, &sending, 0);
    receiving.asked.ed = 3 - from;
    (draft.octets(), receiving)
}

#[cfg(test)]
mod tests {
    use super::{across_editions, with_other_sums};
    use crate::generate::recv::Receiving;
    use crate::numbers::{Number, UNSENT};
    use crate::random::Random;
    use crate::receive::{has_room, order, receive};
    use crate::transfer::Transfer;

    fn number(record: &[u8], receiving: &Receiving) -> Result<usize, Number> {
        let mut output = vec![0; receiving.length];
        receive(record, receiving.received(), &mut output)
    }

    /// The coded places of a block as its stretch first gives them, filler read as 0.
    fn word(transfer: &Transfer, r: usize, bits: &[u8]) -> Vec<u8> {
        let mut word = vec![0; transfer.profile.columns() * transfer.plan.z];
        let stretch = bits[transfer.stretch(r)].iter();
        let places = order(transfer, r);
        for (&place, &bit) in places.iter().zip(stretch).rev() {
            word[place] = bit;
        }
        word
    }

    /// Which blocks have a wrong checksum of their own while their parity is even.
    fn wrong_blocks(record: &[u8], receiving: &Receiving) -> Vec<usize> {
        let transfer = Transfer::new(record, receiving.a, receiving.asked).unwrap();
        assert!(has_room(&transfer));
        let plan = &transfer.plan;
        let is_wrong = |&r: &usize| {
            let word = word(&transfer, r, &receiving.bits);
            let checks = crate::parity::check(record, plan.z as u64, &word) == Ok(true);
            let places = transfer.places(&word[..plan.own_bits(r)]);
            checks && places[..plan.carried_bits(r)] != word[..plan.carried_bits(r)]
        };
        (0..plan.c).filter(is_wrong).collect()
    }

    #[test]
    fn other_sums_are_seen_in_every_block_alone() {
        // Only in the first block, only in a middle one, only in the last, and in all.
        let mut random = Random::new(1);
        let mut seen = [0; 4];
        for _ in 0..600 {
            let (record, receiving) = with_other_sums(&mut random);
            let transfer = Transfer::new(&record, receiving.a, receiving.asked).unwrap();
            let last = transfer.plan.c - 1;
            let wrong = wrong_blocks(&record, &receiving);
            match wrong[..] {
                [] => continue,
                [0] => seen[0] += 1,
                [r] if r == last => seen[2] += 1,
                [_] => seen[1] += 1,
                [..] => seen[3] += 1,
            }
            assert_eq!(number(&record, &receiving), Err(UNSENT));
        }
        assert!(seen.iter().all(|&count| count > 20), "{seen:?}");
    }

    #[test]
    fn across_editions_zeros_are_accepted_and_other_bits_are_not() {
        let mut random = Random::new(2);
        let mut seen = [[0; 2]; 2];
        for _ in 0..600 {
            let (record, receiving) = across_editions(&mut random);
            let zeros = receiving.bits.iter().all(|&bit| bit == 0);
            let transfer = Transfer::new(&record, receiving.a, receiving.asked).unwrap();
            assert!(has_room(&transfer));
            let to = usize::from(receiving.asked.ed == 2);
            let number = number(&record, &receiving);
            if zeros {
                assert_eq!(number.map(|count| 8 * count as u64), Ok(receiving.a));
                seen[to][0] += 1;
            } else if number == Err(UNSENT) {
                seen[to][1] += 1;
            } else {
                // One block is enough: nothing is other in either edition.
                assert_eq!(transfer.plan.c, 1);
            }
        }
        assert!(seen.iter().flatten().all(|&count| count > 50), "{seen:?}");
    }
}
