//! Requests `put` and `remove`: shelves of 0 to 64 records, pairs that stand on them and pairs beside those,
//! shelves that are just full, and each refusal.

use super::makers::Makers;
use super::records::{good, small};
use super::send::octets;
use super::shelf::{
    any_record, draft, entries, few, not_well_formed, number, refused_record, so_many,
};
use super::write::{self, Words};
use crate::random::Random;
use crate::samples::TOY;
use crate::shelf::{Records, MOST_ENTRIES, MOST_OCTETS};
use crate::words::{OUTPUT_ROOM, SHELF_ROOM};

pub const PUT: Makers = Makers {
    done: |random| {
        let keeping = drawn_put(random);
        keeping.put_words(random)
    },
    refused: |random| {
        let keeping = refused_put(random);
        keeping.put_words(random)
    },
    large: &[
        |random| filling(MOST_OCTETS, false, random).put_words(random),
        |random| filling(MOST_OCTETS + 1, false, random).put_words(random),
        |random| filling(MOST_OCTETS, true, random).put_words(random),
        |random| filling(MOST_OCTETS + 1, true, random).put_words(random),
        |random| {
            let mut keeping = filling(MOST_OCTETS, true, random);
            keeping.length = keeping.due - 1;
            keeping.put_words(random)
        },
        |random| replacing_of(MOST_OCTETS, random).put_words(random),
        |random| replacing_of(MOST_OCTETS + 1, random).put_words(random),
        |random| {
            let mut keeping = drawn_put(random);
            keeping.record = octets(SHELF_ROOM, random);
            keeping.put_words(random)
        },
    ],
};

pub const REMOVE: Makers = Makers {
    done: |random| {
        let keeping = drawn_remove(random);
        keeping.remove_words(random)
    },
    refused: |random| {
        let keeping = refused_remove(random);
        keeping.remove_words(random)
    },
    large: &[
        |random| removing_of(MOST_OCTETS, random).remove_words(random),
        |random| removing_of(MOST_OCTETS + 1, random).remove_words(random),
        |random| {
            let mut keeping = removing_of(MOST_OCTETS, random);
            keeping.length = keeping.due - 1;
            keeping.remove_words(random)
        },
    ],
};

/// A shelf of nearly 65,535 octets stands in one line of so many: it makes a line of 130,000.
const LONG_EVERY: usize = 400;

type Pair = (u16, u16);

/// What is asked for; the record is that of a `put` alone.
struct Keeping {
    private: Vec<u8>,
    pair: Pair,
    record: Vec<u8>,
    /// The octets of the new shelf.
    due: usize,
    length: usize,
}

impl Keeping {
    fn put_words(&self, random: &mut Random) -> Words {
        let mut words = self.place(random);
        words.push(write::hex(&self.record, random));
        words.push(write::count(self.length, random));
        words
    }

    fn remove_words(&self, random: &mut Random) -> Words {
        let mut words = self.place(random);
        words.push(write::count(self.length, random));
        words
    }

    /// What either request may have wrong: fault 0 is its tenant and fault 1 its shelf.
    fn spoil(&mut self, faults: &[usize], random: &mut Random) {
        if faults.contains(&0) {
            self.pair.0 = 0;
        }
        if faults.contains(&1) {
            self.private = not_well_formed(false, random);
        }
    }

    fn place(&self, random: &mut Random) -> Words {
        vec![
            write::hex(&self.private, random),
            write::number(u64::from(self.pair.0), random),
            write::number(u64::from(self.pair.1), random),
        ]
    }
}

/// Puts the record into its place, with room for what is then written.
fn putting(records: Records, pair: Pair, record: Vec<u8>, random: &mut Random) -> Keeping {
    let private = shelf(records.clone());
    let mut after = records;
    after.insert(pair, record.clone());
    let due = shelf(after).len();
    Keeping {
        private,
        pair,
        record,
        due,
        length: enough(due, random),
    }
}

/// Removes the record, with room for what is then written.
fn removing(records: Records, pair: Pair, random: &mut Random) -> Keeping {
    let private = shelf(records.clone());
    let mut after = records;
    after.remove(&pair);
    let due = shelf(after).len();
    Keeping {
        private,
        pair,
        record: Vec::new(),
        due,
        length: enough(due, random),
    }
}

fn shelf(records: Records) -> Vec<u8> {
    draft(&entries(records)).octets()
}

/// A length of the output with which the call is done: for the most part just what is due.
fn enough(due: usize, random: &mut Random) -> usize {
    let more = random.below(60);
    random
        .pick(&[due, due, due, due + 1, due + more, 2 * due, OUTPUT_ROOM])
        .min(OUTPUT_ROOM)
}

/// A length of the output that is too short.
fn too_short(due: usize, random: &mut Random) -> usize {
    let any = random.below(due);
    random.pick(&[due - 1, due - 1, due - 1, any, 0])
}

fn drawn_put(random: &mut Random) -> Keeping {
    if random.one_in(LONG_EVERY) {
        let (less, is_there) = (random.pick(&[0, 0, 1]), random.one_in(2));
        return filling(MOST_OCTETS - less, is_there, random);
    }
    let (records, pair) = records_and_pair(random);
    let record = accepted(random);
    putting(records, pair, record, random)
}

fn drawn_remove(random: &mut Random) -> Keeping {
    if random.one_in(LONG_EVERY) {
        return removing_of(MOST_OCTETS, random);
    }
    let (mut records, pair) = records_and_pair(random);
    records.entry(pair).or_insert_with(|| any_record(random));
    removing(records, pair, random)
}

/// One thing is wrong, or two, so that the order of the numbers is compared.
fn refused_put(random: &mut Random) -> Keeping {
    if random.one_in(LONG_EVERY) {
        let (more, is_there) = (random.pick(&[1, 1, 2]), random.one_in(2));
        return filling(MOST_OCTETS + more, is_there, random);
    }
    let faults = random.one_or_two(8);
    let has = |numbers: [usize; 2]| numbers.iter().any(|number| faults.contains(number));
    let (records, pair) = if has([4, 5]) {
        full(random)
    } else {
        records_and_pair(random)
    };
    let record = if has([2, 3]) {
        refused_record(random)
    } else {
        accepted(random)
    };
    let mut keeping = putting(records, pair, record, random);
    if has([6, 7]) {
        keeping.length = too_short(keeping.due, random);
    }
    keeping.spoil(&faults, random);
    keeping
}

/// The same for what is removed.
fn refused_remove(random: &mut Random) -> Keeping {
    let faults = random.one_or_two(6);
    let has = |numbers: [usize; 2]| numbers.iter().any(|number| faults.contains(number));
    let mut keeping = if has([2, 3]) {
        let (mut records, pair) = records_and_pair(random);
        records.remove(&pair);
        removing(records, pair, random)
    } else {
        drawn_remove(random)
    };
    if has([4, 5]) {
        keeping.length = too_short(keeping.due, random);
    }
    keeping.spoil(&faults, random);
    keeping
}

/// Records of a private shelf, and a pair that is among them as often as not. With the pair there are at most
/// 64.
fn records_and_pair(random: &mut Random) -> (Records, Pair) {
    let mut records = some(random);
    let pair = pair(&records, random);
    for other in beside(pair) {
        if records.len() + 1 < MOST_ENTRIES && random.one_in(4) {
            records.entry(other).or_insert_with(|| any_record(random));
        }
    }
    if records.len() == MOST_ENTRIES && !records.contains_key(&pair) {
        records.pop_last();
    }
    (records, pair)
}

/// As many records as there may be, and a pair that is mostly not among them.
fn full(random: &mut Random) -> (Records, Pair) {
    let records = so_many(MOST_ENTRIES, false, random);
    let mut pair = self::pair(&records, random);
    while records.contains_key(&pair) && !random.one_in(8) {
        pair = self::pair(&records, random);
    }
    (records, pair)
}

/// None, few, many, or as many records as there may be.
fn some(random: &mut Random) -> Records {
    let count = match random.below(24) {
        0..=20 => return few(false, random),
        21 => 9 + random.below(50),
        22 => random.pick(&[61, 62, 63]),
        _ => MOST_ENTRIES,
    };
    so_many(count, false, random)
}

/// A pair of the records, one just beside it, in front of all, behind all, or any.
fn pair(records: &Records, random: &mut Random) -> Pair {
    let any = (number(random).max(1), number(random));
    let pairs: Vec<Pair> = records.keys().copied().collect();
    if pairs.is_empty() {
        return any;
    }
    let (first, last) = (pairs[0], pairs[pairs.len() - 1]);
    let one = random.pick(&pairs);
    let there = random.pick(&[one, one, first, last]);
    match random.below(10) {
        0..=4 => there,
        5..=6 => {
            let others: Vec<Pair> = beside(there).collect();
            random.pick(&others)
        }
        7 => random.pick(&[(1, 0), (first.0, 0), (1, first.1)]),
        8 => random.pick(&[(u16::MAX, u16::MAX), (last.0, u16::MAX), (u16::MAX, last.1)]),
        _ => any,
    }
}

/// The pairs that a search could take for this one: the same profile number of the tenants beside, the same
/// tenant with the profile numbers beside, and the two numbers the other way round.
fn beside((tenant, profile): Pair) -> impl Iterator<Item = Pair> {
    let others = [
        (tenant.wrapping_sub(1), profile),
        (tenant.wrapping_add(1), profile),
        (tenant, profile.wrapping_sub(1)),
        (tenant, profile.wrapping_add(1)),
        (profile, tenant),
    ];
    others.into_iter().filter(|other| other.0 != 0)
}

/// A record that a shelf is given.
fn accepted(random: &mut Random) -> Vec<u8> {
    match random.below(12) {
        0..=3 => TOY.to_vec(),
        4..=10 => small(random).octets(),
        _ => good(random).octets(),
    }
}

/// A record is put so that the new shelf has so many octets. A short one may be there before.
fn filling(length: usize, is_there: bool, random: &mut Random) -> Keeping {
    let record = accepted(random);
    let pair = (7, random.pick(&[1, 3, 5]));
    let rest = length - 2 - 3 * 8 - record.len();
    let first = random.below(rest);
    let mut records = Records::from([
        ((7, 2), vec![random.octet(); first]),
        ((7, 4), vec![random.octet(); rest - first]),
    ]);
    if is_there {
        records.insert(pair, octets(random.pick(&[0, 1]), random));
    }
    putting(records, pair, record, random)
}

/// Three records that make a shelf of so many octets, and the pair of one of them.
fn of_octets(length: usize, random: &mut Random) -> (Records, Pair) {
    let rest = length - 2 - 3 * 8 - TOY.len();
    let first = random.below(rest);
    let records = Records::from([
        ((7, 2), vec![random.octet(); first]),
        ((7, 3), TOY.to_vec()),
        ((7, 4), vec![random.octet(); rest - first]),
    ]);
    (records, (7, random.pick(&[2, 3, 4])))
}

/// One of the records of such a shelf is replaced.
fn replacing_of(length: usize, random: &mut Random) -> Keeping {
    let (records, pair) = of_octets(length, random);
    putting(records, pair, TOY.to_vec(), random)
}

/// One of the records of such a shelf is removed.
fn removing_of(length: usize, random: &mut Random) -> Keeping {
    let (records, pair) = of_octets(length, random);
    removing(records, pair, random)
}

#[cfg(test)]
mod tests {
    use std::collections::BTreeMap;

    use super::{drawn_put, drawn_remove, filling, records_and_pair, Keeping};
    use crate::keep::{put, remove, Place};
    use crate::numbers::{Number, NO_ROOM};
    use crate::random::Random;
    use crate::shelf::MOST_OCTETS;

    fn place(keeping: &Keeping) -> Place {
        Place {
            private: keeping.private.clone(),
            tenant: keeping.pair.0,
            profile: keeping.pair.1,
        }
    }

    fn put_count(keeping: &Keeping) -> Result<usize, Number> {
        let mut output = vec![0; keeping.length];
        put(&place(keeping), &keeping.record, &mut output)
    }

    fn remove_count(keeping: &Keeping) -> Result<usize, Number> {
        let mut output = vec![0; keeping.length];
        remove(&place(keeping), &mut output)
    }

    #[test]
    fn what_is_drawn_is_done() {
        let mut random = Random::new(1);
        for _ in 0..2000 {
            let keeping = drawn_put(&mut random);
            assert_eq!(put_count(&keeping), Ok(keeping.due));
            let keeping = drawn_remove(&mut random);
            assert_eq!(remove_count(&keeping), Ok(keeping.due));
        }
    }

    #[test]
    fn records_stand_in_front_of_the_pair_behind_it_and_in_its_place() {
        let mut random = Random::new(2);
        let mut counts = BTreeMap::<_, usize>::new();
        let mut sizes = [false; 65];
        for _ in 0..4000 {
            let (records, pair) = records_and_pair(&mut random);
            let before = records.range(..pair).next().is_some();
            let behind = records.range(pair..).any(|(&other, _)| other != pair);
            let there = records.contains_key(&pair);
            *counts.entry((before, there, behind)).or_default() += 1;
            sizes[records.len()] = true;
        }
        assert_eq!(counts.len(), 8);
        assert!(counts.values().all(|&count| count > 50), "{counts:?}");
        assert!([0, 1, 2, 40, 62, 63, 64].iter().all(|&count| sizes[count]));
    }

    #[test]
    fn a_shelf_is_just_filled_or_over_full() {
        let mut random = Random::new(3);
        for _ in 0..20 {
            for is_there in [false, true] {
                let keeping = filling(MOST_OCTETS, is_there, &mut random);
                assert_eq!(put_count(&keeping), Ok(MOST_OCTETS));
                let keeping = filling(MOST_OCTETS + 1, is_there, &mut random);
                assert_eq!(put_count(&keeping), Err(NO_ROOM));
            }
        }
    }
}
