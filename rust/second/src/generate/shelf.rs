//! Shelves that are drawn: well-formed ones with a record where it is to be found, and ones with a
//! chosen fault.

use super::records::{bad, small};
use super::send::octets;
use super::write;
use crate::draft::ShelfDraft;
use crate::random::Random;
use crate::samples::TOY;
use crate::shelf::Records;

/// Records with their tenants and profile numbers, in any order.
pub type Entry = (u16, u16, Vec<u8>);

/// The octets of two shelves, and what is looked for on them.
pub struct Shelves {
    pub private: Vec<u8>,
    pub public: Vec<u8>,
    pub tenant: u16,
    pub profile: u16,
}

impl Shelves {
    /// Shelves on which the record is found. Where it could be looked for wrongly, under the same
    /// number for another tenant or on the other shelf, there often stands another one.
    pub fn with(record: &[u8], random: &mut Random) -> Shelves {
        let others = (records(false, random), records(true, random));
        Shelves::among(others, record, any_record, random)
    }

    /// The same on shelves with few records, and with records that the caller makes where the record could be looked
    /// for wrongly.
    pub fn with_few(
        record: &[u8],
        wrong: impl Fn(&mut Random) -> Vec<u8>,
        random: &mut Random,
    ) -> Shelves {
        let others = (few(false, random), few(true, random));
        Shelves::among(others, record, wrong, random)
    }

    /// The record among those of a private and of a public shelf.
    fn among(
        (mut private, mut public): (Records, Records),
        record: &[u8],
        wrong: impl Fn(&mut Random) -> Vec<u8>,
        random: &mut Random,
    ) -> Shelves {
        let tenant = number(random).max(1);
        let profile = number(random);
        for other in [tenant - 1, tenant.saturating_add(1)] {
            if other != 0 && random.one_in(2) {
                private.insert((other, profile), wrong(random));
            }
        }
        if random.one_in(2) {
            private.insert((tenant, profile), record.to_vec());
            if random.one_in(2) {
                public.insert((0, profile), wrong(random));
            }
        } else {
            private.remove(&(tenant, profile));
            public.insert((0, profile), record.to_vec());
        }
        Shelves {
            private: draft(&entries(private)).octets(),
            public: draft(&entries(public)).octets(),
            tenant,
            profile,
        }
    }

    /// The words of a request.
    pub fn words(&self, random: &mut Random) -> Vec<Vec<u8>> {
        vec![
            write::hex(&self.private, random),
            write::hex(&self.public, random),
            write::number(u64::from(self.tenant), random),
            write::number(u64::from(self.profile), random),
        ]
    }

    /// Makes it one of 1 to 4, mostly.
    pub fn spoil(&mut self, random: &mut Random) {
        for fault in random.one_or_two(4) {
            match fault {
                0 => self.tenant = 0,
                1 => self.private = not_well_formed(false, random),
                2 => self.public = not_well_formed(true, random),
                _ => self.profile ^= 1 << random.below(16),
            }
        }
    }
}

/// A tenant or a profile number: few different ones, so that they meet.
pub fn number(random: &mut Random) -> u16 {
    let any = u16::from_be_bytes([random.octet(), random.octet()]);
    random.pick(&[0, 1, 1, 2, 2, 3, 255, 256, 257, 65_534, 65_535, any])
}

/// None, few, or nearly as many records as there may be, so that with those added there are up to 64.
fn records(public: bool, random: &mut Random) -> Records {
    if !random.one_in(12) {
        return few(public, random);
    }
    let many = random.pick(&[61, 62, 63]) - 2 * usize::from(!public);
    so_many(many, public, random)
}

pub fn few(public: bool, random: &mut Random) -> Records {
    let count = random.pick(&[0, 0, 1, 1, 2, 2, 3, 5, 8]);
    so_many(count, public, random)
}

pub fn so_many(count: usize, public: bool, random: &mut Random) -> Records {
    let mut records = Records::new();
    while records.len() < count {
        let tenant = if public { 0 } else { number(random).max(1) };
        // A row of profile numbers, so that many are found soon.
        let first = number(random);
        for more in 0..random.pick(&[1, 1, 2, 9]) {
            if records.len() < count {
                records.insert((tenant, first.wrapping_add(more)), any_record(random));
            }
        }
    }
    records
}

/// Octets that may stand as a record: none, few, or a record indeed.
pub fn any_record(random: &mut Random) -> Vec<u8> {
    match random.below(8) {
        0..=2 => Vec::new(),
        3..=5 => octets(random.pick(&[1, 2, 5]), random),
        6 => TOY.to_vec(),
        _ => small(random).octets(),
    }
}

pub fn entries(records: Records) -> Vec<Entry> {
    records
        .into_iter()
        .map(|((tenant, profile), record)| (tenant, profile, record))
        .collect()
}

pub fn draft(entries: &[Entry]) -> ShelfDraft {
    let records: Vec<(u16, u16, &[u8])> = entries
        .iter()
        .map(|(tenant, profile, record)| (*tenant, *profile, &record[..]))
        .collect();
    ShelfDraft::new(&records)
}

/// A shelf with one fault.
pub fn not_well_formed(public: bool, random: &mut Random) -> Vec<u8> {
    let count = random.pick(&[2, 2, 3, 5, 64]);
    let mut entries = entries(so_many(count, public, random));
    match random.below(7) {
        0 => random
            .pick(&[&[][..], &[0], &[0, 0, 0], &[0, 1], &[255; 10]])
            .to_vec(),
        1 => {
            let count = random.pick(&[65, 65, 66]);
            draft(&self::entries(so_many(count, public, random))).octets()
        }
        2 => {
            do_not_rise(&mut entries, random);
            draft(&entries).octets()
        }
        3 => {
            other_tenant(&mut entries, public, random);
            draft(&entries).octets()
        }
        4 => other_length(&draft(&entries), random),
        _ => {
            let mut draft = draft(&entries);
            other_number(&mut draft, random);
            draft.octets()
        }
    }
}

/// Two neighbours with the same pair, or the wrong way round. The offsets are the ones that are due.
fn do_not_rise(entries: &mut [Entry], random: &mut Random) {
    let place = random.below(entries.len() - 1);
    let (left, right) = (entries[place].clone(), entries[place + 1].clone());
    entries[place + 1] = (left.0, left.1, right.2);
    if random.one_in(2) {
        entries[place] = (right.0, right.1, left.2);
    }
}

/// One tenant that does not belong on the shelf, where the pairs rise all the same.
fn other_tenant(entries: &mut [Entry], public: bool, random: &mut Random) {
    if public {
        let last = entries.len() - 1;
        entries[last].0 = random.pick(&[1, 2, 256, 65_535]);
    } else {
        entries[0].0 = 0;
    }
}

/// A shelf that ends too early or too late.
fn other_length(draft: &ShelfDraft, random: &mut Random) -> Vec<u8> {
    let mut octets = draft.octets();
    let length = octets.len();
    let any = random.below(length);
    octets.resize(
        random.pick(&[length - 1, length + 1, length + 8, any, any]),
        0,
    );
    octets
}

/// A count, an offset or a length that is not the one that is due.
fn other_number(draft: &mut ShelfDraft, random: &mut Random) {
    let place = random.pick(&[0, draft.entries.len() - 1, draft.entries.len() / 2]);
    let number = match random.below(5) {
        0 => &mut draft.count,
        1..=2 => &mut draft.entries[place][2],
        _ => &mut draft.entries[place][3],
    };
    let due = *number;
    let all = 65_535;
    *number = random.pick(&[due ^ 1, due.wrapping_sub(1), due + 1, due + 256, all]);
}

/// A private shelf of so many octets, well formed but for that, with three records, of which one is
/// asked for, or none.
pub fn of_length(length: usize, random: &mut Random) -> Shelves {
    let tenant = 7;
    let first = 20_000 + random.below(1000);
    let last = length - 2 - 3 * 8 - first - TOY.len();
    let private = draft(&[
        (tenant, 1, vec![random.octet(); first]),
        (tenant, 2, TOY.to_vec()),
        (tenant, 3, vec![random.octet(); last]),
    ]);
    Shelves {
        private: private.octets(),
        public: vec![0, 0],
        tenant,
        profile: random.pick(&[1, 2, 3, 4]),
    }
}

/// A record that the calls after a lookup refuse.
pub fn refused_record(random: &mut Random) -> Vec<u8> {
    if random.one_in(4) {
        Vec::new()
    } else {
        bad(random)
    }
}

#[cfg(test)]
mod tests {
    use super::{not_well_formed, of_length, Shelves};
    use crate::numbers::{Number, PRIVATE_SHELF, PUBLIC_SHELF};
    use crate::random::Random;
    use crate::shelf::{lookup, Asked, Found, Side};

    fn asked(shelves: &Shelves) -> Asked {
        Asked {
            private: shelves.private.clone(),
            public: shelves.public.clone(),
            tenant: shelves.tenant,
            profile: shelves.profile,
        }
    }

    fn found(shelves: &Shelves) -> Result<Found, Number> {
        lookup(&asked(shelves))
    }

    #[test]
    fn the_record_is_found_on_either_shelf() {
        let mut random = Random::new(1);
        let mut sides = [0, 0];
        for _ in 0..1000 {
            let shelves = asked(&Shelves::with(&[3, 1, 4], &mut random));
            let found = lookup(&shelves).unwrap();
            assert_eq!(shelves.octets(&found), [3, 1, 4]);
            sides[usize::from(found.side == Side::Private)] += 1;
        }
        assert!(sides.iter().all(|&count| count > 300), "{sides:?}");
    }

    #[test]
    fn there_are_0_to_64_entries() {
        let mut random = Random::new(4);
        let mut counts = [false; 65];
        for _ in 0..5000 {
            let shelves = Shelves::with(&[], &mut random);
            for octets in [shelves.private, shelves.public] {
                counts[usize::from(octets[1])] = true;
            }
        }
        for count in [0, 1, 2, 63, 64] {
            assert!(counts[count], "{count}");
        }
    }

    #[test]
    fn a_chosen_fault_is_one() {
        let mut random = Random::new(2);
        for _ in 0..2000 {
            let mut shelves = Shelves::with(&[], &mut random);
            shelves.public = not_well_formed(true, &mut random);
            assert_eq!(found(&shelves), Err(PUBLIC_SHELF));
            shelves.private = not_well_formed(false, &mut random);
            assert_eq!(found(&shelves), Err(PRIVATE_SHELF));
        }
    }

    #[test]
    fn a_shelf_of_65_535_octets_is_the_longest() {
        let mut random = Random::new(3);
        let longest = of_length(65_535, &mut random);
        assert_eq!(longest.private.len(), 65_535);
        assert_ne!(found(&longest), Err(PRIVATE_SHELF));
        let longer = of_length(65_536, &mut random);
        assert_eq!(longer.private.len(), 65_536);
        assert_eq!(found(&longer), Err(PRIVATE_SHELF));
    }
}
