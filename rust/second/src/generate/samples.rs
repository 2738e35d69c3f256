//! Well-formed shelves that are drawn, for comparing two readers of their texts: records of either type, and
//! octets that are no record, since "record contents are not judged here".

use std::fs;
use std::io;
use std::path::Path;

use super::records::{bad, good, largest, no_staircase, small};
use super::send::octets;
use super::shelf::{draft, entries, number};
use crate::random::Random;
use crate::samples::TOY;
use crate::shelf::{Records, Side, MOST_ENTRIES, MOST_OCTETS};

/// Writes so many shelves into a folder, each under its place and its side.
pub fn write(count: u64, seed: u64, folder: &Path) -> io::Result<()> {
    let mut random = Random::new(seed);
    fs::create_dir_all(folder)?;
    for place in 1..=count {
        let (side, shelf) = drawn(&mut random);
        let name = match side {
            Side::Private => "private",
            Side::Public => "public",
        };
        fs::write(folder.join(format!("{place:05}-{name}.shelf")), shelf)?;
    }
    Ok(())
}

/// A shelf and its side.
pub fn drawn(random: &mut Random) -> (Side, Vec<u8>) {
    let side = random.pick(&[Side::Private, Side::Public]);
    let mut records = records(side, random);
    while length(&records) > MOST_OCTETS {
        records.pop_first();
    }
    if random.one_in(12) {
        fill(&mut records, side, random);
    }
    (side, draft(&entries(records)).octets())
}

/// None, few, or as many records as there may be.
fn records(side: Side, random: &mut Random) -> Records {
    let many = random.below(MOST_ENTRIES + 1);
    let count = random.pick(&[0, 1, 1, 2, 2, 3, 3, 5, 8, many, 63, MOST_ENTRIES]);
    let mut records = Records::new();
    while records.len() < count {
        let profile = number(random);
        // One profile number for several tenants, and for one of them the next ones too.
        let tenant = tenant(side, random);
        for more in 0..random.pick(&[1, 1, 2, 5]) {
            let pair = match random.below(2) {
                0 => (tenant, profile.wrapping_add(more)),
                _ => (self::tenant(side, random), profile),
            };
            if records.len() < count {
                records.insert(pair, contents(random));
            }
        }
    }
    records
}

fn tenant(side: Side, random: &mut Random) -> u16 {
    match side {
        Side::Private => number(random).max(1),
        Side::Public => 0,
    }
}

/// A record that is accepted, one that is refused with 5 or 6, or octets of any kind or none.
fn contents(random: &mut Random) -> Vec<u8> {
    match random.below(14) {
        0..=1 => Vec::new(),
        2 => TOY.to_vec(),
        3..=5 => small(random).octets(),
        6..=7 => good(random).octets(),
        8..=9 => bad(random),
        10..=11 => no_staircase(random).octets(),
        12 => octets(1 + random.below(8), random),
        _ => octets(1 + random.below(80), random),
    }
}

/// The octets of the shelf of these records.
fn length(records: &Records) -> usize {
    let record = |record: &Vec<u8>| 8 + record.len();
    2 + records.values().map(record).sum::<usize>()
}

/// Fills a shelf up with one long record, or with the longest that are accepted and the rest.
fn fill(records: &mut Records, side: Side, random: &mut Random) {
    if random.one_in(2) {
        let longest = largest(&[79, 80, 81], random).octets();
        while records.len() + 1 < MOST_ENTRIES && length(records) + 8 + longest.len() < MOST_OCTETS
        {
            let pair = (tenant(side, random), any(random));
            records.insert(pair, longest.clone());
        }
    }
    let pair = (tenant(side, random), any(random));
    records.remove(&pair);
    let most = MOST_OCTETS - random.pick(&[0, 0, 0, 1, 7, 300]);
    while records.len() == MOST_ENTRIES || length(records) + 8 > most {
        records.pop_last();
    }
    let rest = most - length(records) - 8;
    records.insert(pair, octets(rest, random));
}

fn any(random: &mut Random) -> u16 {
    u16::from_be_bytes([random.octet(), random.octet()])
}

#[cfg(test)]
mod tests {
    use super::{drawn, write};
    use crate::random::Random;
    use crate::record::{profile, Coding};
    use crate::samples::folder;
    use crate::shelf::{is_well_formed, records, Side, MOST_OCTETS};
    use std::collections::BTreeMap;

    #[test]
    fn they_are_well_formed_and_of_every_sort() {
        let mut random = Random::new(1);
        let mut counts = BTreeMap::<String, usize>::new();
        let mut seen = |what: &str| *counts.entry(what.to_string()).or_default() += 1;
        for _ in 0..1500 {
            let (side, shelf) = drawn(&mut random);
            let records = records(&shelf, side).expect("it is well formed");
            seen(&format!("{side:?}"));
            match records.len() {
                0 => seen("none"),
                64 => seen("all"),
                _ => {}
            }
            if shelf.len() == MOST_OCTETS {
                seen("full");
            }
            let mut numbers: Vec<u16> = records.keys().map(|pair| pair.1).collect();
            numbers.sort_unstable();
            if numbers.windows(2).any(|pair| pair[0] == pair[1]) {
                seen("repeated");
            }
            for record in records.values() {
                match profile(record) {
                    Ok(profile) if profile.coding == Coding::One => seen("type 1"),
                    Ok(_) => seen("type 2"),
                    Err(_) if record.is_empty() => seen("empty"),
                    Err(number) => seen(&number.to_string()),
                }
            }
        }
        let due = [
            "Private", "Public", "none", "all", "full", "repeated", "type 1", "type 2", "empty",
            "5", "6",
        ];
        for what in due {
            assert!(counts.get(what) > Some(&20), "{what}: {counts:?}");
        }
    }

    #[test]
    fn a_seed_writes_the_same_files_again() {
        let (first, second) = (folder("samples-1"), folder("samples-2"));
        write(20, 7, &first).unwrap();
        write(20, 7, &second).unwrap();
        let mut names: Vec<_> = std::fs::read_dir(&first)
            .unwrap()
            .map(|entry| entry.unwrap().file_name().into_string().unwrap())
            .collect();
        names.sort();
        assert_eq!(names.len(), 20);
        for (place, name) in (1..).zip(&names) {
            let (number, side) = name.split_once('-').unwrap();
            assert_eq!(number, format!("{place:05}"));
            let side = match side {
                "private.shelf" => Side::Private,
                "public.shelf" => Side::Public,
                other => panic!("{other}"),
            };
            let shelf = std::fs::read(first.join(name)).unwrap();
            assert!(is_well_formed(&shelf, side));
            assert_eq!(std::fs::read(second.join(name)).unwrap(), shelf);
        }
        for folder in [first, second] {
            std::fs::remove_dir_all(folder).unwrap();
        }
    }
}
