//! Writes requests for comparing two implementations: good, refused, broken and very long ones.

mod broken;
pub mod control;
pub mod crc;
pub mod crc24b;
pub mod crcoct;
pub mod hosted;
pub mod keep;
mod large;
mod makers;
pub mod masked;
pub mod nearest;
pub mod parity;
pub mod profile;
pub mod rate;
pub mod records;
pub mod recv;
pub mod samples;
pub mod send;
mod shelf;
mod write;

use std::io::{self, Write};

use crate::kinds::{named, Kind, KINDS};
use crate::random::Random;
pub use makers::Makers;

/// The very long lines stand apart by this much, so that a file of some thousand stays small.
const LARGE_EVERY: u64 = 1000;

/// The kinds that are asked for: that of a name, or all of them; none where there is no such name.
pub fn kinds(name: Option<&str>) -> Option<Vec<&'static Kind>> {
    match name {
        Some(name) => Some(vec![named(name.as_bytes())?]),
        None => Some(KINDS.iter().collect()),
    }
}

/// An odd seed leaves off the last newline: both ends of a file are to be compared.
pub fn generate(kinds: &[&Kind], seed: u64, count: u64, output: &mut impl Write) -> io::Result<()> {
    let mut random = Random::new(seed);
    for place in 1..=count {
        output.write_all(&line(kinds, seed, place, &mut random))?;
        if place < count || seed % 2 == 0 {
            output.write_all(b"\n")?;
        }
    }
    Ok(())
}

fn line(kinds: &[&Kind], seed: u64, place: u64, random: &mut Random) -> Vec<u8> {
    if place % LARGE_EVERY == 0 {
        // In turn and not at random, so that few of them already show every kind.
        return large::line(kinds, seed.wrapping_add(place / LARGE_EVERY), random);
    }
    let kind = random.pick(kinds);
    let mut line = match random.below(10) {
        0..=3 => write::line(&kind.done(random)),
        4..=7 => write::line(&kind.refused(random)),
        _ => broken::line(kind, random),
    };
    if random.one_in(12) {
        add_ending(&mut line, random);
    }
    line
}

/// What may stand after a request, and some of what may not.
fn add_ending(line: &mut Vec<u8>, random: &mut Random) {
    let endings: [&[u8]; 10] = [
        b" ",
        b"     ",
        b" #",
        b"   # a comment",
        b" #a # b",
        b" # \xe2\x88\x92\xff\0",
        b"#",
        b"\r",
        b"\t",
        b" \t",
    ];
    line.extend_from_slice(random.pick(&endings));
}

#[cfg(test)]
mod tests {
    use super::{generate, kinds};
    use crate::answer::answer;
    use crate::kinds::parts;
    use crate::lines::next_line;
    use crate::numbers::Number;
    use crate::record::Coding;
    use crate::requests::request;
    use crate::shelf::lookup;
    use crate::transfer::Transfer;
    use crate::version::Version;
    use std::collections::{BTreeMap, BTreeSet};

    fn generated(kind: Option<&str>, seed: u64, count: u64) -> Vec<u8> {
        let mut output = Vec::new();
        generate(&kinds(kind).unwrap(), seed, count, &mut output).unwrap();
        output
    }

    fn newlines(output: &[u8]) -> usize {
        output.split(|&octet| octet == b'\n').count() - 1
    }

    /// How often each number or error was answered, and how often nothing.
    fn answers(mut input: &[u8]) -> BTreeMap<String, usize> {
        let mut counts = BTreeMap::new();
        while let Some(line) = next_line(&mut input).unwrap() {
            let text = answer(&line).unwrap_or_default();
            let mut words = text.split(' ');
            let first = words.next().unwrap_or_default();
            let kind = match first {
                "error" => text.clone(),
                number => number.to_string(),
            };
            *counts.entry(kind).or_default() += 1;
        }
        counts
    }

    /// How many of the lines have this answer.
    fn answered(mut input: &[u8], text: &str) -> usize {
        let mut count = 0;
        while let Some(line) = next_line(&mut input).unwrap() {
            count += usize::from(answer(&line).as_deref() == Some(text));
        }
        count
    }

    /// The numbers that are answered often enough among 3,000 requests of a kind, and the rest of
    /// the answers.
    fn numbers_of(kind: &str) -> (BTreeSet<Number>, BTreeMap<String, usize>) {
        let mut counts = answers(&generated(Some(kind), 2, 3000));
        let numbers = (0..=Number::MAX)
            .filter(|number| counts.remove(&number.to_string()) > Some(20))
            .collect();
        (numbers, counts)
    }

    #[test]
    fn a_seed_gives_the_same_requests_again() {
        assert_eq!(generated(None, 7, 500), generated(None, 7, 500));
        assert_ne!(generated(None, 7, 500), generated(None, 9, 500));
    }

    #[test]
    fn as_many_lines_are_written_as_asked() {
        assert_eq!(newlines(&generated(None, 4, 0)), 0);
        assert_eq!(newlines(&generated(None, 4, 1)), 1);
        assert_eq!(newlines(&generated(None, 4, 1000)), 1000);
    }

    #[test]
    fn an_odd_seed_leaves_off_the_last_newline() {
        assert_eq!(newlines(&generated(None, 6, 100)), 100);
        assert_eq!(newlines(&generated(None, 7, 100)), 99);
    }

    #[test]
    fn kinds_have_names() {
        assert_eq!(kinds(Some("plan")).unwrap()[0].name, "plan");
        assert!(kinds(None).unwrap().len() > 1);
        assert!(kinds(Some("plans")).is_none());
    }

    #[test]
    fn every_number_of_a_kind_is_asked_for() {
        for (kind, expected) in [
            ("crc", &[0, 8, 12][..]),
            ("crc24b", &[0, 12]),
            ("crcoct", &[0, 8]),
            ("crcm", &[0, 8, 12]),
            ("crcappend", &[0, 8, 11, 12]),
            ("crctest", &[0, 8, 12]),
            ("profile", &[0, 5, 6]),
            ("plan", &[0, 5, 6, 7, 9, 19]),
            ("encode", &[0, 5, 6, 8, 11, 12]),
            ("check", &[0, 5, 6, 8, 12]),
            ("sums", &[0, 5, 6, 8, 11, 12]),
            ("rate", &[0, 5, 8, 11, 12, 16]),
            ("send", &[0, 5, 6, 7, 8, 9, 10, 11, 16, 19]),
            ("recv", &[0, 5, 6, 7, 8, 9, 10, 11, 12, 13, 14, 16, 19]),
            ("lookup", &[0, 1, 2, 3, 4]),
            ("hsend", &[0, 1, 2, 3, 4, 5, 6, 7, 8, 9, 10, 11, 16, 19]),
            (
                "hrecv",
                &[0, 1, 2, 3, 4, 5, 6, 7, 8, 9, 10, 11, 12, 13, 14, 16, 19],
            ),
            ("hcheck", &[0, 1, 2, 3, 4, 5, 6, 8, 12]),
            ("put", &[0, 1, 2, 5, 6, 11, 26]),
            ("remove", &[0, 1, 2, 4, 11]),
            ("tbenc", &[0, 11, 12, 17]),
            ("tbrm", &[0, 8, 11, 12, 17]),
            ("tbsend", &[0, 8, 11, 12, 17]),
            ("tbback", &[0, 8, 11, 12, 13, 14, 17]),
            ("near", &[0, 8, 11, 12, 17]),
        ] {
            let (numbers, others) = numbers_of(kind);
            let expected = expected.iter().copied().collect();
            assert_eq!(numbers, expected, "{kind}: {others:?}");
        }
    }

    #[test]
    fn a_third_of_what_is_received_is_accepted() {
        for kind in ["recv", "hrecv"] {
            let counts = answers(&generated(Some(kind), 4, 900));
            assert!(counts["0"] > 300, "{kind}: {counts:?}");
        }
    }

    #[test]
    fn words_are_tested_with_either_answer() {
        for kind in ["crctest", "check", "hcheck"] {
            let lines = generated(Some(kind), 4, 2000);
            let (yes, no) = (answered(&lines, "0 1"), answered(&lines, "0 0"));
            let done = yes + no;
            // Of the lines that are done more than half are words that test or check, and more than a quarter
            // others.
            assert!(3 * done > 2000, "{kind}: {done}");
            assert!(2 * yes > done && 4 * no > done, "{kind}: {yes} {no}");
        }
    }

    /// How many of the lines that are requests name no checker, `quick` and `plain`.
    fn checkers(mut input: &[u8]) -> [usize; 3] {
        let mut counts = [0; 3];
        while let Some(line) = next_line(&mut input).unwrap() {
            let names = |word: &str| line.windows(word.len()).any(|part| part == word.as_bytes());
            let checker = ["by=quick", "by=plain"].iter().position(|word| names(word));
            if request(&line).is_ok_and(|read| read.is_some()) {
                counts[checker.map_or(0, |place| place + 1)] += 1;
            }
        }
        counts
    }

    #[test]
    fn a_checker_is_asked_for_in_each_way() {
        for kind in ["check", "recv", "hrecv", "hcheck"] {
            let counts = checkers(&generated(Some(kind), 4, 1000));
            assert!(
                counts.iter().all(|&count| count > 200),
                "{kind}: {counts:?}"
            );
        }
        for kind in ["encode", "sums", "hsend"] {
            let counts = checkers(&generated(Some(kind), 4, 1000));
            assert_eq!(counts[1..], [0, 0], "{kind}");
        }
    }

    /// The transfer that a line of `send`, `recv`, `hsend` or `hrecv` asks for, where there is one.
    fn transfer(name: &str, line: &[u8]) -> Option<Transfer> {
        let (kind, mut given) = request(line).ok()??;
        if kind.name != name {
            return None;
        }
        let record = if name.starts_with('h') {
            let shelves = parts::shelves(&mut given);
            shelves.octets(&lookup(&shelves).ok()?).to_vec()
        } else {
            given.octets()
        };
        let (a, asked) = if name.ends_with("send") {
            let sending = parts::sending(&mut given);
            (8 * sending.block.len() as u64, sending.asked)
        } else {
            let receiving = parts::receiving(&mut given);
            (receiving.a, receiving.received().asked())
        };
        Transfer::new(&record, a, asked).ok()
    }

    /// How many of the lines ask for a transfer, and how many of those have unequal shares: first of
    /// the lines that are done, and then of all.
    fn unequal_shares(name: &str, mut input: &[u8]) -> [(usize, usize); 2] {
        let mut counts = [(0, 0); 2];
        while let Some(line) = next_line(&mut input).unwrap() {
            let Some(transfer) = transfer(name, &line) else {
                continue;
            };
            let is_done = answer(&line).unwrap().starts_with("0 ");
            let unequal = transfer.shares.first() != transfer.shares.last();
            for count in &mut counts[usize::from(!is_done)..] {
                count.0 += 1;
                count.1 += usize::from(unequal);
            }
        }
        counts
    }

    #[test]
    fn half_of_what_is_sent_and_received_has_unequal_shares() {
        for name in ["send", "recv", "hsend", "hrecv"] {
            let counts = unequal_shares(name, &generated(Some(name), 4, 2000));
            for (all, unequal) in counts {
                assert!(all > 500 && 2 * unequal > all, "{name}: {counts:?}");
            }
        }
    }

    /// How many of the lines that ask for a transfer start inside filler, and how many in each version.
    fn starts(name: &str, mut input: &[u8]) -> (usize, [usize; 4]) {
        let (mut inside, mut versions) = (0, [0; 4]);
        while let Some(line) = next_line(&mut input).unwrap() {
            let Some(transfer) = transfer(name, &line) else {
                continue;
            };
            let plan = &transfer.plan;
            let start = transfer.version.start(transfer.profile.columns() * plan.z);
            let is_inside = |r| (plan.carried_bits(r)..plan.k).contains(&start);
            inside += usize::from((0..plan.c).any(is_inside));
            let rv = (0..4).position(|rv| Version::new(Coding::Two, rv) == Ok(transfer.version));
            versions[rv.unwrap_or(0)] += 1;
        }
        (inside, versions)
    }

    #[test]
    fn every_version_is_asked_for_and_some_start_inside_filler() {
        for name in ["send", "recv", "hsend", "hrecv"] {
            let (inside, versions) = starts(name, &generated(Some(name), 4, 2000));
            assert!(inside > 20, "{name}: {inside}");
            assert!(
                versions.iter().all(|&count| count > 100),
                "{name}: {versions:?}"
            );
        }
    }

    /// How many of the lines that are done have several blocks without checksums of their own, and how many
    /// with them.
    fn sums(name: &str, mut input: &[u8]) -> [usize; 2] {
        let mut counts = [0; 2];
        while let Some(line) = next_line(&mut input).unwrap() {
            let Some(transfer) = transfer(name, &line) else {
                continue;
            };
            if transfer.plan.c > 1 && answer(&line).unwrap().starts_with("0 ") {
                counts[usize::from(transfer.plan.l > 0)] += 1;
            }
        }
        counts
    }

    #[test]
    fn a_third_of_what_is_cut_carries_checksums() {
        for name in ["send", "recv", "hsend", "hrecv"] {
            let [without, with] = sums(name, &generated(Some(name), 4, 2000));
            assert!(with > 200 && without > 200, "{name}: {without} {with}");
            assert!(3 * with > without + with, "{name}: {without} {with}");
        }
    }

    /// The answers to the requests whose optional word of this name holds such a number.
    fn answers_where(
        name: &str,
        holds: fn(u64) -> bool,
        mut input: &[u8],
    ) -> BTreeMap<String, usize> {
        let mut such = Vec::new();
        while let Some(line) = next_line(&mut input).unwrap() {
            let read = request(&line);
            if read.is_ok_and(|read| read.is_some_and(|(_, given)| holds(given.number_of(name)))) {
                such.extend(line);
                such.push(b'\n');
            }
        }
        answers(&such)
    }

    /// The answers to the requests with an rv that no type has.
    fn answers_over_3(input: &[u8]) -> BTreeMap<String, usize> {
        answers_where("rv", |rv| rv > 3, input)
    }

    #[test]
    fn pairs_of_faults_show_where_19_stands() {
        for name in ["plan", "send", "recv", "hsend", "hrecv"] {
            let lines = generated(Some(name), 4, 6000);
            let counts = answers_where("ed", |ed| ![1, 2].contains(&ed), &lines);
            // 5 and 6 go before it, and all that is behind it is never answered.
            for first in ["5", "6", "19"] {
                assert!(counts.contains_key(first), "{name}: {counts:?}");
            }
            let before = ["1", "2", "3", "4", "5", "6", "19"];
            assert!(
                counts.keys().all(|number| before.contains(&&number[..])),
                "{name}: {counts:?}"
            );
        }
    }

    #[test]
    fn both_editions_are_asked_for_with_every_number() {
        for name in ["plan", "send", "recv", "hsend", "hrecv"] {
            let lines = generated(Some(name), 6, 6000);
            for holds in [|ed| ed == 1, |ed: u64| ed == 2] {
                let counts = answers_where("ed", holds, &lines);
                let numbers: &[&str] = match &name[name.len() - 4..] {
                    "plan" => &["0", "5", "6", "7", "9"],
                    "send" => &["0", "5", "6", "7", "16", "8", "9", "10", "11"],
                    _ => &[
                        "0", "5", "6", "7", "16", "8", "9", "10", "11", "12", "13", "14",
                    ],
                };
                for number in numbers {
                    assert!(
                        counts.get(*number) > Some(&10),
                        "{name} {number}: {counts:?}"
                    );
                }
            }
        }
    }

    #[test]
    fn pairs_of_faults_show_where_16_stands() {
        for name in ["send", "recv", "hsend", "hrecv"] {
            let counts = answers_over_3(&generated(Some(name), 4, 6000));
            // 5, 6, 19 and 7 go before it, and all that is behind it is never answered.
            for first in ["5", "6", "19", "7", "16"] {
                assert!(counts.contains_key(first), "{name}: {counts:?}");
            }
            let before = ["1", "2", "3", "4", "5", "6", "19", "7", "16"];
            assert!(
                counts.keys().all(|number| before.contains(&&number[..])),
                "{name}: {counts:?}"
            );
        }
        let counts = answers_over_3(&generated(Some("rate"), 4, 6000));
        assert_eq!(counts.keys().collect::<Vec<_>>(), ["16", "5"]);
    }

    #[test]
    fn every_error_is_asked_for() {
        let counts = answers(&generated(None, 2, 6000));
        for kind in [
            "",
            "error request",
            "error words",
            "error number",
            "error bits",
            "error hex",
        ] {
            assert!(counts[kind] > 20, "{kind}: {counts:?}");
        }
        assert!(counts["0"] > 2000, "{counts:?}");
    }
}
