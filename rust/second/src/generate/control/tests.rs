use super::{any_received, count, other_length, part_copies, whole_count, word_length, Receiving};
use crate::answer::answer;
use crate::control::back;
use crate::form::Given;
use crate::generate::{generate, kinds, write};
use crate::kinds::{named, Kind};
use crate::numbers::{Number, UNSENT};
use crate::random::Random;
use crate::requests::request;

const NAMES: [&str; 4] = ["tbenc", "tbrm", "tbsend", "tbback"];

fn kind(name: &str) -> &'static Kind {
    named(name.as_bytes()).unwrap()
}

fn lines(name: &str, seed: u64, count: u64) -> Vec<Vec<u8>> {
    let mut output = Vec::new();
    generate(&kinds(Some(name)).unwrap(), seed, count, &mut output).unwrap();
    let lines = output.split(|&octet| octet == b'\n');
    lines.map(<[u8]>::to_vec).collect()
}

/// The number that a line is answered, where it is a request.
fn number(line: &[u8]) -> Number {
    let text = answer(line).unwrap();
    text.split(' ').next().unwrap().parse().unwrap()
}

/// Each number of a kind in its order, and whether it refuses what is given, the others left aside.
fn refusals(name: &str, mut given: Given) -> Vec<(Number, bool)> {
    let no_bit = |octets: &[u8]| (12, octets.iter().any(|&octet| octet > 1));
    let no_length = |d: u64| (17, !(6..=128).contains(&d));
    let no_count = |e: u64| !(1..=65_536).contains(&e);
    match name {
        "tbenc" => {
            let (word, length) = (given.octets(), given.length());
            let short = length < 3 * word.len();
            vec![no_length(word.len() as u64), (11, short), no_bit(&word)]
        }
        "tbrm" => {
            let (d, streams) = (given.number(), given.octets());
            let (e, length) = (given.number(), given.length() as u64);
            let other = streams.len() as u64 != d.saturating_mul(3);
            let parameter = (8, no_count(e) || other);
            vec![no_length(d), parameter, (11, length < e), no_bit(&streams)]
        }
        "tbsend" => {
            let (word, e, length) = (given.octets(), given.number(), given.length() as u64);
            let parameter = (8, no_count(e));
            vec![
                no_length(word.len() as u64),
                parameter,
                (11, length < e),
                no_bit(&word),
            ]
        }
        _ => {
            let (d, bits, length) = (given.number(), given.octets(), given.length() as u64);
            let (once, e) = (d.saturating_mul(3), bits.len() as u64);
            vec![
                no_length(d),
                (8, no_count(e)),
                (11, length < once),
                no_bit(&bits),
                (13, e < once),
                (14, copies_differ(&bits, once)),
            ]
        }
    }
}

/// All that is sent comes again after once round.
fn copies_differ(bits: &[u8], once: u64) -> bool {
    let once = usize::try_from(once).unwrap_or(usize::MAX);
    let copies = bits.iter().skip(once);
    bits.iter().zip(copies).any(|(bit, copy)| bit != copy)
}

/// The numbers that refuse each of the lines that are requests.
fn refused(name: &str, lines: &[Vec<u8>]) -> Vec<Vec<Number>> {
    let mut all = Vec::new();
    for line in lines {
        let Ok(Some((kind, given))) = request(line) else {
            continue;
        };
        assert_eq!(kind.name, name);
        let numbers = refusals(name, given);
        let numbers = numbers.iter().filter(|(_, refuses)| *refuses);
        all.push(numbers.map(|&(number, _)| number).collect());
    }
    all
}

#[test]
fn the_first_number_that_refuses_is_answered() {
    for name in NAMES {
        let mut lines = lines(name, 1, 2000);
        lines.retain(|line| request(line).is_ok_and(|read| read.is_some()));
        let refused = refused(name, &lines);
        assert!(lines.len() > 1500, "{name}: {}", lines.len());
        for (line, numbers) in lines.iter().zip(refused) {
            let first = numbers.first().copied().unwrap_or(0);
            assert_eq!(number(line), first, "{name} {numbers:?}");
        }
    }
}

#[test]
fn every_number_and_every_pair_of_numbers_is_asked_for_in_2_000_lines() {
    for (name, order) in [
        ("tbenc", &[17, 11, 12][..]),
        ("tbrm", &[17, 8, 11, 12]),
        ("tbsend", &[17, 8, 11, 12]),
        ("tbback", &[17, 8, 11, 12, 13, 14]),
    ] {
        let refused = refused(name, &lines(name, 2, 2000));
        let times = |asked: &dyn Fn(&[Number]) -> bool| {
            let found = refused.iter().filter(|numbers| asked(numbers));
            found.count()
        };
        assert!(times(&<[Number]>::is_empty) > 700, "{name}");
        for (place, first) in order.iter().enumerate() {
            let answered = times(&|numbers| numbers.first() == Some(first));
            assert!(answered > 20, "{name} {first}: {answered}");
            for then in &order[place + 1..] {
                let pair = times(&|numbers| numbers.contains(first) && numbers.contains(then));
                // Bits that are too few have no copies.
                let is_none = (*first, *then) == (13, 14);
                assert_eq!(pair == 0, is_none, "{name} {first} {then}: {pair}");
            }
        }
    }
}

#[test]
fn requests_are_done_or_refused_as_they_are_made_for() {
    let random = &mut Random::new(3);
    for name in NAMES {
        let made = |words| number(&write::line(&words));
        let mut refused = 0;
        for _ in 0..1000 {
            assert_eq!(made(kind(name).done(random)), 0, "{name}");
            refused += usize::from(made(kind(name).refused(random)) != 0);
        }
        // Any bits may be sent as some streams.
        let least = if name == "tbback" { 900 } else { 1000 };
        assert!(refused >= least, "{name}: {refused}");
    }
}

#[test]
fn every_length_is_drawn_and_those_about_the_bounds_often() {
    let random = &mut Random::new(4);
    let mut times = [0; 129];
    for _ in 0..20_000 {
        times[word_length(random)] += 1;
    }
    assert_eq!(times[..6], [0; 6]);
    assert!(times[6..].iter().all(|&times| times > 30));
    for length in [6, 7, 31, 32, 33, 63, 64, 65, 95, 96, 97, 127, 128] {
        assert!(times[length] > 500, "{length}");
    }
    let others: Vec<usize> = (0..1000).map(|_| other_length(random)).collect();
    assert!(others.iter().all(|length| !(6..=128).contains(length)));
    for length in [0, 5, 129, 256] {
        assert!(others.contains(&length), "{length}");
    }
}

#[test]
fn counts_lie_about_the_ends_of_the_streams() {
    let random = &mut Random::new(5);
    for d in [6, 32, 33, 128] {
        let counts: Vec<usize> = (0..3000).map(|_| count(d, random)).collect();
        for times in [1, 2, 3, 6] {
            for e in [times * d - 1, times * d, times * d + 1] {
                assert!(counts.contains(&e), "{d} {e}");
            }
        }
        assert!(counts.iter().all(|e| (1..=65_536).contains(e)));
        assert!([1, 65_535, 65_536].iter().all(|e| counts.contains(e)));
        let whole: Vec<usize> = (0..3000).map(|_| whole_count(d, random)).collect();
        for e in [3 * d, 3 * d + 1, 6 * d, 9 * d, 65_535, 65_536] {
            assert!(whole.contains(&e), "{d} {e}");
        }
        assert!(whole.iter().all(|e| (3 * d..=65_536).contains(e)));
    }
}

#[test]
fn a_bit_that_is_turned_parts_copies() {
    let random = &mut Random::new(6);
    let mut any = [0; 2];
    for _ in 0..1000 {
        let mut receiving = Receiving::drawn(random);
        let once = 3 * usize::try_from(receiving.d).unwrap();
        let taken = |receiving: &Receiving| back(receiving.d, &receiving.bits, &mut [7; 384]);
        assert_eq!(taken(&receiving), Ok(once));
        if receiving.bits.len() > once {
            part_copies(&mut receiving.bits, once, random);
            assert_eq!(taken(&receiving), Err(UNSENT));
        }
        any[usize::from(taken(&any_received(random)).is_ok())] += 1;
    }
    assert!(any.iter().all(|&times| times > 300), "{any:?}");
}

#[test]
fn the_longest_requests_are_just_done_or_just_not() {
    let random = &mut Random::new(7);
    let mut numbers = |name: &str| -> Vec<Number> {
        let kind = kind(name);
        let lines = kind.makers.large.iter();
        let lines = lines.map(|&make| write::line(&kind.request(make, random)));
        lines.map(|line| number(&line)).collect()
    };
    assert_eq!(numbers("tbenc"), [17]);
    assert_eq!(numbers("tbrm"), [0, 8, 8]);
    assert_eq!(numbers("tbsend"), [0, 17]);
    assert_eq!(numbers("tbback"), [0, 0, 8, 8, 14]);
}

#[test]
fn lines_are_short_on_the_whole() {
    for name in NAMES {
        let lines = lines(name, 8, 3000);
        let octets: usize = lines.iter().map(Vec::len).sum();
        assert!(octets < 1500 * lines.len(), "{name}: {octets}");
    }
}
