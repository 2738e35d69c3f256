use super::{between_two_words, coded, of_a_word, with_one_stream_turned, word_length};
use crate::answer::answer;
use crate::control::nearest;
use crate::generate::{generate, kinds, write};
use crate::kinds::{named, Kind};
use crate::numbers::Number;
use crate::random::Random;
use crate::requests::request;
use crate::samples::binary;

fn kind() -> &'static Kind {
    named(b"near").unwrap()
}

fn lines(seed: u64, count: u64) -> Vec<Vec<u8>> {
    let mut output = Vec::new();
    generate(&kinds(Some("near")).unwrap(), seed, count, &mut output).unwrap();
    let lines = output.split(|&octet| octet == b'\n');
    lines.map(<[u8]>::to_vec).collect()
}

/// D, the received octets and the length of the output of each line that is a request, and the line.
fn requests(lines: &[Vec<u8>]) -> Vec<(u64, Vec<u8>, usize, &[u8])> {
    let mut all = Vec::new();
    for line in lines {
        if let Ok(Some((kind, mut given))) = request(line) {
            assert_eq!(kind.name, "near");
            let (d, received, length) = (given.number(), given.octets(), given.length());
            all.push((d, received, length, &line[..]));
        }
    }
    all
}

/// The numbers of an answer to a request: the first, and the last, which are the differences.
fn ends(line: &[u8]) -> (Number, usize) {
    let text = answer(line).unwrap();
    let words: Vec<&str> = text.split(' ').collect();
    assert_eq!(words.len(), 4, "{text}");
    (words[0].parse().unwrap(), words[3].parse().unwrap())
}

/// The numbers that refuse, in their order, the others left aside.
fn refusals(d: u64, received: &[u8], length: usize) -> Vec<Number> {
    let numbers = [
        (17, !(6..=128).contains(&d)),
        (8, received.len() as u64 != d.saturating_mul(3)),
        (11, (length as u64) < d),
        (12, received.iter().any(|&octet| octet > 1)),
    ];
    let refusing = numbers.iter().filter(|(_, refuses)| *refuses);
    refusing.map(|&(number, _)| number).collect()
}

#[test]
fn the_first_number_that_refuses_is_answered() {
    let lines = lines(1, 2000);
    let requests = requests(&lines);
    assert!(requests.len() > 1500, "{}", requests.len());
    for (d, received, length, line) in requests {
        let numbers = refusals(d, &received, length);
        let first = numbers.first().copied().unwrap_or(0);
        assert_eq!(ends(line).0, first, "{numbers:?}");
        if first > 0 {
            assert_eq!(answer(line), Some(format!("{first} 0 - 0")));
        }
    }
}

#[test]
fn every_number_and_every_pair_of_numbers_is_asked_for_in_2_000_lines() {
    let lines = lines(2, 2000);
    let refused: Vec<Vec<Number>> = requests(&lines)
        .iter()
        .map(|(d, received, length, _)| refusals(*d, received, *length))
        .collect();
    let times = |asked: &dyn Fn(&[Number]) -> bool| {
        let found = refused.iter().filter(|numbers| asked(numbers));
        found.count()
    };
    assert!(times(&<[Number]>::is_empty) > 700);
    let order = [17, 8, 11, 12];
    for (place, first) in order.iter().enumerate() {
        // Each alone too: nothing else is wrong then.
        let alone = times(&|numbers| numbers == [*first]);
        assert!(alone > 20, "{first}: {alone}");
        for then in &order[place + 1..] {
            let pair = times(&|numbers| numbers.contains(first) && numbers.contains(then));
            assert!(pair > 10, "{first} {then}: {pair}");
        }
    }
}

/// Whether D, the received octets and the length of the output lie at a bound.
type Holds = fn(u64, &[u8], usize) -> bool;

#[test]
fn every_bound_is_asked_for() {
    let lines = lines(4, 6000);
    let requests = requests(&lines);
    for d in [0, 5, 6, 12, 128, 129, u64::MAX] {
        assert!(requests.iter().any(|asked| asked.0 == d), "{d}");
    }
    let bounds: [(&str, Holds); 9] = [
        ("one less", |d, received, _| {
            received.len() as u64 + 1 == 3 * d
        }),
        ("one more", |d, received, _| {
            received.len() as u64 == 3 * d + 1
        }),
        ("none", |_, received, _| received.is_empty()),
        ("room for all but one", |d, _, length| {
            length as u64 + 1 == d
        }),
        ("no room", |_, _, length| length == 0),
        ("just room", |d, _, length| length as u64 == d),
        ("more room", |d, _, length| length as u64 > d),
        ("the first is no bit", |_, received, _| received[0] > 1),
        ("the last is no bit", |_, received, _| {
            received[received.len() - 1] > 1
        }),
    ];
    for (name, holds) in bounds {
        let is_so = |(d, received, length, _): &&(u64, Vec<u8>, usize, &[u8])| {
            let is_length = (6..=128).contains(d);
            // What is wrong with an octet is seen only where the streams are three.
            let is_whole = received.len() as u64 == d.saturating_mul(3);
            is_length && (is_whole || !name.ends_with("bit")) && holds(*d, received, *length)
        };
        let count = requests.iter().filter(is_so).count();
        assert!(count > 10, "{name}: {count}");
    }
}

#[test]
fn requests_are_done_or_refused_as_they_are_made_for() {
    let random = &mut Random::new(3);
    for _ in 0..1000 {
        assert_eq!(ends(&write::line(&kind().done(random))).0, 0);
        assert_ne!(ends(&write::line(&kind().refused(random))).0, 0);
    }
}

#[test]
fn every_length_is_drawn_and_one_in_fifty_is_long() {
    let random = &mut Random::new(4);
    let mut times = [0; 129];
    for _ in 0..100_000 {
        times[word_length(random)] += 1;
    }
    assert_eq!(times[..6], [0; 6]);
    assert!(times[6..=12].iter().all(|&times| times > 12_000));
    assert!(times[13..].iter().all(|&times| times > 0), "{times:?}");
    let long: usize = times[13..].iter().sum();
    assert!((1800..2200).contains(&long), "{long}");
    assert!(times[128] > 400, "{}", times[128]);
    // Half of the others lie in the lower half of the lengths.
    let lower: usize = times[13..=70].iter().sum();
    let upper: usize = times[71..128].iter().sum();
    assert!(4 * lower > 3 * upper && 4 * upper > 3 * lower);
}

/// How many words are as near as the nearest.
fn equals(d: usize, received: &[u8]) -> usize {
    let away = |number| {
        let streams = coded(&binary(number, d));
        let pairs = streams.iter().zip(received);
        pairs.filter(|(sent, received)| sent != received).count()
    };
    let all: Vec<usize> = (0..1 << d).map(away).collect();
    let fewest = all.iter().min().unwrap();
    all.iter().filter(|&count| count == fewest).count()
}

#[test]
fn many_lines_have_words_that_are_as_near() {
    let lines = lines(6, 3000);
    let mut counts = [0; 4];
    for (d, received, length, _) in requests(&lines) {
        if d <= 8 && refusals(d, &received, length).is_empty() {
            let equals = equals(usize::try_from(d).unwrap(), &received);
            counts[equals.min(4) - 1] += 1;
        }
    }
    // One word alone, two, three, and four or more.
    assert!(counts.iter().all(|&count| count > 20), "{counts:?}");
}

#[test]
fn lines_have_no_differences_few_and_many() {
    let lines = lines(8, 3000);
    let mut counts = [0; 4];
    for (d, received, length, line) in requests(&lines) {
        if refusals(d, &received, length).is_empty() {
            let (_, differences) = ends(line);
            counts[match differences {
                0 => 0,
                1..=2 => 1,
                3..=5 => 2,
                _ => 3,
            }] += 1;
        }
    }
    assert!(counts.iter().all(|&count| count > 100), "{counts:?}");
}

#[test]
fn lines_of_long_words_have_every_kind_of_noise() {
    let lines = lines(10, 12_000);
    let mut all = [0; 4];
    for (d, received, length, line) in requests(&lines) {
        if d > 12 && refusals(d, &received, length).is_empty() {
            let (_, differences) = ends(line);
            let of_one_kind = received.iter().all(|&bit| bit == received[0]);
            all[0] += usize::from(of_one_kind);
            all[1] += usize::from(!of_one_kind && differences == 0);
            all[2] += usize::from((1..=4).contains(&differences));
            all[3] += usize::from(differences > 10);
        }
    }
    assert!(all.iter().all(|&count| count > 3), "{all:?}");
}

#[test]
fn what_lies_between_two_words_is_as_near_to_both() {
    let random = &mut Random::new(5);
    let [mut ties, mut halves] = [0; 2];
    for _ in 0..200 {
        ties += usize::from(equals(10, &between_two_words(10, random)) > 1);
        let streams = between_two_words(100, random);
        let word = nearest(100, &streams, &mut [7; 100]).unwrap();
        assert!(word.differences <= 8);
        halves += usize::from(word.differences == 8);
    }
    // Short words differ in fewer places, so that a third one is nearer more often.
    assert!(ties > 50, "{ties}");
    assert!(halves > 150, "{halves}");
}

#[test]
fn one_stream_is_turned_whole() {
    let mut turned = [0; 3];
    for seed in 0..200 {
        let streams = of_a_word(20, &mut Random::new(seed));
        let other = with_one_stream_turned(20, &mut Random::new(seed));
        let pairs = streams.chunks(20).zip(other.chunks(20));
        for (place, (stream, other)) in pairs.enumerate() {
            let count = stream.iter().zip(other).filter(|(a, b)| a != b).count();
            assert!([0, 20].contains(&count));
            turned[place] += count / 20;
        }
    }
    assert_eq!(turned.iter().sum::<usize>(), 200);
    assert!(turned.iter().all(|&times| times > 30), "{turned:?}");
}

#[test]
fn the_longest_requests_are_refused() {
    let random = &mut Random::new(7);
    let lines = kind().makers.large.iter();
    let lines = lines.map(|&make| write::line(&kind().request(make, random)));
    let numbers: Vec<Number> = lines.map(|line| ends(&line).0).collect();
    assert_eq!(numbers, [8, 17]);
}

#[test]
fn lines_are_short_on_the_whole() {
    let lines = lines(9, 3000);
    let octets: usize = lines.iter().map(Vec::len).sum();
    assert!(octets < 1500 * lines.len(), "{octets}");
}
