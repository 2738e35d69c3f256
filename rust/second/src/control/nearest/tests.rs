use super::super::{code, nearest, Nearest};
use super::{differences, digits, of_all_paths, of_all_words, Found};
use crate::numbers::{Number, CONTROL_LENGTH, NO_BIT, OUTPUT, PARAMETER};
use crate::random::Random;
use crate::samples::bits;

/// The bits of streams that are written in digits.
fn streams(digits: &str) -> Vec<u8> {
    let digits = digits.bytes().filter(|&digit| digit != b' ');
    digits.map(|digit| digit - b'0').collect()
}

fn coded(word: &[u8]) -> Vec<u8> {
    let mut output = vec![7; 3 * word.len()];
    assert_eq!(code(word, &mut output), Ok(output.len()));
    output
}

/// Bits as a number, the first highest.
fn number(word: &[u8]) -> u128 {
    word.iter()
        .fold(0, |number, &bit| 2 * number + u128::from(bit))
}

/// The nearest word, found with just room enough, and in how many places it differs.
fn found(received: &[u8]) -> (Vec<u8>, usize) {
    let d = received.len() / 3;
    let mut word = vec![7; d];
    let answer = nearest(d as u64, received, &mut word).unwrap();
    assert_eq!(answer.count, d);
    (word, answer.differences)
}

/// The same as a pair that can be compared.
fn pair(received: &[u8]) -> Found {
    let (word, differences) = found(received);
    (differences, number(&word))
}

fn turn(bits: &mut [u8], count: usize, random: &mut Random) {
    for _ in 0..count {
        let place = random.below(bits.len());
        bits[place] = 1 - bits[place];
    }
}

/// A word's streams with up to so many bits turned.
fn noisy(d: usize, most: usize, random: &mut Random) -> Vec<u8> {
    let mut streams = coded(&bits(d, random));
    turn(&mut streams, random.below(most + 1), random);
    streams
}

/// In how many places each word differs, the smallest first.
fn all_differences(received: &[u8]) -> Vec<usize> {
    let d = received.len() / 3;
    let away = |number| differences(&coded(&digits(d, number)), received);
    (0..1 << d).map(away).collect()
}

/// How many words are as near as the nearest.
fn equals(received: &[u8]) -> usize {
    let all = all_differences(received);
    let fewest = all.iter().min().unwrap();
    all.iter().filter(|&count| count == fewest).count()
}

#[test]
fn worked_words() {
    for (received, word, differences, words) in [
        ("011010 111000 110100", "000001", 0, 1),
        ("001011 110010 110110", "011011", 4, 3),
        ("1101001 1101000 1001101", "0101001", 6, 4),
    ] {
        let received = streams(received);
        assert_eq!(found(&received), (streams(word), differences));
        assert_eq!(equals(&received), words);
        let d = received.len() / 3;
        let pair = (differences, number(&streams(word)));
        assert_eq!(of_all_words(d, &received), pair);
        assert_eq!(of_all_paths(d, &received), pair);
    }
}

#[test]
fn the_streams_are_read_in_their_order() {
    let (first, second, third) = ("011010", "111000", "110100");
    for other in [
        [second, first, third],
        [first, third, second],
        [third, second, first],
    ] {
        let (word, differences) = found(&streams(&other.concat()));
        assert_ne!((word, differences), (streams("000001"), 0), "{other:?}");
    }
}

#[test]
fn a_word_that_is_written_has_its_first_bit_highest() {
    assert_eq!(digits(6, 1), [0, 0, 0, 0, 0, 1]);
    assert_eq!(digits(7, 0b100_1010), [1, 0, 0, 1, 0, 1, 0]);
    assert_eq!(digits(128, u128::MAX), [1; 128]);
    let mut random = Random::new(1);
    for d in 6..=128 {
        let word = bits(d, &mut random);
        assert_eq!(digits(d, number(&word)), word);
    }
}

#[test]
fn both_ways_find_the_same_word_and_ties_are_among_them() {
    let mut random = Random::new(2);
    let mut ties = 0;
    for d in 6..=12 {
        for _ in 0..200 {
            let few = noisy(d, 4, &mut random);
            let many = noisy(d, 3 * d, &mut random);
            let any = bits(3 * d, &mut random);
            for received in [few, many, any] {
                let all = all_differences(&received);
                let fewest = *all.iter().min().unwrap();
                let first = all.iter().position(|&count| count == fewest).unwrap();
                let expected = (fewest, first as u128);
                assert_eq!(of_all_words(d, &received), expected);
                assert_eq!(of_all_paths(d, &received), expected);
                ties += usize::from(all[first + 1..].contains(&fewest));
            }
        }
    }
    assert!(ties > 1000, "{ties}");
}

#[test]
fn a_few_longer_words_are_all_tried_too() {
    let mut random = Random::new(3);
    for d in 13..=15 {
        for _ in 0..8 {
            for received in [noisy(d, d, &mut random), bits(3 * d, &mut random)] {
                assert_eq!(pair(&received), of_all_words(d, &received));
            }
        }
    }
}

#[test]
fn the_streams_of_a_word_give_the_word() {
    let mut random = Random::new(4);
    for d in 6..=128 {
        let mut last = vec![0; d];
        last[d - 1] = 1;
        for word in [vec![0; d], vec![1; d], last, bits(d, &mut random)] {
            assert_eq!(found(&coded(&word)), (word, 0));
        }
    }
}

#[test]
fn a_few_turned_bits_are_differences() {
    let mut random = Random::new(5);
    for d in (13..=128).step_by(5).chain([127, 128]) {
        for count in 1..=3 {
            let word = bits(d, &mut random);
            let mut received = coded(&word);
            // One in each stream at most, so that none is turned back.
            for stream in 0..count {
                turn(&mut received[stream * d..(stream + 1) * d], 1, &mut random);
            }
            assert_eq!(found(&received), (word, count), "{d}");
        }
    }
}

#[test]
fn no_word_is_farther_away_than_it_is_said() {
    let mut random = Random::new(6);
    for d in [13, 31, 64, 100, 127, 128] {
        for most in [8, 40, 3 * d] {
            let received = noisy(d, most, &mut random);
            let (word, count) = found(&received);
            assert_eq!(differences(&coded(&word), &received), count);
        }
    }
}

/// Some bits turned at any place, round the end too: 1 to 15 as digits, the lowest first.
fn changed(word: &[u8], change: usize, first: usize) -> Vec<u8> {
    let mut word = word.to_vec();
    for place in (0..4).filter(|place| change >> place & 1 == 1) {
        let place = (first + place) % word.len();
        word[place] = 1 - word[place];
    }
    word
}

#[test]
fn no_word_with_few_other_bits_is_before_the_found_one() {
    let mut random = Random::new(7);
    for d in [13, 33, 128] {
        for most in [10, 3 * d] {
            let received = noisy(d, most, &mut random);
            let (word, count) = found(&received);
            for first in 0..d {
                for change in (1..16).step_by(2) {
                    let other = changed(&word, change, first);
                    let away = differences(&coded(&other), &received);
                    let other = (away, number(&other));
                    assert!(other > (count, number(&word)), "{d} {first} {change}");
                }
            }
        }
    }
}

/// Any half of the places where streams differ is taken from the other: both are as near then.
fn halfway(one: &[u8], other: &[u8], random: &mut Random) -> (Vec<u8>, usize) {
    let mut places: Vec<usize> = (0..one.len()).filter(|&k| one[k] != other[k]).collect();
    let half = places.len() / 2;
    assert_eq!(places.len(), 2 * half);
    let mut between = one.to_vec();
    for _ in 0..half {
        let place = places.swap_remove(random.below(places.len()));
        between[place] = other[place];
    }
    (between, half)
}

#[test]
fn of_two_words_that_are_as_near_the_smaller_one_is_found() {
    let mut random = Random::new(8);
    let [mut all, mut of_two] = [0; 2];
    for d in [13, 20, 64, 127, 128] {
        // Two bits that stand close are 16 places, an even number.
        for change in [0b11, 0b101] {
            for first in [0, 1, 5, d / 2, d - 7, d - 6, d - 3, d - 2, d - 1] {
                let word = bits(d, &mut random);
                let other = changed(&word, change, first);
                let (received, away) = halfway(&coded(&word), &coded(&other), &mut random);
                let smaller = (away, number(&word).min(number(&other)));
                let found = pair(&received);
                // A third word may be nearer, or as near and still smaller.
                assert!(found <= smaller, "{d} {change} {first}");
                all += 1;
                of_two += usize::from(found == smaller);
            }
        }
    }
    assert!(2 * of_two > all, "{of_two} of {all}");
}

/// The streams of a word turned round by one place.
fn rotated(streams: &[u8]) -> Vec<u8> {
    let mut streams = streams.to_vec();
    let d = streams.len() / 3;
    for stream in streams.chunks_mut(d) {
        stream.rotate_left(1);
    }
    streams
}

#[test]
fn differences_stay_where_streams_are_turned_round_or_a_word_is_added() {
    let mut random = Random::new(9);
    for d in [7, 12, 13, 50, 128] {
        let mut received = noisy(d, 3 * d, &mut random);
        let (_, count) = found(&received);
        for _ in 0..5 {
            received = rotated(&received);
            assert_eq!(found(&received).1, count);
            // The sum of two words is coded to the sum of their streams.
            let added = coded(&bits(d, &mut random));
            received = received.iter().zip(added).map(|(a, b)| a ^ b).collect();
            assert_eq!(found(&received).1, count);
        }
    }
}

#[test]
fn the_word_is_written_and_nothing_behind_it() {
    let received = streams("001011 110010 110110");
    for length in 6..30 {
        let mut output = vec![7; length];
        let answer = nearest(6, &received, &mut output);
        let (count, differences) = (6, 4);
        assert_eq!(answer, Ok(Nearest { count, differences }));
        assert_eq!(output[..6], [0, 1, 1, 0, 1, 1]);
        assert!(output[6..].iter().all(|&octet| octet == 7));
    }
}

/// The number of a refusal that writes nothing into an output of this length.
fn refused(d: u64, received: &[u8], length: usize) -> Number {
    let mut output = vec![7; length];
    let number = nearest(d, received, &mut output).unwrap_err();
    assert_eq!(output, vec![7; length]);
    number
}

#[test]
fn a_word_has_6_to_128_bits() {
    let wrapped = [8, 16, 32, 63].map(|place| (1 << place) + 6);
    let far = [u64::MAX, u64::MAX / 3, u64::MAX / 3 + 3];
    for d in (0..6).chain(129..200).chain(wrapped).chain(far) {
        assert_eq!(refused(d, &[1; 18], 1000), CONTROL_LENGTH, "{d}");
        if d < 200 {
            let received = vec![1; 3 * usize::try_from(d).unwrap()];
            assert_eq!(refused(d, &received, 1000), CONTROL_LENGTH, "{d}");
        }
    }
}

#[test]
fn received_are_three_streams() {
    for d in [6, 7, 12, 13, 128] {
        for count in (0..600).filter(|&count| count != 3 * d) {
            let number = refused(d as u64, &vec![1; count], 400);
            assert_eq!(number, PARAMETER, "{d} {count}");
        }
    }
}

#[test]
fn the_output_has_room_for_the_word() {
    for d in 6..=128 {
        let received = vec![1; 3 * d];
        for length in [0, 1, d / 3, d - 2, d - 1] {
            assert_eq!(refused(d as u64, &received, length), OUTPUT, "{d}");
        }
        assert_eq!(found(&received), (vec![1; d], 0));
    }
}

#[test]
fn octets_over_1_are_refused_wherever_they_stand() {
    for d in [6, 13, 128] {
        for octet in 2..=255 {
            for place in [0, 1, d - 1, d, 2 * d - 1, 2 * d, 3 * d - 1] {
                let mut received = vec![1; 3 * d];
                received[place] = octet;
                assert_eq!(refused(d as u64, &received, d), NO_BIT, "{d} {place}");
            }
        }
    }
}

#[test]
fn the_nearest_word_is_refused_in_order() {
    // 17 before 8, 11 and 12.
    assert_eq!(refused(5, &[1; 18], 18), CONTROL_LENGTH);
    assert_eq!(refused(5, &[1; 15], 0), CONTROL_LENGTH);
    assert_eq!(refused(129, &[2; 387], 129), CONTROL_LENGTH);
    assert_eq!(refused(129, &[], 0), CONTROL_LENGTH);
    // 8 before 11 and 12.
    assert_eq!(refused(6, &[1; 17], 0), PARAMETER);
    assert_eq!(refused(6, &[2; 19], 6), PARAMETER);
    assert_eq!(refused(128, &[2; 383], 127), PARAMETER);
    // 11 before 12.
    assert_eq!(refused(6, &[2; 18], 5), OUTPUT);
    assert_eq!(refused(6, &[2; 18], 6), NO_BIT);
}
