use super::buffer::{buffer, interleaved, sent, COLUMNS, ORDER};
use super::streams::{streams, TAPS};
use super::{back, code, rate, send};
use crate::numbers::{Number, CONTROL_LENGTH, NO_BIT, OUTPUT, PARAMETER, SHORT_SHARE, UNSENT};
use crate::random::Random;
use crate::samples::{binary, bits, bits_of_hex};

/// Document 02, CR 5.
const GENERATORS: [u32; 3] = [0o133, 0o171, 0o165];

/// The bits of a word that is written in digits.
fn word(digits: &str) -> Vec<u8> {
    digits
        .bytes()
        .filter(|&digit| digit != b' ')
        .map(|digit| digit - b'0')
        .collect()
}

/// Codes with just room enough.
fn coded(word: &[u8]) -> Vec<u8> {
    let mut output = vec![7; 3 * word.len()];
    assert_eq!(code(word, &mut output), Ok(output.len()));
    output
}

/// Matches with just room enough.
fn rated(streams: &[u8], e: usize) -> Vec<u8> {
    let mut output = vec![7; e];
    let d = streams.len() / 3;
    assert_eq!(rate(d as u64, streams, e as u64, &mut output), Ok(e));
    output
}

/// Takes back with just room enough.
fn taken(d: usize, bits: &[u8]) -> Result<Vec<u8>, Number> {
    let mut output = vec![7; 3 * d];
    match back(d as u64, bits, &mut output) {
        Ok(count) => assert_eq!(count, output.len()),
        Err(number) => {
            assert_eq!(output, vec![7; 3 * d]);
            return Err(number);
        }
    }
    Ok(output)
}

/// The places of the first stream in the order in which they are sent.
fn order(d: usize) -> Vec<usize> {
    let places: Vec<usize> = (0..3 * d).collect();
    let mut sent = sent(&places, d, d);
    assert!(sent.iter().all(|&place| place < d));
    sent.truncate(d);
    sent
}

fn turned(bits: &[u8], place: usize) -> Vec<u8> {
    let mut bits = bits.to_vec();
    bits[place] = 1 - bits[place];
    bits
}

#[test]
fn taps_are_the_digits_of_the_generators() {
    for (generator, taps) in GENERATORS.iter().zip(TAPS) {
        let digits = binary(*generator, 7);
        let ones: Vec<usize> = (0..7).filter(|&place| digits[place] == 1).collect();
        assert_eq!(ones, taps);
    }
}

#[test]
fn worked_streams() {
    assert_eq!(coded(&word("100000")), word("001101 011100 011010"));
    assert_eq!(coded(&word("000001")), word("011010 111000 110100"));
    assert_eq!(coded(&[0; 6]), [0; 18]);
    // Each generator has an odd count of ones.
    assert_eq!(coded(&[1; 128]), [1; 384]);
    // With 7 bits the ends of the register are two bits: the first bit alone shows the generators' digits.
    let single = word("1000000");
    assert_eq!(coded(&single), word("1011011 1111001 1110101"));
    // The same in a longer word, which it does not go round in.
    let single = word("0010000000");
    assert_eq!(
        coded(&single),
        word("0010110110 0011110010 0011101010"),
        "133, 171 and 165"
    );
}

#[test]
fn worked_radio_bits() {
    let word = word("101100");
    let mut output = [7; 21];
    assert_eq!(send(&word, 18, &mut output), Ok(18));
    assert_eq!(output[..18], bits_of_hex("ed6bc0", 18));
    assert_eq!(output[18..], [7; 3]);
    assert_eq!(send(&word, 20, &mut output), Ok(20));
    assert_eq!(output[..20], bits_of_hex("ed6bf0", 20));
    assert_eq!(output[20], 7);
}

/// The register as 5.1.3.1 has it: its bits s_0 to s_5, and with the current one in front each output bit is "the
/// parity of the ones in a masked seven-bit register".
fn by_register(word: &[u8], generator: u32) -> Vec<u8> {
    let mut register: Vec<u8> = word.iter().rev().take(6).copied().collect();
    let preset = register.clone();
    let mut stream = Vec::new();
    for &bit in word {
        register.insert(0, bit);
        let masked = register.iter().zip(binary(generator, 7));
        let ones = masked.filter(|&(&bit, mask)| bit == 1 && mask == 1).count();
        stream.push(u8::from(ones % 2 == 1));
        register.pop();
    }
    // "so that the initial and final states of the shift register are the same".
    assert_eq!(register, preset);
    stream
}

#[test]
fn the_sums_are_those_of_the_register() {
    let mut random = Random::new(1);
    for d in 6..=128 {
        for _ in 0..5 {
            let word = bits(d, &mut random);
            let stream = |&generator: &u32| by_register(&word, generator);
            let expected: Vec<u8> = GENERATORS.iter().flat_map(stream).collect();
            assert_eq!(coded(&word), expected);
        }
    }
    for number in 0..256 {
        let word = binary(number, 8);
        let stream = |&generator: &u32| by_register(&word, generator);
        let expected: Vec<u8> = GENERATORS.iter().flat_map(stream).collect();
        assert_eq!(coded(&word), expected);
    }
}

#[test]
fn a_word_turned_round_has_its_streams_turned_round() {
    let mut random = Random::new(2);
    for d in [6, 7, 8, 31, 32, 33, 128] {
        let mut word = bits(d, &mut random);
        let mut streams = coded(&word);
        for _ in 0..d {
            word.rotate_left(1);
            streams
                .chunks_mut(d)
                .for_each(|stream| stream.rotate_left(1));
            assert_eq!(coded(&word), streams);
        }
    }
}

#[test]
fn the_order_of_the_columns_is_the_table_of_the_document() {
    let mut sorted = ORDER;
    sorted.sort_unstable();
    assert_eq!(sorted.to_vec(), (0..COLUMNS).collect::<Vec<usize>>());
    // It has a rule, which a slip of a number would break: the five binary digits of j in the other order, the odd
    // columns before the even ones.
    for (place, column) in ORDER.iter().enumerate() {
        let turned = place.reverse_bits() >> (usize::BITS - 5);
        assert_eq!(*column, turned ^ 1);
    }
}

#[test]
fn the_first_places_of_40_that_are_sent() {
    // 24 dummies, so that places 0 to 7 are in the last columns of the first row and place 8 in column 0 of the
    // second. Column 1 has place 9 only, column 25 has places 1 and 33.
    assert_eq!(order(40)[..5], [9, 25, 17, 1, 33]);
    assert_eq!(
        rated(&[vec![0; 9], vec![1], vec![0; 110]].concat(), 2),
        [1, 0]
    );
}

#[test]
fn one_row_is_sent_in_the_order_of_the_columns() {
    assert_eq!(order(32), ORDER);
    let without_dummy = |column: &usize| column.checked_sub(1);
    let shorter: Vec<usize> = ORDER.iter().filter_map(without_dummy).collect();
    assert_eq!(order(31), shorter);
    // Columns 26 to 31, as they stand in the table: 29 27 31 28 26 30.
    assert_eq!(order(6), [3, 1, 5, 2, 0, 4]);
}

#[test]
fn two_rows_with_31_dummies() {
    // Place 0 is alone in the first row, in column 31, and under it is place 32.
    let under = |&column: &usize| match column {
        31 => vec![0, 32],
        _ => vec![column + 1],
    };
    let expected: Vec<usize> = ORDER.iter().flat_map(under).collect();
    assert_eq!(order(33), expected);
    assert_eq!(order(33).len(), 33);
}

#[test]
fn whole_rows_have_no_dummies() {
    for rows in 1..=4 {
        let places: Vec<usize> = (0..rows * COLUMNS).collect();
        let cells = interleaved(&places);
        assert!(cells.iter().all(Option::is_some));
        for (place, cell) in cells.iter().enumerate() {
            let (column, row) = (place / rows, place % rows);
            assert_eq!(*cell, Some(ORDER[column] + COLUMNS * row));
        }
    }
}

#[test]
fn the_buffer_has_every_place_once_and_dummies_up_to_whole_rows() {
    for d in 6..=128 {
        let places: Vec<usize> = (0..3 * d).collect();
        let buffer = buffer(&places, d);
        let each = d.next_multiple_of(32);
        assert_eq!(buffer.len(), 3 * each);
        for (stream, part) in buffer.chunks(each).enumerate() {
            let mut found: Vec<usize> = part.iter().copied().flatten().collect();
            found.sort_unstable();
            assert_eq!(found, places[stream * d..(stream + 1) * d]);
            // Dummies are in front: in the first row only, which each column begins with.
            let rows = each / COLUMNS;
            for (column, cells) in part.chunks(rows).enumerate() {
                assert_eq!(cells[0].is_none(), ORDER[column] < each - d);
                assert!(cells[1..].iter().all(Option::is_some));
            }
        }
    }
}

#[test]
fn streams_are_sent_one_after_the_other_and_round_again() {
    for d in [6, 7, 31, 32, 33, 40, 64, 65, 96, 97, 127, 128] {
        let own = order(d);
        let places: Vec<usize> = (0..3 * d).collect();
        let sent = sent(&places, d, 7 * d + 1);
        for (k, place) in sent.iter().enumerate() {
            let stream = k / d % 3;
            assert_eq!(*place, stream * d + own[k % d], "{d} {k}");
        }
    }
}

#[test]
fn fewer_bits_are_the_first_of_more() {
    let mut random = Random::new(3);
    for d in [6, 33, 128] {
        let streams = bits(3 * d, &mut random);
        let most = rated(&streams, 65_536);
        for e in [1, 2, d - 1, d, d + 1, 3 * d, 3 * d + 1, 6 * d, 65_535] {
            assert_eq!(rated(&streams, e), most[..e]);
        }
    }
}

#[test]
fn a_word_is_sent_as_its_streams_are_matched() {
    let mut random = Random::new(4);
    for d in 6..=128 {
        let word = bits(d, &mut random);
        let all = streams(&word);
        assert_eq!(coded(&word), all);
        for e in [1, d, 3 * d - 1, 3 * d, 4 * d + 1] {
            let mut output = vec![7; e];
            assert_eq!(send(&word, e as u64, &mut output), Ok(e));
            assert_eq!(output, rated(&all, e));
        }
    }
}

#[test]
fn what_is_sent_whole_comes_back() {
    let mut random = Random::new(5);
    for d in 6..=128 {
        let any = bits(3 * d, &mut random);
        let all = streams(&any[..d]);
        for e in [3 * d, 3 * d + 1, 4 * d, 6 * d - 1, 6 * d, 9 * d + 2] {
            assert_eq!(taken(d, &rated(&any, e)), Ok(any.clone()));
            assert_eq!(taken(d, &rated(&all, e)), Ok(all.clone()));
        }
    }
    for e in [65_535, 65_536] {
        let any = bits(384, &mut random);
        assert_eq!(taken(128, &rated(&any, e)), Ok(any));
    }
}

#[test]
fn bits_of_once_round_are_sent_of_some_streams_whatever_they_are() {
    let mut random = Random::new(6);
    for d in 6..=128 {
        let received = bits(3 * d, &mut random);
        let streams = taken(d, &received).unwrap();
        assert_eq!(rated(&streams, 3 * d), received);
    }
}

#[test]
fn copies_that_differ_are_sent_of_no_streams() {
    let mut random = Random::new(7);
    for d in [6, 7, 32, 33, 128] {
        let streams = bits(3 * d, &mut random);
        for e in [3 * d + 1, 3 * d + 5, 6 * d, 6 * d + 1] {
            let sent = rated(&streams, e);
            for place in 0..e {
                let changed = taken(d, &turned(&sent, place));
                let has_copy = place + 3 * d < e || place >= 3 * d;
                if has_copy {
                    assert_eq!(changed, Err(UNSENT), "{d} {e} {place}");
                } else {
                    assert_ne!(changed, Ok(streams.clone()));
                    assert_eq!(rated(&changed.unwrap(), e), turned(&sent, place));
                }
            }
        }
    }
}

#[test]
fn copies_that_are_turned_together_are_sent_of_other_streams() {
    let mut random = Random::new(8);
    for d in [6, 33, 64] {
        let streams = bits(3 * d, &mut random);
        let sent = rated(&streams, 6 * d);
        for place in 0..3 * d {
            let both = turned(&turned(&sent, place), place + 3 * d);
            let other = taken(d, &both).unwrap();
            assert_eq!(rated(&other, 6 * d), both);
        }
    }
}

#[test]
fn bits_are_taken_back_exactly_where_some_streams_are_sent_as_them() {
    let mut random = Random::new(9);
    for more in 0..4 {
        let mut counts = [0; 2];
        for _ in 0..400 {
            let received = bits(18 + more, &mut random);
            let agree = received[..more] == received[18..];
            match taken(6, &received) {
                Ok(streams) => assert_eq!(rated(&streams, received.len()), received),
                Err(number) => assert_eq!(number, UNSENT),
            }
            assert_eq!(taken(6, &received).is_ok(), agree);
            counts[usize::from(agree)] += 1;
        }
        assert!(counts[1] > 20 && (counts[0] > 20 || more == 0));
    }
}

/// Lengths that no word has: near, and those that are one again in fewer places.
fn other_lengths() -> impl Iterator<Item = u64> {
    let wrapped = [8, 16, 32, 63].map(|place| (1 << place) + 6);
    let far = [u64::MAX, u64::MAX / 3, u64::MAX / 3 + 3];
    (0..6).chain(129..300).chain(wrapped).chain(far)
}

#[test]
fn a_word_has_6_to_128_bits() {
    for d in other_lengths() {
        let mut output = [7; 1000];
        assert_eq!(rate(d, &[1; 18], 18, &mut output), Err(CONTROL_LENGTH));
        assert_eq!(back(d, &[1; 18], &mut output), Err(CONTROL_LENGTH));
        if d < 300 || d == 65_542 {
            let word = vec![1; usize::try_from(d).unwrap()];
            assert_eq!(code(&word, &mut output), Err(CONTROL_LENGTH));
            assert_eq!(send(&word, 18, &mut output), Err(CONTROL_LENGTH));
        }
        assert_eq!(output, [7; 1000]);
    }
    for d in 6..=128 {
        let mut output = [7; 384];
        assert_eq!(code(&vec![0; d], &mut output), Ok(3 * d));
        assert_eq!(send(&vec![0; d], 1, &mut output), Ok(1));
        assert_eq!(rate(d as u64, &vec![0; 3 * d], 1, &mut output), Ok(1));
        assert_eq!(back(d as u64, &vec![0; 3 * d], &mut output), Ok(3 * d));
    }
}

#[test]
fn e_is_1_to_65_536() {
    let mut output = vec![7; 70_000];
    let wrapped = [16, 32, 63].map(|place| (1 << place) + 18);
    for e in [0, 65_537, 65_538, 131_072, u64::MAX]
        .into_iter()
        .chain(wrapped)
    {
        assert_eq!(send(&[1; 6], e, &mut output), Err(PARAMETER), "{e}");
        assert_eq!(rate(6, &[1; 18], e, &mut output), Err(PARAMETER), "{e}");
    }
    for e in [0, 65_537, 65_538, 65_554, 131_072] {
        assert_eq!(back(6, &vec![1; e], &mut output), Err(PARAMETER), "{e}");
    }
    assert_eq!(output, vec![7; 70_000]);
    for e in [1, 65_535, 65_536] {
        assert_eq!(send(&[1; 6], e as u64, &mut output), Ok(e));
        assert_eq!(rate(6, &[1; 18], e as u64, &mut output), Ok(e));
    }
    assert_eq!(back(6, &vec![1; 65_536], &mut output), Ok(18));
}

#[test]
fn three_streams_have_three_times_the_bits() {
    let mut output = [7; 100];
    for d in [6, 7, 32, 33, 128] {
        for count in (0..600).filter(|&count| count != 3 * d) {
            let number = rate(d as u64, &vec![1; count], 18, &mut output);
            assert_eq!(number, Err(PARAMETER), "{d} {count}");
        }
        assert_eq!(output, [7; 100]);
        assert_eq!(rate(d as u64, &vec![1; 3 * d], 18, &mut [7; 18]), Ok(18));
    }
}

#[test]
fn the_output_has_room_for_the_bits() {
    for d in [6, 33, 128] {
        let (word, streams) = (vec![1; d], vec![1; 3 * d]);
        for length in 0..3 * d {
            let mut output = vec![7; length];
            let e = length as u64 + 1;
            assert_eq!(code(&word, &mut output), Err(OUTPUT));
            assert_eq!(send(&word, e, &mut output), Err(OUTPUT));
            assert_eq!(rate(d as u64, &streams, e, &mut output), Err(OUTPUT));
            assert_eq!(back(d as u64, &streams, &mut output), Err(OUTPUT));
            assert_eq!(output, vec![7; length]);
            // What is sent may be fewer than the streams are.
            assert_eq!(send(&word, e, &mut vec![7; length + 1]), Ok(length + 1));
        }
        let mut output = vec![7; 3 * d + 1];
        assert_eq!(code(&word, &mut output), Ok(3 * d));
        assert_eq!(output[3 * d], 7);
        assert_eq!(back(d as u64, &streams, &mut output), Ok(3 * d));
        assert_eq!(output[3 * d], 7);
    }
}

#[test]
fn octets_over_1_are_refused_wherever_they_stand() {
    let mut output = [7; 200];
    for octet in 2..=255 {
        for place in 0..33 {
            let mut word = [1; 33];
            word[place] = octet;
            assert_eq!(code(&word, &mut output), Err(NO_BIT));
            // Also where it would not be sent.
            assert_eq!(send(&word, 1, &mut output), Err(NO_BIT));
        }
        for place in [0, 1, 32, 33, 65, 66, 97, 98] {
            let mut streams = [1; 99];
            streams[place] = octet;
            assert_eq!(rate(33, &streams, 1, &mut output), Err(NO_BIT));
            assert_eq!(rate(33, &streams, 99, &mut output), Err(NO_BIT));
            assert_eq!(back(33, &streams, &mut output), Err(NO_BIT));
        }
    }
    assert_eq!(output, [7; 200]);
}

#[test]
fn what_is_taken_back_has_room_for_three_streams() {
    for d in [6, 7, 32, 33, 128] {
        for e in 1..3 * d {
            assert_eq!(taken(d, &vec![1; e]), Err(SHORT_SHARE), "{d} {e}");
        }
        assert_eq!(taken(d, &vec![1; 3 * d]), Ok(vec![1; 3 * d]));
    }
}

#[test]
fn coding_refuses_in_order() {
    // 17 before 11 and 12, 11 before 12.
    assert_eq!(code(&[1; 5], &mut []), Err(CONTROL_LENGTH));
    assert_eq!(code(&[2; 5], &mut [7; 15]), Err(CONTROL_LENGTH));
    assert_eq!(code(&[2; 129], &mut []), Err(CONTROL_LENGTH));
    assert_eq!(code(&[2; 6], &mut [7; 17]), Err(OUTPUT));
    assert_eq!(code(&[2; 6], &mut [7; 18]), Err(NO_BIT));
}

#[test]
fn matching_refuses_in_order() {
    let (good, bad) = ([1; 18], [2; 18]);
    // 17 before 8 for E and for the streams, 11 and 12.
    assert_eq!(rate(5, &[1; 15], 0, &mut []), Err(CONTROL_LENGTH));
    assert_eq!(rate(5, &good, 18, &mut [7; 18]), Err(CONTROL_LENGTH));
    assert_eq!(rate(129, &[1; 387], 1, &mut []), Err(CONTROL_LENGTH));
    assert_eq!(rate(129, &[2; 387], 1, &mut [7; 1]), Err(CONTROL_LENGTH));
    // 8 before 11 and 12.
    assert_eq!(rate(6, &good, 65_537, &mut []), Err(PARAMETER));
    assert_eq!(rate(6, &bad, 0, &mut [7; 18]), Err(PARAMETER));
    assert_eq!(rate(6, &good[1..], 18, &mut []), Err(PARAMETER));
    assert_eq!(rate(6, &bad[1..], 18, &mut [7; 18]), Err(PARAMETER));
    // 11 before 12.
    assert_eq!(rate(6, &bad, 18, &mut [7; 17]), Err(OUTPUT));
    assert_eq!(rate(6, &bad, 18, &mut [7; 18]), Err(NO_BIT));
}

#[test]
fn sending_refuses_in_order() {
    let (good, bad) = ([1; 6], [2; 6]);
    // 17 before 8, 11 and 12.
    assert_eq!(send(&good[1..], 0, &mut []), Err(CONTROL_LENGTH));
    assert_eq!(send(&good[1..], 18, &mut []), Err(CONTROL_LENGTH));
    assert_eq!(send(&bad[1..], 18, &mut [7; 18]), Err(CONTROL_LENGTH));
    // 8 before 11 and 12.
    assert_eq!(send(&good, 65_537, &mut []), Err(PARAMETER));
    assert_eq!(send(&bad, 0, &mut [7; 18]), Err(PARAMETER));
    // 11 before 12.
    assert_eq!(send(&bad, 18, &mut [7; 17]), Err(OUTPUT));
    assert_eq!(send(&bad, 18, &mut [7; 18]), Err(NO_BIT));
}

#[test]
fn taking_back_refuses_in_order() {
    let over = vec![1; 65_537];
    let room = || [7; 400];
    let parted = |count: usize| turned(&vec![1; count], count - 1);
    let spoilt = |count: usize| [vec![1; count - 1], vec![2]].concat();
    // 17 before 8, 11, 12, 13 and 14.
    assert_eq!(back(5, &[], &mut room()), Err(CONTROL_LENGTH));
    assert_eq!(back(5, &over, &mut room()), Err(CONTROL_LENGTH));
    assert_eq!(back(5, &[1; 15], &mut []), Err(CONTROL_LENGTH));
    assert_eq!(back(5, &spoilt(15), &mut room()), Err(CONTROL_LENGTH));
    assert_eq!(back(129, &[1; 386], &mut room()), Err(CONTROL_LENGTH));
    assert_eq!(back(5, &parted(16), &mut room()), Err(CONTROL_LENGTH));
    // 8 before 11, 12, 13 and 14.
    assert_eq!(back(6, &[], &mut []), Err(PARAMETER));
    assert_eq!(back(6, &spoilt(65_537), &mut room()), Err(PARAMETER));
    assert_eq!(back(6, &[], &mut room()), Err(PARAMETER));
    assert_eq!(back(6, &parted(65_537), &mut room()), Err(PARAMETER));
    // 11 before 12, 13 and 14.
    assert_eq!(back(6, &spoilt(18), &mut [7; 17]), Err(OUTPUT));
    assert_eq!(back(6, &[1; 17], &mut [7; 17]), Err(OUTPUT));
    assert_eq!(back(6, &parted(19), &mut [7; 17]), Err(OUTPUT));
    // 12 before 13 and 14. An octet that is no bit differs from its copy too.
    assert_eq!(back(6, &spoilt(17), &mut room()), Err(NO_BIT));
    assert_eq!(back(6, &spoilt(19), &mut room()), Err(NO_BIT));
    // 13 before 14 says nothing: bits that are too few have no copies.
    assert_eq!(back(6, &parted(17), &mut room()), Err(SHORT_SHARE));
    assert_eq!(back(6, &parted(19), &mut room()), Err(UNSENT));
}
