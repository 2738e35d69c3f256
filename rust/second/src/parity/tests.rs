//! Coding and checking: the worked words, each refusal, and what holds of every profile.

use super::{check, encode, spread_out, sums, table, Code, FILLER};
use crate::draft::{Rows, EMPTY};
use crate::generate::records::{good, small};
use crate::matrix::Row;
use crate::numbers::{Number, NO_BIT, OUTPUT, PARAMETER, RECORD, STAIRCASE};
use crate::random::Random;
use crate::record::{profile, Coding, Entry, Profile, Table};
use crate::samples::{
    binary, bits, five_sixths, half, no_staircase, not_well_formed, plain, plain_extended,
    EXTENDED, FIVE, FIVE_WORD, TOY,
};

/// Codes with room enough.
fn coded(record: &[u8], z: u64, places: &[u8]) -> Result<Vec<u8>, Number> {
    let mut output = vec![0; 5000];
    let count = encode(record, z, places, &mut output)?;
    output.truncate(count);
    Ok(output)
}

/// Sums with room enough.
fn summed(record: &[u8], z: u64, word: &[u8]) -> Result<Vec<u8>, Number> {
    let mut output = vec![7; 3300];
    let count = sums(record, z, word, &mut output)?;
    output.truncate(count);
    Ok(output)
}

/// The word with one bit the other way round.
fn changed(word: &[u8], place: usize) -> Vec<u8> {
    let mut changed = word.to_vec();
    changed[place] = 1 - changed[place];
    changed
}

#[test]
fn the_words_of_the_toy() {
    // Document 01, P6 to P9.
    for (places, word) in [
        ([0, 0], [0, 0, 0, 0, 0, 0, 0, 0]),
        ([0, 1], [0, 1, 1, 1, 1, 0, 1, 1]),
        ([1, 0], [1, 0, 1, 1, 0, 1, 1, 1]),
        ([1, 1], [1, 1, 0, 0, 1, 1, 0, 0]),
    ] {
        assert_eq!(coded(&TOY, 2, &places), Ok(word.to_vec()));
        assert_eq!(check(&TOY, 2, &word), Ok(true));
        assert_eq!(summed(&TOY, 2, &word), Ok(vec![0; 6]));
    }
}

#[test]
fn the_toy_has_four_words_that_check() {
    let checking: Vec<Vec<u8>> = (0..256)
        .map(|number| binary(number, 8))
        .filter(|word| check(&TOY, 2, word) == Ok(true))
        .collect();
    assert_eq!(checking.len(), 4);
    for word in checking {
        assert_eq!(coded(&TOY, 2, &word[..2]), Ok(word));
    }
}

#[test]
fn the_toy_spread_out() {
    // Shift 0 is 10 / 01, shift 1 is 01 / 10.
    let toy = profile(&TOY).unwrap();
    let rows = [
        [1, 0, 0, 1, 1, 0, 0, 0],
        [0, 1, 1, 0, 0, 1, 0, 0],
        [0, 1, 1, 0, 1, 0, 1, 0],
        [1, 0, 0, 1, 0, 1, 0, 1],
        [0, 0, 0, 1, 0, 0, 1, 0],
        [0, 0, 1, 0, 0, 0, 0, 1],
    ];
    let rows = rows.map(|row| Row::of(&row)).to_vec();
    assert_eq!(spread_out(&toy.tables[0], 0..4).rows, rows);
}

#[test]
fn the_sums_of_the_toy() {
    // Over the rows of `the_toy_spread_out`.
    for (word, sums) in [
        // The first column is in rows 0 and 3, the last one in rows 3 and 5.
        ([1, 0, 0, 0, 0, 0, 0, 0], [1, 0, 0, 1, 0, 0]),
        ([0, 0, 0, 0, 0, 0, 0, 1], [0, 0, 0, 1, 0, 1]),
        // The word of 01 without its last bit.
        ([0, 1, 1, 1, 1, 0, 1, 0], [0, 0, 0, 1, 0, 1]),
        // Rows 0 and 1 have three ones, all others two or four.
        ([1, 1, 1, 1, 1, 1, 1, 1], [1, 1, 0, 0, 0, 0]),
        // Columns 2 and 6: rows 1, 2 and 5, and rows 2 and 4.
        ([0, 0, 1, 0, 0, 0, 1, 0], [0, 1, 0, 0, 1, 1]),
    ] {
        assert_eq!(summed(&TOY, 2, &word), Ok(sums.to_vec()), "{word:?}");
        assert_eq!(check(&TOY, 2, &word), Ok(false));
    }
}

#[test]
fn a_word_of_z_5() {
    assert_eq!(coded(&FIVE, 5, &[1, 0, 0, 0, 0]), Ok(FIVE_WORD.to_vec()));
    assert_eq!(check(&FIVE, 5, &FIVE_WORD), Ok(true));
    assert_eq!(summed(&FIVE, 5, &FIVE_WORD), Ok(vec![0; 15]));
}

#[test]
fn the_odd_rows_of_words_of_z_5() {
    // The rows are those of `FIVE_WORD`.
    let odd = |word: &[u8]| -> Vec<usize> {
        let sums = summed(&FIVE, 5, word).unwrap();
        assert_eq!(check(&FIVE, 5, word), Ok(false));
        (0..15).filter(|&row| sums[row] == 1).collect()
    };
    // x2 is x[i+2] of row 0, x[i+4] of row 5 + 3, and x[i+1] of row 10 + 1.
    assert_eq!(odd(&changed(&FIVE_WORD, 2)), [0, 8, 11]);
    // p1 is p[i+1] of rows 0 and 10, and p[i] of row 5 + 1.
    assert_eq!(odd(&changed(&FIVE_WORD, 6)), [0, 6, 10]);
    // q4 stands in rows 4 and 9, r0 in rows 5 and 10.
    assert_eq!(odd(&changed(&FIVE_WORD, 14)), [4, 9]);
    assert_eq!(odd(&changed(&FIVE_WORD, 15)), [5, 10]);
    // x0, x1, q0 and r4. Rows 0 to 4: x0 in 3, x1 in 4, q0 in 0. Rows 5 to 9: x0 in 6, x1 in 7, q0 in
    // 5, r4 in 9. Rows 10 to 14: x0 in 14, x1 in 10, r4 in 14, which is even then.
    let word = [1, 1, 0, 0, 0, 0, 0, 0, 0, 0, 1, 0, 0, 0, 0, 0, 0, 0, 0, 1];
    assert_eq!(odd(&word), [0, 3, 4, 5, 6, 7, 9, 10]);
}

/// A column of a table spread out: "Shift s stands for the z by z matrix whose row i has its one in column
/// (i+s) mod z. Empty stands for zeros."
fn column(rows: &Rows, z: usize, place: usize) -> Vec<u8> {
    let entries = rows.iter().map(|row| row[place / z]);
    let has_one = |entry: u8, i: usize| entry != EMPTY && (i + usize::from(entry)) % z == place % z;
    entries
        .flat_map(|entry| (0..z).map(move |i| u8::from(has_one(entry, i))))
        .collect()
}

#[test]
fn one_changed_place_makes_exactly_its_rows_odd() {
    let mut random = Random::new(7);
    for _ in 0..100 {
        let draft = small(&mut random);
        let record = draft.octets();
        for (&z, rows) in draft.sizes.iter().zip(&draft.tables) {
            let places = bits(usize::from(draft.kb * z), &mut random);
            let word = coded(&record, u64::from(z), &places).unwrap();
            for place in 0..word.len() {
                let sums = summed(&record, u64::from(z), &changed(&word, place));
                assert_eq!(sums, Ok(column(rows, usize::from(z), place)));
            }
        }
    }
}

#[test]
fn a_word_checks_when_all_its_sums_are_0() {
    let mut random = Random::new(8);
    let mut counts = [0, 0];
    for _ in 0..1000 {
        let draft = small(&mut random);
        let z = draft.sizes[0];
        let places = bits(usize::from(draft.kb * z), &mut random);
        let mut word = coded(&draft.octets(), u64::from(z), &places).unwrap();
        if random.one_in(2) {
            word = bits(word.len(), &mut random);
        }
        let sums = summed(&draft.octets(), u64::from(z), &word).unwrap();
        let checks = sums == vec![0; usize::from((draft.m + draft.x) * z)];
        assert_eq!(check(&draft.octets(), u64::from(z), &word), Ok(checks));
        counts[usize::from(checks)] += 1;
    }
    assert!(counts.iter().all(|&count| count > 300), "{counts:?}");
}

#[test]
fn row_i_of_shift_s_has_its_one_in_column_i_plus_s() {
    // A slip of document 01: "place (i−s) for (i+s)".
    let table = Table {
        z: 5,
        rows: vec![vec![Entry::Shift(2), Entry::Empty]],
    };
    let matrix = spread_out(&table, 0..2);
    assert_eq!((matrix.rows.len(), matrix.columns), (5, 10));
    for i in 0..5 {
        for column in 0..10 {
            assert_eq!(matrix.rows[i].bit(column), column == (i + 2) % 5);
        }
    }
}

#[test]
fn a_word_with_a_shift_that_has_two_directions() {
    // Kb 1, z 3, one entry 1 left of the staircase, outer shift 0: with s = (x1, x2, x0) summed
    // over rows 0, 1 and 2 the first parity group is s, and all others are worked out by hand.
    let mut draft = plain(1, 3, &[3]);
    draft.tables[0] = vec![
        vec![1, 0, 0, EMPTY],
        vec![EMPTY, 0, 0, 0],
        vec![EMPTY, 0, EMPTY, 0],
    ];
    // Row 0: s + p0 + p1 = 0; row 1: p0 + p1 + p2 = 0; row 2: p0 + p2 = 0. Row 1 and row 2 give
    // p1 = 0, so p0 = s and p2 = s.
    let word = coded(&draft.octets(), 3, &[1, 0, 0]).unwrap();
    assert_eq!(word, [1, 0, 0, 0, 0, 1, 0, 0, 0, 0, 0, 1]);
}

#[test]
fn filler_is_read_as_0_and_stays_marked() {
    // The words 00 and 10 with marks, also with every place marked.
    assert_eq!(
        coded(&TOY, 2, &[1, FILLER]),
        Ok(vec![1, 2, 1, 1, 0, 1, 1, 1])
    );
    assert_eq!(
        coded(&TOY, 2, &[FILLER, 1]),
        Ok(vec![2, 1, 1, 1, 1, 0, 1, 1])
    );
    assert_eq!(
        coded(&TOY, 2, &[FILLER, FILLER]),
        Ok(vec![2, 2, 0, 0, 0, 0, 0, 0])
    );
}

#[test]
fn every_coded_block_checks() {
    let mut random = Random::new(1);
    for draft in [
        half(),
        five_sixths(),
        plain(20, 12, &[81]),
        plain(1, 3, &[1]),
    ] {
        for &z in &draft.sizes {
            let places = bits(usize::from(draft.kb * z), &mut random);
            let word = coded(&draft.octets(), u64::from(z), &places).unwrap();
            assert_eq!(word.len(), usize::from((draft.kb + draft.m) * z));
            assert_eq!(word[..places.len()], places);
            assert_eq!(check(&draft.octets(), u64::from(z), &word), Ok(true));
            for place in [0, places.len() - 1, places.len(), word.len() - 1] {
                let changed = changed(&word, place);
                assert_eq!(check(&draft.octets(), u64::from(z), &changed), Ok(false));
            }
        }
    }
}

#[test]
fn all_words_that_check_are_coded_blocks() {
    // Kb 2, m 3, z 2: 1,024 words, of which the 16 blocks give 16.
    let mut draft = plain(2, 3, &[2]);
    draft.tables[0][0][0] = 1;
    draft.tables[0][2][1] = EMPTY;
    let record = draft.octets();
    let checking: Vec<Vec<u8>> = (0..1024)
        .map(|number| binary(number, 10))
        .filter(|word| check(&record, 2, word) == Ok(true))
        .collect();
    assert_eq!(checking.len(), 16);
    for word in checking {
        assert_eq!(coded(&record, 2, &word[..4]), Ok(word));
    }
}

#[test]
fn every_accepted_profile_gives_every_block_parity_bits() {
    // Document 02, CR 6: "With accepted profiles the staircase gives parity bits that always
    // check." Elimination knows nothing of the staircase.
    let mut random = Random::new(6);
    for _ in 0..200 {
        let record = good(&mut random).octets();
        let profile = profile(&record).unwrap();
        for Table { z, .. } in &profile.tables {
            let code = Code::new(&profile, *z);
            assert!(code.parity.have_a_solution());
            let places: Vec<u8> = (0..profile.kb * z).map(|_| random.below(3) as u8).collect();
            let word = code.coded(&places);
            let read: Vec<u8> = word.iter().map(|place| place % 2).collect();
            assert_eq!(word[..places.len()], places);
            assert_eq!(check(&record, *z as u64, &read), Ok(true));
        }
    }
}

#[test]
fn without_the_staircase_a_block_may_have_no_parity_bits() {
    // No accepted table is like this one: its parity columns are empty.
    let table = Table {
        z: 2,
        rows: vec![vec![Entry::Shift(0), Entry::Empty]],
    };
    let profile = Profile {
        kb: 1,
        m: 1,
        x: 0,
        coding: Coding::One,
        tables: vec![table],
    };
    assert!(!Code::new(&profile, 2).parity.have_a_solution());
}

#[test]
fn a_z_that_the_profile_does_not_give_is_refused() {
    let record = half().octets();
    for z in [27, 54, 81] {
        let places = vec![0; 12 * z];
        assert!(coded(&record, z as u64, &places).is_ok());
        let word = vec![0; 24 * z];
        assert_eq!(check(&record, z as u64, &word), Ok(true));
        assert_eq!(summed(&record, z as u64, &word), Ok(vec![0; 12 * z]));
    }
    for z in [
        0,
        1,
        26,
        28,
        53,
        55,
        80,
        82,
        27 + 256,
        27 + 65_536,
        27 + (1 << 32),
        u64::MAX,
    ] {
        assert_eq!(coded(&record, z, &[0; 324]), Err(PARAMETER), "{z}");
        assert_eq!(check(&record, z, &[0; 648]), Err(PARAMETER), "{z}");
        assert_eq!(summed(&record, z, &[0; 648]), Err(PARAMETER), "{z}");
    }
    let accepted = profile(&record).unwrap();
    assert_eq!(table(&accepted, 54).map(|table| table.z), Ok(54));
}

#[test]
fn a_length_that_the_profile_does_not_give_is_refused() {
    for length in (0..20).filter(|&length| length != 2) {
        assert_eq!(coded(&TOY, 2, &vec![0; length]), Err(PARAMETER));
    }
    for length in (0..20).filter(|&length| length != 8) {
        assert_eq!(check(&TOY, 2, &vec![0; length]), Err(PARAMETER));
        assert_eq!(summed(&TOY, 2, &vec![0; length]), Err(PARAMETER));
    }
    // The length that goes with another z of the profile.
    let record = half().octets();
    assert_eq!(coded(&record, 27, &[0; 648]), Err(PARAMETER));
    assert_eq!(check(&record, 27, &[0; 1296]), Err(PARAMETER));
    assert_eq!(summed(&record, 27, &[0; 1296]), Err(PARAMETER));
}

#[test]
fn the_output_has_room_for_the_coded_block() {
    for length in 0..8 {
        let mut output = vec![7; length];
        assert_eq!(encode(&TOY, 2, &[0, 1], &mut output), Err(OUTPUT));
        assert_eq!(output, vec![7; length]);
    }
    for length in 8..12 {
        let mut output = vec![7; length];
        assert_eq!(encode(&TOY, 2, &[0, 1], &mut output), Ok(8));
        assert_eq!(output[..8], [0, 1, 1, 1, 1, 0, 1, 1]);
        assert_eq!(output[8..], vec![7; length - 8]);
    }
}

#[test]
fn the_output_has_room_for_the_sums() {
    let word = changed(&FIVE_WORD, 14);
    for length in 0..15 {
        let mut output = vec![7; length];
        assert_eq!(sums(&FIVE, 5, &word, &mut output), Err(OUTPUT));
        assert_eq!(output, vec![7; length]);
    }
    for length in 15..25 {
        let mut output = vec![7; length];
        assert_eq!(sums(&FIVE, 5, &word, &mut output), Ok(15));
        assert_eq!(output[..15], [0, 0, 0, 0, 1, 0, 0, 0, 0, 1, 0, 0, 0, 0, 0]);
        assert_eq!(output[15..], vec![7; length - 15]);
    }
}

#[test]
fn octets_over_2_are_refused_in_a_block_and_over_1_in_a_word() {
    for octet in 3..=255 {
        assert_eq!(coded(&TOY, 2, &[octet, 0]), Err(NO_BIT));
        assert_eq!(coded(&TOY, 2, &[0, octet]), Err(NO_BIT));
    }
    for octet in 2..=255 {
        for place in 0..8 {
            let mut word = [0; 8];
            word[place] = octet;
            assert_eq!(check(&TOY, 2, &word), Err(NO_BIT));
            let mut output = [7; 8];
            assert_eq!(sums(&TOY, 2, &word, &mut output), Err(NO_BIT));
            assert_eq!(output, [7; 8]);
        }
    }
}

#[test]
fn the_lowest_number_is_answered() {
    let encode = |record: &[u8], z, places: &[u8], room: usize| {
        encode(record, z, places, &mut vec![0; room])
    };
    assert_eq!(encode(&not_well_formed(), 3, &[9], 0), Err(RECORD));
    assert_eq!(encode(&no_staircase(), 3, &[9], 0), Err(STAIRCASE));
    assert_eq!(encode(&TOY, 3, &[9], 0), Err(PARAMETER));
    assert_eq!(encode(&TOY, 2, &[9], 0), Err(PARAMETER));
    assert_eq!(encode(&TOY, 2, &[9, 9], 7), Err(OUTPUT));
    assert_eq!(encode(&TOY, 2, &[9, 9], 8), Err(NO_BIT));
    assert_eq!(check(&not_well_formed(), 3, &[9]), Err(RECORD));
    assert_eq!(check(&no_staircase(), 3, &[9]), Err(STAIRCASE));
    assert_eq!(check(&TOY, 3, &[9]), Err(PARAMETER));
    assert_eq!(check(&TOY, 2, &[9]), Err(PARAMETER));
    assert_eq!(check(&TOY, 2, &[9; 8]), Err(NO_BIT));
    let sums =
        |record: &[u8], z, word: &[u8], room: usize| sums(record, z, word, &mut vec![0; room]);
    assert_eq!(sums(&not_well_formed(), 3, &[9], 0), Err(RECORD));
    assert_eq!(sums(&no_staircase(), 3, &[9], 0), Err(STAIRCASE));
    assert_eq!(sums(&TOY, 3, &[9], 0), Err(PARAMETER));
    assert_eq!(sums(&TOY, 2, &[9], 0), Err(PARAMETER));
    assert_eq!(sums(&TOY, 2, &[9; 8], 5), Err(OUTPUT));
    assert_eq!(sums(&TOY, 2, &[9; 8], 6), Err(NO_BIT));
}

#[test]
fn a_word_of_type_2() {
    // The word worked out for the record of samples: two bits and a filler.
    let word = [1, 1, 2, 0, 0, 0, 1, 1, 0, 1, 0, 1, 0, 1, 1];
    assert_eq!(coded(&EXTENDED, 3, &[1, 1, FILLER]), Ok(word.to_vec()));
    let read: Vec<u8> = word.iter().map(|place| place % FILLER).collect();
    assert_eq!(check(&EXTENDED, 3, &read), Ok(true));
    assert_eq!(summed(&EXTENDED, 3, &read), Ok(vec![0; 12]));
    // Of the last group every bit stands in one row alone, that of its own.
    for i in 0..3 {
        let mut odd = vec![0; 12];
        odd[9 + i] = 1;
        assert_eq!(summed(&EXTENDED, 3, &changed(&read, 12 + i)), Ok(odd));
        assert_eq!(check(&EXTENDED, 3, &changed(&read, 12 + i)), Ok(false));
    }
    // Group 1 is column kb: rows 0 and 2 with shift 1, row 1 with shift 0, and the extension with shift 2.
    let sums = summed(&EXTENDED, 3, &changed(&read, 3)).unwrap();
    assert_eq!(sums, [0, 0, 1, 1, 0, 0, 0, 0, 1, 0, 1, 0]);
}

#[test]
fn extension_groups_are_worked_out_one_by_one() {
    // Kb 1, m 3, x 2, z 2: a row m+i says what its last group is.
    let record = plain_extended(1, 3, 2, &[2]).octets();
    for number in 0..4 {
        let word = coded(&record, 2, &binary(number, 2)).unwrap();
        assert_eq!(word.len(), 12);
        // Row 3 has shift 1 in columns 0 and 2, row 4 in 0, 2 and 4.
        let at = |group: usize, i: usize| word[2 * group + (i + 1) % 2];
        for i in 0..2 {
            let first = (at(0, i) + at(2, i)) % 2;
            assert_eq!(word[8 + i], first);
            assert_eq!(word[10 + i], (first + at(4, i)) % 2);
        }
    }
}

#[test]
fn the_staircase_part_is_as_without_the_extension() {
    let mut random = Random::new(11);
    for (m, x, z) in [(3, 1, 2), (4, 5, 3), (12, 28, 2), (3, 37, 5)] {
        let alone = plain(2, m, &[z]).octets();
        let record = plain_extended(2, m, x, &[z]).octets();
        let places = bits(usize::from(2 * z), &mut random);
        let left = coded(&alone, u64::from(z), &places).unwrap();
        let word = coded(&record, u64::from(z), &places).unwrap();
        assert_eq!(word.len(), usize::from((2 + m + x) * z));
        assert_eq!(word[..left.len()], left);
        assert_eq!(check(&record, u64::from(z), &word), Ok(true));
    }
}

#[test]
fn words_and_sums_have_the_lengths_of_the_extended_table() {
    for length in [0, 11, 12, 14, 16] {
        assert_eq!(check(&EXTENDED, 3, &vec![0; length]), Err(PARAMETER));
        assert_eq!(summed(&EXTENDED, 3, &vec![0; length]), Err(PARAMETER));
    }
    assert_eq!(coded(&EXTENDED, 3, &[0; 4]), Err(PARAMETER));
    assert_eq!(encode(&EXTENDED, 3, &[0; 3], &mut [0; 14]), Err(OUTPUT));
    assert_eq!(encode(&EXTENDED, 3, &[0; 3], &mut [0; 15]), Ok(15));
    assert_eq!(sums(&EXTENDED, 3, &[0; 15], &mut [0; 11]), Err(OUTPUT));
    assert_eq!(sums(&EXTENDED, 3, &[0; 15], &mut [0; 12]), Ok(12));
}

#[test]
fn a_block_of_full_size_has_its_parity_bits() {
    let record = plain_extended(20, 4, 36, &[81]).octets();
    let mut random = Random::new(12);
    let places = bits(1620, &mut random);
    let word = coded(&record, 81, &places).unwrap();
    assert_eq!(word.len(), 4860);
    assert_eq!(check(&record, 81, &word), Ok(true));
    assert_eq!(summed(&record, 81, &word), Ok(vec![0; 3240]));
    assert_eq!(check(&record, 81, &changed(&word, 4859)), Ok(false));
}
