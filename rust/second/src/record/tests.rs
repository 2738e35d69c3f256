//! What a record may be and what it may not.

use super::{profile, Coding, Entry, Profile, Table};
use crate::draft::{short, Draft, EMPTY};
use crate::numbers::{Number, RECORD, STAIRCASE};
use crate::samples::{five_sixths, half, plain, plain_extended, EXTENDED, TOY};

fn number(octets: &[u8]) -> Number {
    profile(octets).err().unwrap_or(0)
}

fn judged(draft: &Draft) -> Number {
    number(&draft.octets())
}

/// A record with some of everything: kb 2, m 4, three tables.
fn three_tables() -> Draft {
    plain(2, 4, &[3, 5, 9])
}

/// The record with one entry of one table changed.
fn changed(draft: &Draft, table: usize, row: usize, column: usize, octet: u8) -> Draft {
    let mut draft = draft.clone();
    draft.tables[table][row][column] = octet;
    draft
}

#[test]
fn the_toy_is_read() {
    use Entry::{Empty, Shift};
    let rows = vec![
        vec![Shift(0), Shift(1), Shift(0), Empty],
        vec![Shift(1), Shift(0), Shift(0), Shift(0)],
        vec![Empty, Shift(1), Empty, Shift(0)],
    ];
    let toy = Profile {
        kb: 1,
        m: 3,
        x: 0,
        coding: Coding::One,
        tables: vec![Table { z: 2, rows }],
    };
    assert_eq!(profile(&TOY), Ok(toy));
}

#[test]
fn the_tables_of_5g_212_are_staircases() {
    for (draft, kb, m) in [(half(), 12, 12), (five_sixths(), 20, 4)] {
        let profile = profile(&draft.octets()).unwrap();
        assert_eq!((profile.kb, profile.m), (kb, m));
        let sizes: Vec<usize> = profile.tables.iter().map(|table| table.z).collect();
        assert_eq!(sizes, [27, 54, 81]);
    }
}

#[test]
fn kb_is_1_to_20() {
    for (kb, expected) in [(0, 5), (1, 0), (2, 0), (19, 0), (20, 0), (21, 5)] {
        assert_eq!(judged(&plain(kb, 3, &[2])), expected, "kb {kb}");
    }
}

#[test]
fn m_is_3_to_12() {
    for (m, expected) in [(2, 5), (3, 0), (4, 0), (11, 0), (12, 0), (13, 5)] {
        assert_eq!(judged(&plain(1, m, &[2])), expected, "m {m}");
    }
}

#[test]
fn t_is_1_to_3() {
    let sizes = [2, 3, 4, 5];
    for (t, expected) in [(0, 5), (1, 0), (2, 0), (3, 0), (4, 5)] {
        assert_eq!(judged(&plain(1, 3, &sizes[..t])), expected, "t {t}");
    }
}

#[test]
fn z_is_1_to_81() {
    for (z, expected) in [(0, 5), (1, 0), (2, 0), (80, 0), (81, 0), (82, 5), (255, 5)] {
        assert_eq!(judged(&plain(1, 3, &[z])), expected, "z {z}");
    }
    assert_eq!(judged(&plain(20, 12, &[79, 80, 81])), 0);
    assert_eq!(judged(&plain(20, 12, &[79, 80, 82])), RECORD);
    assert_eq!(judged(&plain(20, 12, &[0, 80, 81])), RECORD);
}

#[test]
fn z_strictly_rises() {
    assert_eq!(judged(&plain(1, 3, &[1, 2, 3])), 0);
    for sizes in [
        [2, 2, 3],
        [2, 3, 3],
        [3, 2, 4],
        [2, 4, 3],
        [3, 2, 1],
        [2, 3, 2],
    ] {
        assert_eq!(judged(&plain(1, 3, &sizes)), RECORD, "{sizes:?}");
    }
}

#[test]
fn the_high_octets_count() {
    // Each number of the header made larger by 256, which leaves its low octet as it is.
    for place in [0, 2, 4, 6, 8, 10, 12] {
        let mut record = TOY;
        record[place] = 1;
        assert_eq!(number(&record), RECORD, "place {place}");
    }
}

#[test]
fn every_offset_is_the_one_that_is_due() {
    let due = three_tables();
    assert_eq!(due.offsets, [22, 46, 70]);
    assert_eq!(judged(&due), 0);
    for place in 0..3 {
        for other in [0, 1, due.offsets[place] - 1, due.offsets[place] + 1, 65_535] {
            let mut draft = due.clone();
            draft.offsets[place] = other;
            assert_eq!(judged(&draft), RECORD, "offset {place} {other}");
        }
    }
    let mut swapped = due.clone();
    swapped.offsets.swap(0, 1);
    assert_eq!(judged(&swapped), RECORD);
}

#[test]
fn the_record_ends_with_the_last_table() {
    for record in [TOY.to_vec(), three_tables().octets(), half().octets()] {
        for length in 0..record.len() {
            assert_eq!(number(&record[..length]), RECORD, "length {length}");
        }
        assert_eq!(number(&record), 0);
        for more in [&[0][..], &[255], &[0, 0], &record] {
            assert_eq!(number(&[&record, more].concat()), RECORD);
        }
    }
}

#[test]
fn a_table_too_few_or_too_many_is_refused() {
    let mut few = three_tables();
    few.tables.pop();
    assert_eq!(judged(&few), RECORD);
    let mut many = three_tables();
    many.tables.push(many.tables[2].clone());
    assert_eq!(judged(&many), RECORD);
    for t in [0, 1, 2, 4, 65_535] {
        let mut other = three_tables();
        other.t = t;
        assert_eq!(judged(&other), RECORD, "t {t}");
    }
}

#[test]
fn an_entry_is_empty_or_below_its_z() {
    let draft = three_tables();
    for (table, &z) in draft.sizes.iter().enumerate() {
        let z = u8::try_from(z).unwrap();
        for row in 0..4 {
            for column in 0..2 {
                let judged = |octet| judged(&changed(&draft, table, row, column, octet));
                assert_eq!(judged(z - 1), 0);
                assert_eq!(judged(EMPTY), 0);
                for octet in [z, z + 1, 128, 254] {
                    assert_eq!(judged(octet), RECORD);
                }
            }
            // In the staircase too: there an entry below its z is no staircase, if it is not 0.
            for column in 3..6 {
                let judged = |octet| judged(&changed(&draft, table, row, column, octet));
                assert_eq!(judged(z - 1), STAIRCASE);
                assert_eq!(judged(z), RECORD);
            }
        }
    }
}

#[test]
fn column_kb_is_filled_in_both_outer_rows_and_once_between() {
    let draft = three_tables();
    for table in 0..3 {
        // The plain staircase has shift 1 outside and its 0 in row 1.
        let judged = |changes: &[(usize, u8)]| {
            let mut draft = draft.clone();
            for &(row, octet) in changes {
                draft.tables[table][row][2] = octet;
            }
            judged(&draft)
        };
        assert_eq!(judged(&[]), 0);
        assert_eq!(judged(&[(1, EMPTY), (2, 0)]), 0, "the other middle row");
        assert_eq!(judged(&[(0, 2), (3, 2)]), 0, "another outer shift");
        assert_eq!(judged(&[(0, 0), (3, 0)]), 0, "outer shift 0");
        assert_eq!(judged(&[(0, EMPTY)]), STAIRCASE, "row 0 empty");
        assert_eq!(judged(&[(3, EMPTY)]), STAIRCASE, "row m-1 empty");
        assert_eq!(judged(&[(0, EMPTY), (3, EMPTY)]), STAIRCASE);
        assert_eq!(judged(&[(1, EMPTY)]), STAIRCASE, "none between");
        assert_eq!(judged(&[(2, 0)]), STAIRCASE, "two between");
        assert_eq!(judged(&[(2, 1)]), STAIRCASE, "two between");
        assert_eq!(judged(&[(0, 2)]), STAIRCASE, "outer shifts differ");
        assert_eq!(judged(&[(3, 0)]), STAIRCASE, "outer shifts differ");
        assert_eq!(judged(&[(1, 1)]), STAIRCASE, "the middle is not 0");
        assert_eq!(
            judged(&[(0, EMPTY), (2, 1)]),
            STAIRCASE,
            "three, but not outside"
        );
        assert_eq!(
            judged(&[(3, EMPTY), (2, 1)]),
            STAIRCASE,
            "three, but not outside"
        );
    }
}

#[test]
fn the_steps_are_two_zeros_and_nothing_else() {
    let draft = three_tables();
    for table in 0..3 {
        for j in 1..4 {
            for row in 0..4 {
                let judged = |octet| judged(&changed(&draft, table, row, 2 + j, octet));
                let (zero, empty) = (judged(0), judged(EMPTY));
                if row == j || row + 1 == j {
                    assert_eq!((zero, empty), (0, STAIRCASE));
                } else {
                    assert_eq!((zero, empty), (STAIRCASE, 0));
                }
                assert_eq!(judged(1), STAIRCASE);
            }
        }
    }
}

#[test]
fn with_z_1_a_staircase_is_all_zeros() {
    let draft = plain(3, 3, &[1]);
    assert_eq!(judged(&draft), 0);
    assert_eq!(judged(&changed(&draft, 0, 0, 3, EMPTY)), STAIRCASE);
    assert_eq!(judged(&changed(&draft, 0, 0, 3, 1)), RECORD);
}

#[test]
fn a_record_that_is_not_well_formed_goes_before_a_table_that_is_no_staircase() {
    let first_is_none = changed(&three_tables(), 0, 0, 2, EMPTY);
    assert_eq!(judged(&first_is_none), STAIRCASE);
    let last_is_bad = changed(&first_is_none, 2, 3, 5, 9);
    assert_eq!(judged(&last_is_bad), RECORD);
    let mut longer = first_is_none.octets();
    longer.push(0);
    assert_eq!(number(&longer), RECORD);
}

#[test]
fn of_all_single_changes_of_the_toy_few_are_accepted() {
    // Type 2, at place 7; a larger z, at place 11. Places 14, 18 and 22 are column 0, where 0, 1 and 255 may
    // stand.
    let mut expected: Vec<(usize, u8)> = vec![(7, 2)];
    expected.extend((3..=81).map(|z| (11, z)));
    expected.extend([(14, 1), (14, 255), (18, 0), (18, 255), (22, 0), (22, 1)]);
    let mut accepted = Vec::new();
    for place in 0..TOY.len() {
        for octet in 0..=255 {
            let mut record = TOY;
            record[place] = octet;
            if record != TOY && number(&record) == 0 {
                accepted.push((place, octet));
            }
        }
    }
    assert_eq!(accepted, expected);
}

#[test]
fn the_largest_record_of_type_1_is_accepted() {
    let draft = plain(20, 12, &[79, 80, 81]);
    assert_eq!(draft.octets().len(), 1174);
    assert_eq!(draft.offsets, [22, 406, 790]);
    assert_eq!(draft.t, short(3));
    assert_eq!(judged(&draft), 0);
}

#[test]
fn a_record_of_type_2_is_read() {
    use Entry::{Empty, Shift};
    let rows = vec![
        vec![Shift(0), Shift(1), Shift(0), Empty, Empty],
        vec![Shift(2), Shift(0), Shift(0), Shift(0), Empty],
        vec![Shift(1), Shift(1), Empty, Shift(0), Empty],
        vec![Empty, Shift(2), Empty, Shift(1), Shift(0)],
    ];
    let extended = Profile {
        kb: 1,
        m: 3,
        x: 1,
        coding: Coding::Two,
        tables: vec![Table { z: 3, rows }],
    };
    assert_eq!(extended.columns(), 5);
    assert_eq!(profile(&EXTENDED), Ok(extended));
}

#[test]
fn the_largest_record_is_accepted() {
    for (m, x) in [(3, 37), (4, 36), (12, 28)] {
        let draft = plain_extended(20, m, x, &[79, 80, 81]);
        assert_eq!(draft.octets().len(), 7222);
        assert_eq!(draft.offsets, [22, 2422, 4822]);
        assert_eq!(judged(&draft), 0);
    }
}

#[test]
fn the_old_form_is_no_longer_read() {
    // The toy of 22 octets, and the same with as many octets as the new one.
    let mut old = [&TOY[..4], &TOY[8..]].concat();
    old[9] = 10;
    assert_eq!(number(&old), RECORD);
    old.extend([255; 4]);
    assert_eq!(number(&old), RECORD);
}

#[test]
fn a_type_is_1_or_2() {
    for (coding, expected) in [
        (0, 5),
        (1, 0),
        (2, 0),
        (3, 5),
        (257, 5),
        (258, 5),
        (65_535, 5),
    ] {
        let mut draft = plain(1, 3, &[2]);
        draft.coding = coding;
        assert_eq!(judged(&draft), expected, "type {coding}");
    }
}

#[test]
fn x_is_0_to_37_and_m_plus_x_at_most_40() {
    for (m, x, expected) in [
        (3, 0, 0),
        (3, 1, 0),
        (3, 36, 0),
        (3, 37, 0),
        (3, 38, 5),
        (4, 36, 0),
        (4, 37, 5),
        (11, 29, 0),
        (12, 28, 0),
        (12, 29, 5),
        (2, 37, 5),
        (2, 38, 5),
    ] {
        assert_eq!(judged(&plain_extended(1, m, x, &[2])), expected, "{m} {x}");
    }
}

#[test]
fn type_1_has_no_extension() {
    for x in 0..4 {
        let mut draft = plain_extended(2, 3, x, &[2, 3]);
        assert_eq!(judged(&draft), 0);
        draft.coding = 1;
        assert_eq!(judged(&draft), if x == 0 { 0 } else { RECORD }, "{x}");
    }
}

#[test]
fn x_says_how_many_rows_and_columns_there_are() {
    for other in [0, 1, 3, 4, 38, 256 + 2] {
        let mut draft = plain_extended(2, 3, 2, &[2, 3]);
        assert_eq!(judged(&draft), 0);
        draft.x = other;
        assert_eq!(judged(&draft), RECORD, "{other}");
    }
    let due = plain_extended(2, 4, 3, &[3, 5, 9]);
    assert_eq!(due.offsets, [22, 22 + 63, 22 + 126]);
    for place in 0..3 {
        let mut draft = due.clone();
        draft.offsets[place] -= 1;
        assert_eq!(judged(&draft), RECORD);
    }
    let octets = due.octets();
    assert_eq!(number(&octets[..octets.len() - 1]), RECORD);
    assert_eq!(number(&[&octets[..], &[255]].concat()), RECORD);
}

/// Kb 2, m 3, x 3: the extension columns are 5, 6 and 7, and the extension rows 3, 4 and 5.
fn with_extension() -> Draft {
    plain_extended(2, 3, 3, &[3, 5])
}

#[test]
fn staircase_rows_are_empty_in_the_extension_columns() {
    for table in 0..2 {
        for row in 0..3 {
            for column in 5..8 {
                let judged = |octet| judged(&changed(&with_extension(), table, row, column, octet));
                assert_eq!(judged(EMPTY), 0);
                assert_eq!(judged(0), STAIRCASE);
                assert_eq!(judged(1), STAIRCASE);
            }
        }
    }
}

#[test]
fn an_extension_row_ends_in_its_own_column() {
    for table in 0..2 {
        for i in 0..3 {
            for column in 0..8 {
                let judged =
                    |octet| judged(&changed(&with_extension(), table, 3 + i, column, octet));
                let (empty, zero, other) = (judged(EMPTY), judged(0), judged(2));
                let expected = match column {
                    _ if column < 5 + i => (0, 0, 0),
                    _ if column == 5 + i => (STAIRCASE, 0, STAIRCASE),
                    _ => (0, STAIRCASE, STAIRCASE),
                };
                assert_eq!((empty, zero, other), expected, "{i} {column}");
            }
        }
    }
}

#[test]
fn an_extension_row_may_be_empty_before_its_own_column() {
    let mut draft = with_extension();
    for row in 3..6 {
        draft.tables[0][row][..row + 2].fill(EMPTY);
        draft.tables[1][row][..row + 2].fill(4);
    }
    assert_eq!(judged(&draft), 0);
}

#[test]
fn entries_of_the_extension_are_below_their_z() {
    let draft = with_extension();
    for (table, z) in [(0, 3), (1, 5)] {
        for row in 3..6 {
            for column in 0..8 {
                assert_eq!(judged(&changed(&draft, table, row, column, z)), RECORD);
            }
        }
        // 5 goes before 6, also where the fault is in another table.
        let spoiled = changed(&draft, 1 - table, 5, 7, 1);
        assert_eq!(judged(&spoiled), STAIRCASE);
        assert_eq!(judged(&changed(&spoiled, table, 3, 0, z)), RECORD);
    }
}

#[test]
fn the_staircase_rule_speaks_of_the_first_rows_only() {
    // Column kb filled in an extension row, and the columns of the steps.
    let mut draft = with_extension();
    for row in 3..6 {
        draft.tables[0][row][2..5].fill(2);
    }
    assert_eq!(judged(&draft), 0);
    // And an extension row does not stand in for a step that is missing.
    draft.tables[0][3][3] = 0;
    draft.tables[0][1][3] = EMPTY;
    assert_eq!(judged(&draft), STAIRCASE);
}
