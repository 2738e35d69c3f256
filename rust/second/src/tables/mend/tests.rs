//! Rows that are mended, on invented ones and on the one table that lacks an empty before column kb.

use super::{mended, Due, Line};
use crate::tables::TWO_THIRDS;

/// Two columns and a staircase of four rows.
const SMALL: Due = Due {
    number: "0",
    title: "",
    kb: 2,
    m: 4,
    x: 0,
    sizes: &[9],
    lines: 1,
};

/// Table 5.1.3.2-4 (c) as it is printed.
const TWO_THIRDS_81: [&str; 8] = [
    "61 75 4 63 56 -1 -1 -1 -1 -1 8 -1 2 17 25 1 0 -1 -1 -1 -1 -1 -1",
    "56 74 77 20 -1 -1 -1 64 24 4 67 -1 7 -1 -1 -1 -1 0 0 -1 -1 -1 -1 -1",
    "28 21 68 10 7 14 65 -1 -1 -1 23 -1 -1 -1 75 -1 -1 -1 0 0 -1 -1 -1 -1",
    "48 38 43 78 76 -1 -1 -1 -1 5 36 -1 15 72 -1 -1 -1 -1 -1 0 0 -1 -1 -1",
    "40 2 53 25 -1 52 62 -1 20 -1 -1 44 -1 -1 -1 -1 0 -1 -1 -1 0 0 -1 -1",
    "69 23 64 10 22 -1 21 -1 -1 -1 -1 -1 68 23 29 -1 -1 -1 -1 -1 0 0 -1",
    "12 0 68 20 55 61 -1 40 -1 -1 -1 52 -1 -1 -1 44 -1 -1 -1 -1 -1 0 0",
    "58 8 34 64 78 -1 -1 11 78 24 -1 -1 -1 -1 -1 58 1 -1 -1 -1 -1 -1 0",
];

const WHOLE: [&str; 4] = [
    "5 -1 3 0 -1 -1",
    "-1 6 -1 0 0 -1",
    "-1 -1 0 -1 0 0",
    "7 8 3 -1 -1 0",
];

fn lines<'a>(rows: &[&'a str]) -> Vec<Line<'a>> {
    rows.iter()
        .map(|row| row.split_whitespace().collect())
        .collect()
}

/// The small table with one row printed otherwise.
fn with<'a>(row: usize, printed: &'a str) -> Vec<Line<'a>> {
    let mut rows: Vec<&'a str> = WHOLE.to_vec();
    rows[row] = printed;
    lines(&rows)
}

#[test]
fn a_whole_table_is_left_as_it_is() {
    // No staircase, but every row has its count.
    let any = with(0, "5 5 5 5 5 5");
    let table = mended(&SMALL, 9, &any).unwrap();
    assert_eq!(table.rows, any);
    assert!(table.changes.is_empty());
}

#[test]
fn empties_of_the_parity_part_are_put_where_they_are_due() {
    for (row, printed, what) in [
        (0, "5 -1 3 0 -1", "1 empty lost behind 3 0"),
        (0, "5 -1 3 0", "2 empties lost behind 3 0"),
        (1, "-1 6 -1 0 0", "1 empty lost behind 0 0"),
        (2, "-1 -1 0 0 0", "1 empty lost between 0 and 0"),
        (3, "7 8 3 -1 0", "1 empty lost between 3 and 0"),
        (3, "7 8 3 -1 -1 -1 0", "1 empty too many between 3 and 0"),
        (
            0,
            "5 -1 3 -1 0 -1 -1 -1",
            "1 empty too many between 3 and 0, 1 empty too many behind 3 0",
        ),
    ] {
        let part = with(row, printed);
        let table = mended(&SMALL, 9, &part).unwrap();
        assert_eq!(table.rows, lines(&WHOLE), "{printed}");
        assert_eq!(table.changes.len(), 1, "{printed}");
        let change = &table.changes[0];
        assert_eq!((change.row, &change.what[..]), (row, what));
        assert_eq!(change.count, printed.split(' ').count());
        assert_eq!(
            change.printed,
            printed.split(' ').skip(2).collect::<Vec<_>>()
        );
    }
}

#[test]
fn what_the_rule_does_not_want_is_not_mended() {
    for (row, printed, what) in [
        // A shift lost, one too many, another one.
        (
            1,
            "-1 6 -1 0 -1",
            "its parity part is not what a staircase has",
        ),
        (
            1,
            "-1 6 -1 0 0 -1 4",
            "its parity part is not what a staircase has",
        ),
        (
            1,
            "-1 6 -1 0 1",
            "its parity part is not what a staircase has",
        ),
        (1, "-1 6", "it ends before its parity part"),
        // A shift moved from before column kb behind it.
        (
            1,
            "6 -1 0 0 -1",
            "column kb has not exactly one 0 between its ends",
        ),
        (
            2,
            "-1 -1 -1 0 0",
            "column kb has not exactly one 0 between its ends",
        ),
        (
            0,
            "5 -1 2 0 -1",
            "column kb has not the shift of the last row",
        ),
        (
            0,
            "5 -1 -1 0 -1",
            "column kb has not the shift of the last row",
        ),
    ] {
        let error = mended(&SMALL, 9, &with(row, printed)).err().unwrap();
        assert!(error.to_string().ends_with(what), "{printed}: {error}");
        assert!(error.to_string().starts_with("table 0, z 9, row "));
    }
    // A row that has its count is to be right, beside one that is mended.
    let mut rows = WHOLE.to_vec();
    (rows[0], rows[1]) = ("5 -1 3 0 -1", "-1 6 -1 0 -1 0");
    let error = mended(&SMALL, 9, &lines(&rows)).err().unwrap();
    assert_eq!(
        error.to_string(),
        "table 0, z 9, row 1: it has its count, and is no row of a staircase"
    );
}

#[test]
fn the_lost_empty_of_rate_two_thirds_is_put_back() {
    let part = lines(&TWO_THIRDS_81);
    let table = mended(&TWO_THIRDS, 81, &part).unwrap();
    let first = "61 75 4 63 56 -1 -1 -1 -1 -1 -1 8 -1 2 17 25 1 0 -1 -1 -1 -1 -1 -1";
    assert_eq!(table.rows[0].join(" "), first);
    let rows: Vec<usize> = table.changes.iter().map(|change| change.row).collect();
    assert_eq!(rows, [0, 5, 6, 7]);
    assert_eq!(
        table.changes[0].what,
        "1 empty lost before column 16; put back in column 10, before 8"
    );
    // Only with the 8 in column 11 has every column from 5 on three shifts.
    let shifts = |column: usize| {
        let filled = table.rows.iter().filter(|row| row[column] != "-1");
        filled.count()
    };
    let counts: Vec<usize> = (0..16).map(shifts).collect();
    assert_eq!(counts, [8, 8, 8, 8, 6, 3, 3, 3, 3, 3, 3, 3, 3, 3, 3, 3]);
    // With another z nothing is put back, and 1 stands where column kb is due.
    assert!(mended(&TWO_THIRDS, 54, &part).is_err());
}
