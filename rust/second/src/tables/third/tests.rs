//! The rows of rate 1/3, on invented ones.

use super::{count, due_column, trial, trial_row, with_size, THIRD};

/// A text that has the table, of these rows and of empty ones behind them.
fn text(rows: &[(&str, &str)]) -> String {
    let empty = ["-1"; 30].join(" ");
    let mut lines = vec![format!("Table {}: words", THIRD.number)];
    for (first, second) in rows {
        lines.extend([first.to_string(), second.to_string()]);
    }
    for _ in rows.len()..THIRD.rows() {
        lines.extend([empty.clone(), empty.clone()]);
    }
    lines.push("5.1.4 Rate matching".to_string());
    lines.join("\n")
}

fn counted(text: &str) -> String {
    let mut output = Vec::new();
    count(text, &mut output).unwrap();
    String::from_utf8(output).unwrap()
}

/// So many empty entries.
fn empties(count: usize) -> String {
    "-1 ".repeat(count)
}

#[test]
fn the_last_0_is_due_in_a_step_or_in_the_rows_own_column() {
    let due: Vec<usize> = (0..6).map(due_column).collect();
    assert_eq!(due, [21, 22, 23, 23, 24, 25]);
    assert_eq!(due_column(39), 59);
}

#[test]
fn rows_are_told_what_is_wrong_with_them() {
    let empty = (empties(30), empties(30));
    let zero_at = |column: usize| {
        (
            format!("{}0 {}", empties(column), empties(29 - column)),
            empties(30),
        )
    };
    let rows = [
        zero_at(21),
        zero_at(21),
        (format!("{}0", empties(23)), empties(1)),
        empty.clone(),
        // Row 4: 24 is due.
        zero_at(24),
        zero_at(24),
        zero_at(28),
        ("7 0".to_string(), empties(3)),
        (format!("{}0 -1 -1", empties(28)), empties(30)),
    ];
    let rows: Vec<(&str, &str)> = rows
        .iter()
        .map(|(first, second)| (first.as_str(), second.as_str()))
        .collect();
    let page = counted(&text(&rows));
    for line in [
        "| 0 | 60 (30 + 30) | 21 | 21 |  |",
        "| 1 | 60 (30 + 30) | **21** | 22 | 0 too early by 1 |",
        "| 2 | **25** (24 + 1) | 23 | 23 | 35 too few |",
        "| 3 | 60 (30 + 30) | **none** | 23 | no 0 |",
        "| 4 | 60 (30 + 30) | 24 | 24 |  |",
        "| 5 | 60 (30 + 30) | **24** | 25 | 0 too early by 1 |",
        "| 6 | 60 (30 + 30) | **28** | 26 | 0 too late by 2 |",
        "| 7 | **5** (2 + 3) | **1** | 27 | its first line is cut after 2; 55 too few; 0 too early by 26 |",
        "| 8 | **61** (31 + 30) | 28 | 28 | 1 too many |",
        "37 of 40 rows hold 60 numbers. Of the 36 extension rows 2 have their 0 where it is due; of these, 1 hold 60.",
    ] {
        assert!(page.contains(&format!("{line}\n")), "{line}\n{page}");
    }
}

#[test]
fn the_trial_rows_are_made_by_the_rule() {
    // A staircase row stays, and empties are added behind it.
    let row = trial_row(0, &["5", "0", "-1", "7"]);
    assert_eq!(row.len(), 60);
    assert_eq!(row[..5], ["5", "0", "-1", "7", "-1"]);
    // In an extension row the last 0 alone moves.
    let row = trial_row(5, &["0", "8", "-1", "0", "9"]);
    assert_eq!(row[..6], ["0", "8", "-1", "-1", "9", "-1"]);
    let zeros: Vec<usize> = (0..60).filter(|&column| row[column] == "0").collect();
    assert_eq!(zeros, [0, 25]);
    // Where there is none it is added, and what is printed too much is dropped.
    let row = trial_row(39, &["-1"; 62]);
    assert_eq!((row.len(), row[59]), (60, "0"));
}

#[test]
fn other_sizes_are_taken_modulo_z() {
    for (number, z, expected) in [
        ("-1", 27, "-1"),
        ("0", 27, "0"),
        ("26", 27, "26"),
        ("27", 27, "0"),
        ("54", 27, "0"),
        ("80", 27, "26"),
        ("54", 54, "0"),
        ("80", 54, "26"),
        ("80", 81, "80"),
    ] {
        assert_eq!(with_size(number, z), expected);
    }
}

#[test]
fn the_trial_text_says_that_it_is_one() {
    let mut output = Vec::new();
    trial(&text(&[]), &mut output).unwrap();
    let written = String::from_utf8(output).unwrap();
    let (head, tables) = written.split_once("\ntenant ").unwrap();
    assert!(head
        .lines()
        .all(|line| line.is_empty() || line.starts_with('#')));
    assert!(head.lines().next().unwrap().contains("trial"));
    assert!(tables.starts_with("0 profile 13 kb 20 m 4 x 36 type 2\n\nz 27 # trial\n"));
    for z in [27, 54, 81] {
        assert!(tables.contains(&format!("\nz {z} # trial\n")));
    }
    let rows = tables
        .lines()
        .filter(|line| line.split_whitespace().count() == 60);
    assert_eq!(rows.count(), 120);
}
