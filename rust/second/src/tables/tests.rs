//! Reading, counting and writing, on a text with invented tables.

use super::{counts, public, Due, FIVE_SIXTHS, HALF, THIRD, THREE_QUARTERS, TWO_THIRDS};

/// A text that has each table, with a count of numbers for each of its lines.
fn text(count: impl Fn(&Due, usize) -> usize) -> String {
    let mut lines = vec![
        "Tables 5.1.3.2-2 and others".into(),
        "5.1.4 Contents".into(),
    ];
    for due in [FIVE_SIXTHS, THREE_QUARTERS, TWO_THIRDS, HALF, THIRD] {
        lines.push(format!("Table {}: words R=5/6\n", due.number));
        for z in due.sizes {
            if due.lines == 1 {
                lines.push(format!("(a) D = 648 bits, Z={z} bits\n\n```"));
            }
            for line in 0..due.rows() * due.lines {
                let numbers = numbers(&due, line, count(&due, line));
                lines.push(format!(" {}  ", numbers.join("  ")));
            }
            lines.push("```\n".into());
        }
    }
    lines.push("5.1.4 Rate matching\n\n1 2 3\n".into());
    lines.join("\n")
}

/// The first numbers of a line. In Type 1 they are those of a staircase behind its first columns.
fn numbers(due: &Due, line: usize, count: usize) -> Vec<&'static str> {
    let any = ["7", "-1", "12"].into_iter().cycle();
    if due.lines == 2 {
        return any.take(count).collect();
    }
    let parity = (0..due.m).map(|j| match j {
        0 if line == 0 || line == due.m - 1 => "1",
        0 if line == due.m / 2 => "0",
        _ if j > 0 && (line == j || line + 1 == j) => "0",
        _ => "-1",
    });
    let row = any.take(due.kb).chain(parity);
    row.chain(std::iter::repeat("-1")).take(count).collect()
}

/// What is due in every line.
fn right(due: &Due, _: usize) -> usize {
    due.columns() / due.lines
}

fn counted(text: &str) -> String {
    let mut output = Vec::new();
    counts(text, &mut output).unwrap();
    String::from_utf8(output).unwrap()
}

#[test]
fn right_counts_are_plain() {
    let page = counted(&text(right));
    assert!(!page.replace("**none**", "").contains("**"));
    assert!(page.starts_with(
        "## Table 5.1.3.2-2: rate 5/6, Type 1\n\n\
         | row | due | z 27 | z 54 | z 81 |\n|---|---|---|---|---|\n| 0 | 24 | 24 | 24 | 24 |\n"
    ));
    for line in [
        "12 of 12",
        "18 of 18",
        "24 of 24",
        "36 of 36",
        "40 of 40",
        "| row | numbers (its two lines), of 60 | last 0 in column | due in column | what is wrong |",
        "| 39 | 60 (30 + 30) | **none** | 59 | no 0 |",
    ] {
        assert!(page.contains(line), "{line}");
    }
}

#[test]
fn other_counts_are_marked() {
    let page = counted(&text(|due, line| match due.number {
        "5.1.3.2-4" if line == 5 => 23,
        "5.1.3.2-6" if line == 3 => 31,
        _ => right(due, line),
    }));
    assert!(page.contains("| 5 | 24 | **23** | **23** | **23** |\n"));
    assert!(page.contains("21 of 24 rows"));
    assert!(page.contains(
        "\n\n| z | row | numbers | printed from column 16 on | what was lost or too many |\n\
         |---|---|---|---|---|\n\
         | 27 | 5 | 23 | `- - - - - 0 0` | 1 empty lost behind 0 0 |\n\
         | 54 | 5 | 23 | "
    ));
    assert_eq!(page.matches("printed from column").count(), 1);
    assert!(page.contains("| 1 | **61** (30 + 31) | **none** | 22 | 1 too many; no 0 |\n"));
    assert!(page.contains("39 of 40 rows"));
    assert_eq!(page.replace("**none**", "").matches("**").count(), 8);
}

#[test]
fn a_table_that_lacks_rows_or_parts_is_an_error() {
    let good = text(right);
    for bad in [
        "",
        &good.replace("Table 5.1.3.2-3:", "Table 5.1.3.2-7:"),
        &good.replacen("(a) D", "a) D", 2),
        &good.replacen("7  -1", "7  x", 1),
    ] {
        let mut output = Vec::new();
        let error = counts(bad, &mut output).unwrap_err();
        assert!(error.to_string().starts_with("table 5.1.3.2-"), "{error}");
    }
}

fn written(text: &str) -> String {
    let mut output = Vec::new();
    public(text, &mut output).unwrap();
    String::from_utf8(output).unwrap()
}

#[test]
fn the_public_text_has_the_numbers_as_printed() {
    let written = written(&text(right));
    let (head, records) = written.split_once("\n\n").unwrap();
    assert!(head.lines().all(|line| line.starts_with('#')));
    assert!(records.starts_with(
        "# Table 5.1.3.2-5: rate 1/2, Type 1; as printed.\n\
         tenant 0 profile 12 kb 12 m 12 x 0 type 1\n\n\
         z 27 # Table 5.1.3.2-5 (a); as printed\n \
         7  - 12  7  - 12  7  - 12  7  - 12    1  0  -  -  -  -  -  -  -  -  -  -\n"
    ));
    assert_eq!(records.matches("\nz ").count(), 12);
    let rows = records.lines().filter(|line| line.starts_with(" 7  - 12"));
    assert_eq!(rows.count(), 3 * (12 + 8 + 6 + 4));
    let heads: Vec<&str> = records
        .lines()
        .filter(|line| line.starts_with("tenant"))
        .collect();
    assert_eq!(
        heads[1..],
        [
            "tenant 0 profile 23 kb 16 m 8 x 0 type 1",
            "tenant 0 profile 34 kb 18 m 6 x 0 type 1",
            "tenant 0 profile 56 kb 20 m 4 x 0 type 1"
        ]
    );
}

#[test]
fn the_public_text_says_what_is_mended() {
    let good = written(&text(right));
    let mended = written(&text(|due, line| match due.number {
        "5.1.3.2-5" if line == 1 => 22,
        "5.1.3.2-5" if line == 11 => 24,
        _ => right(due, line),
    }));
    let changed: Vec<(&str, &str)> = good
        .lines()
        .zip(mended.lines())
        .filter(|(left, right)| left != right)
        .collect();
    assert_eq!(changed.len(), 4);
    assert_eq!(
        changed[0].1,
        "# Table 5.1.3.2-5: rate 1/2, Type 1; mended, 3 of its 36 rows."
    );
    assert_eq!(
        changed[1].1,
        "z 27 # Table 5.1.3.2-5 (a); mended, 1 of its 12 rows"
    );
}
