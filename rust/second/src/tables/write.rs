//! Writes the counts of the printed tables of Type 1, and the text of the public shelf.

use std::fmt::Display;
use std::io::{self, Write};

use super::mend::{self, mended};
use super::{third, Due, FIVE_SIXTHS, HALF, THREE_QUARTERS, TWO_THIRDS};

/// The head of the public shelf's text.
const HEAD: &str = "\
# The public shelf of the worked day: the four rates of Type 1 of 5G.212 v2.3, section 5.1.3.2, for z 27, 54 and 81.
#
# Rates 3/4 and 5/6 are as printed, with - for the printed -1 (empty). In rates 1/2 and 2/3 many rows do not print 24
# numbers, and were mended: every shift is a printed one, and the empties of the parity part stand where the staircase
# rule wants them; in one row, rate 2/3, z 81, row 0, an empty was put back before the 8. Each record and each table
# says how many of its rows were mended. docs/TABLES.md lists them all, and says how sure each table is.
# A profile number is its rate: 12 for 1/2, 23 for 2/3, 34 for 3/4, 56 for 5/6.
#
# The form: a record begins with its tenant (0 on this shelf), profile number, kb, m, x and type. Then follows each z
# with its table: m + x rows of kb + m + x numbers, one row to a line, - for empty, else the shift. A # begins a
# comment. Spaces may be put anywhere between numbers; here a wider gap stands before column kb, where the staircase
# begins. Records rise by tenant and profile number, and the tables of a record by z.
#
# After an edit, `kuambyte pack public` makes the shelf of this text anew, and `second shelves shelves` makes all the
# shelves of the folder.
";

/// Counts the numbers of every table, row by row, as docs/TABLES.md has them.
pub fn counts(text: &str, output: &mut impl Write) -> io::Result<()> {
    for due in [FIVE_SIXTHS, THREE_QUARTERS, TWO_THIRDS, HALF] {
        count(&due, text, output)?;
        mend::list(&due, text, output)?;
        writeln!(output)?;
    }
    third::count(text, output)
}

fn count(due: &Due, text: &str, output: &mut impl Write) -> io::Result<()> {
    let parts = due.find(text)?;
    writeln!(output, "## Table {}: {}\n", due.number, due.title)?;
    let heads: Vec<String> = due.sizes.iter().map(|z| format!("z {z}")).collect();
    writeln!(output, "| row | due | {} |", heads.join(" | "))?;
    writeln!(output, "|---|---|{}", "---|".repeat(heads.len()))?;
    let mut right = 0;
    for row in 0..due.rows() {
        write!(output, "| {row} | {} |", due.columns())?;
        for part in &parts {
            let count = part[row].len();
            write!(output, " {} |", marked(count, count == due.columns()))?;
            right += usize::from(count == due.columns());
        }
        writeln!(output)?;
    }
    let all = due.rows() * parts.len();
    writeln!(output, "\n{right} of {all} rows hold what is due.")
}

/// Bold, where it is not what is due.
pub fn marked(shown: impl Display, is_due: bool) -> String {
    if is_due {
        shown.to_string()
    } else {
        format!("**{shown}**")
    }
}

/// Writes the text of the public shelf.
pub fn public(text: &str, output: &mut impl Write) -> io::Result<()> {
    output.write_all(HEAD.as_bytes())?;
    record(&HALF, 12, text, output)?;
    record(&TWO_THIRDS, 23, text, output)?;
    record(&THREE_QUARTERS, 34, text, output)?;
    record(&FIVE_SIXTHS, 56, text, output)
}

fn record(due: &Due, profile: u16, text: &str, output: &mut impl Write) -> io::Result<()> {
    let parts = due.find(text)?;
    let tables = due.sizes.iter().zip(&parts);
    let tables: Vec<_> = tables
        .map(|(&z, part)| Ok((z, mended(due, z, part)?)))
        .collect::<io::Result<_>>()?;
    let changes = tables.iter().map(|(_, table)| table.changes.len()).sum();
    let (number, title) = (due.number, due.title);
    let how = how(changes, due.rows() * tables.len());
    writeln!(output, "\n# Table {number}: {title}; {how}.")?;
    head(due, 1, profile, output)?;
    for ((z, table), letter) in tables.iter().zip('a'..) {
        let how = self::how(table.changes.len(), due.rows());
        writeln!(output, "\nz {z} # Table {number} ({letter}); {how}")?;
        for line in &table.rows {
            row(due, line, output)?;
        }
    }
    Ok(())
}

/// Whether a table is as printed.
fn how(changes: usize, rows: usize) -> String {
    match changes {
        0 => "as printed".to_string(),
        _ => format!("mended, {changes} of its {rows} rows"),
    }
}

/// A record's first line.
pub fn head(due: &Due, coding: u16, profile: u16, output: &mut impl Write) -> io::Result<()> {
    let Due { kb, m, x, .. } = due;
    writeln!(
        output,
        "tenant 0 profile {profile} kb {kb} m {m} x {x} type {coding}"
    )
}

/// A row of a table. A wider gap stands before the staircase, and before the extension.
pub fn row(due: &Due, numbers: &[&str], output: &mut impl Write) -> io::Result<()> {
    for (column, number) in numbers.iter().enumerate() {
        let shown = if *number == "-1" { "-" } else { number };
        let width = match column {
            0 => 2,
            _ if column == due.kb || column == due.kb + due.m => 5,
            _ => 3,
        };
        write!(output, "{shown:>width$}")?;
    }
    writeln!(output)
}
