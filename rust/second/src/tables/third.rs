//! The table of rate 1/3, Type 2: what is wrong with each row, and a table for trials made of it by a rule.

use std::io::{self, Write};

use super::write::{head, marked, row};
use super::{Line, THIRD};

/// The head of the trial shelf's text.
const HEAD: &str = "\
# The trial shelf: a trial table of rate 1/3, Type 2, for trying that type at full size. Nobody stands for this table.
#
# It is not the table of 5G.212 v2.3, section 5.1.3.2: table 5.1.3.2-6 is no staircase with extension as it is printed,
# and where many of its entries belong cannot be told from the text (docs/TABLES.md has it row by row). So it is on a
# shelf of its own, and a member who sends with it sends with a matrix that nobody else has.
#
# It was made by one mechanical rule, with z 81: in rows 0 to 3 every number as printed; in row r from 4 on every
# number as printed but the last 0, which stands in column 20 + r instead, and is added in row 4, where none is
# printed; - (empty) elsewhere. With z 27 and 54 every number over 0 is taken modulo z, as 5.1.3.2 has it.
#
# public.txt explains the form. Here one more wide gap stands before column kb + m, where the extension begins.
# `second trial` writes this text, and `second shelves shelves` makes trial.shelf of it.

# Trial table, made of table 5.1.3.2-6: rate 1/3, Type 2.
";

/// The trial table's profile number: its rate.
const TRIAL: u16 = 13;

/// The z that the table is printed for, and the others of Type 2.
const TRIAL_SIZES: [u16; 3] = [27, 54, 81];

/// Reads the rows of the table, each of its two lines.
fn rows(text: &str) -> io::Result<Vec<[Line<'_>; 2]>> {
    let part = THIRD.find(text)?.remove(0);
    let mut lines = part.into_iter();
    let mut rows = Vec::new();
    while let (Some(first), Some(second)) = (lines.next(), lines.next()) {
        rows.push([first, second]);
    }
    Ok(rows)
}

/// Where the last 0 of a row is due: in a staircase row its last step, in an extension row the column that
/// is the row's own.
fn due_column(row: usize) -> usize {
    let last_step = THIRD.kb + (row + 1).min(THIRD.m - 1);
    if row < THIRD.m {
        last_step
    } else {
        THIRD.kb + row
    }
}

/// Where the last 0 of a row stands.
fn last_zero(numbers: &[&str]) -> Option<usize> {
    numbers.iter().rposition(|&number| number == "0")
}

/// Counts the numbers of each row, and finds its last 0, as docs/TABLES.md has them.
pub fn count(text: &str, output: &mut impl Write) -> io::Result<()> {
    writeln!(output, "## Table {}: {}\n", THIRD.number, THIRD.title)?;
    let due = THIRD.columns();
    writeln!(
        output,
        "| row | numbers (its two lines), of {due} | last 0 in column | due in column | what is wrong |"
    )?;
    writeln!(output, "|---|---|---|---|---|")?;
    let (mut full, mut zeros, mut both) = (0, 0, 0);
    for (place, lines) in rows(text)?.iter().enumerate() {
        let numbers = lines.concat();
        let column = last_zero(&numbers);
        let has_count = numbers.len() == due;
        let has_zero = column == Some(due_column(place));
        full += usize::from(has_count);
        if place >= THIRD.m {
            zeros += usize::from(has_zero);
            both += usize::from(has_count && has_zero);
        }
        let shown = column.map_or("none".to_string(), |column| column.to_string());
        writeln!(
            output,
            "| {place} | {} ({} + {}) | {} | {} | {} |",
            marked(numbers.len(), has_count),
            lines[0].len(),
            lines[1].len(),
            marked(shown, has_zero),
            due_column(place),
            wrong(place, lines)
        )?;
    }
    writeln!(
        output,
        "\n{full} of {} rows hold {due} numbers. Of the {} extension rows {zeros} have their 0 where it is due; of \
         these, {both} hold {due}.",
        THIRD.rows(),
        THIRD.x
    )
}

/// What is wrong with a row, in words.
fn wrong(place: usize, lines: &[Line; 2]) -> String {
    let numbers = lines.concat();
    let (count, due) = (numbers.len(), THIRD.columns());
    let mut wrong = Vec::new();
    // A first line that does not even reach the parity columns.
    if lines[0].len() < THIRD.kb {
        wrong.push(format!("its first line is cut after {}", lines[0].len()));
    }
    if count < due {
        wrong.push(format!("{} too few", due - count));
    }
    if count > due {
        wrong.push(format!("{} too many", count - due));
    }
    let own = due_column(place);
    match last_zero(&numbers) {
        None => wrong.push("no 0".to_string()),
        Some(column) if column < own => wrong.push(format!("0 too early by {}", own - column)),
        Some(column) if column > own => wrong.push(format!("0 too late by {}", column - own)),
        Some(_) => {}
    }
    wrong.join("; ")
}

/// Writes the text of the trial shelf.
pub fn trial(text: &str, output: &mut impl Write) -> io::Result<()> {
    let rows = rows(text)?;
    output.write_all(HEAD.as_bytes())?;
    head(&THIRD, 2, TRIAL, output)?;
    for z in TRIAL_SIZES {
        writeln!(output, "\nz {z} # trial")?;
        for (place, lines) in rows.iter().enumerate() {
            let numbers = trial_row(place, &lines.concat());
            let numbers: Vec<String> = numbers.iter().map(|number| with_size(number, z)).collect();
            let numbers: Vec<&str> = numbers.iter().map(String::as_str).collect();
            row(&THIRD, &numbers, output)?;
        }
    }
    Ok(())
}

/// A row of the trial table: what is printed, and its last 0 where it is due. What is printed beyond column
/// 59 is dropped; nothing filled stands there.
fn trial_row<'a>(place: usize, printed: &[&'a str]) -> Vec<&'a str> {
    let mut numbers = printed.to_vec();
    if place >= THIRD.m {
        if let Some(column) = last_zero(&numbers) {
            numbers[column] = "-1";
        }
    }
    numbers.resize(THIRD.columns(), "-1");
    if place >= THIRD.m {
        numbers[due_column(place)] = "0";
    }
    numbers
}

/// "a_ij if a_ij <= 0, a_ij mod Z if a_ij > 0".
fn with_size(number: &str, z: u16) -> String {
    match number.parse::<u16>() {
        Ok(shift) if shift > 0 => (shift % z).to_string(),
        _ => number.to_string(),
    }
}

#[cfg(test)]
mod tests;
