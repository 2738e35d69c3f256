//! Mends the rows of a Type 1 table that hold too few numbers or too many: the parity part of such a row is
//! the one that the staircase rule fixes (document 01, "Staircase").
//!
//! Nothing filled is ever added, left out or changed. Where a row's parity part does not print the very
//! numbers that the rule wants, with nothing but empties lost or too many between them, the table is an error.

use std::io::{self, Write};

use super::{Due, Line};

/// The printed word of an empty entry.
const EMPTY: &str = "-1";

/// The one row in which an empty is lost before column kb.
struct Lost {
    number: &'static str,
    z: u16,
    row: usize,
    /// Where the empty is put back.
    column: usize,
}

/// Rate 2/3, z 81, row 0 prints 15 numbers before its 1 0, which are due in columns 16 and 17. With the empty
/// between 56 and 8 the 8 stands in column 11, as in the published tables of IEEE 802.11n, and each of columns
/// 5 to 15 has three shifts; with it between 8 and 2 column 10 would have four and column 11 two.
/// docs/TABLES.md says how sure that is, and which other places are left.
const LOST: Lost = Lost {
    number: "5.1.3.2-4",
    z: 81,
    row: 0,
    column: 10,
};

/// A table that is whole.
pub struct Mended<'a> {
    pub rows: Vec<Line<'a>>,
    pub changes: Vec<Change<'a>>,
}

/// A row that was mended.
pub struct Change<'a> {
    pub row: usize,
    /// What is printed behind the systematic part.
    pub printed: Line<'a>,
    /// How many numbers the row prints.
    pub count: usize,
    pub what: String,
}

/// The staircase of a table: the outer shift of column kb, and the row of its middle 0.
struct Staircase<'a> {
    m: usize,
    outer: &'a str,
    middle: usize,
}

/// The part of a table for a z, each of its rows whole. A part of which every row holds what is due is left as
/// it is printed.
pub fn mended<'a>(due: &Due, z: u16, part: &[Line<'a>]) -> io::Result<Mended<'a>> {
    if part.iter().all(|row| row.len() == due.columns()) {
        return Ok(Mended {
            rows: part.to_vec(),
            changes: Vec::new(),
        });
    }
    let at = |(row, what): (usize, &str)| {
        io::Error::other(format!("table {}, z {z}, row {row}: {what}", due.number))
    };
    let rows = put_back(due, z, part);
    let staircase = Staircase::printed(due, &rows).map_err(at)?;
    let mut mended = Mended {
        rows: Vec::new(),
        changes: Vec::new(),
    };
    for (place, row) in rows.iter().enumerate() {
        let (systematic, printed) = row.split_at(due.kb);
        let wanted = staircase.row(place);
        let mut what = difference(printed, &wanted)
            .ok_or_else(|| at((place, "its parity part is not what a staircase has")))?;
        let count = part[place].len();
        if count == due.columns() && !what.is_empty() {
            return Err(at((
                place,
                "it has its count, and is no row of a staircase",
            )));
        }
        if count != row.len() {
            let next = systematic[LOST.column + 1];
            what.push(format!(
                "1 empty lost before column {}; put back in column {}, before {next}",
                due.kb, LOST.column
            ));
        }
        if count != due.columns() {
            mended.changes.push(Change {
                row: place,
                printed: printed.to_vec(),
                count,
                what: what.join(", "),
            });
        }
        mended.rows.push([systematic, &wanted].concat());
    }
    Ok(mended)
}

/// The printed rows, and the empty that is lost before column kb in its place, where this is the table.
fn put_back<'a>(due: &Due, z: u16, part: &[Line<'a>]) -> Vec<Line<'a>> {
    let mut rows = part.to_vec();
    if (LOST.number, LOST.z) == (due.number, z) && rows[LOST.row].len() < due.columns() {
        rows[LOST.row].insert(LOST.column, EMPTY);
    }
    rows
}

impl<'a> Staircase<'a> {
    /// What column kb shows: the shift of its last row, and the one row between the outer ones that is filled
    /// there. The first row has to print the same shift as the last.
    fn printed(due: &Due, rows: &[Line<'a>]) -> Result<Staircase<'a>, (usize, &'static str)> {
        let (kb, last) = (due.kb, due.m - 1);
        if let Some(row) = rows.iter().position(|row| row.len() <= kb) {
            return Err((row, "it ends before its parity part"));
        }
        let outer = rows[last][kb];
        if outer == EMPTY || rows[0][kb] != outer {
            return Err((0, "column kb has not the shift of the last row"));
        }
        let filled: Vec<usize> = (1..last).filter(|&row| rows[row][kb] != EMPTY).collect();
        match filled[..] {
            [middle] if rows[middle][kb] == "0" => Ok(Staircase {
                m: due.m,
                outer,
                middle,
            }),
            _ => Err((last, "column kb has not exactly one 0 between its ends")),
        }
    }

    /// The parity part of a row.
    fn row(&self, row: usize) -> Line<'a> {
        let column = |j: usize| match j {
            0 if row == 0 || row == self.m - 1 => self.outer,
            0 if row == self.middle => "0",
            0 => EMPTY,
            _ if row == j || row + 1 == j => "0",
            _ => EMPTY,
        };
        (0..self.m).map(column).collect()
    }
}

/// Which empties are lost or too many in a printed parity part, in words, or none where the filled numbers are
/// not the wanted ones in their order.
fn difference(printed: &[&str], wanted: &[&str]) -> Option<Vec<String>> {
    let filled = |numbers: &[&str]| -> Vec<String> {
        let filled = numbers.iter().filter(|&&number| number != EMPTY);
        filled.map(ToString::to_string).collect()
    };
    let numbers = filled(printed);
    if numbers != filled(wanted) {
        return None;
    }
    let gaps = gaps(printed).into_iter().zip(gaps(wanted));
    let mut what = Vec::new();
    for (place, (is, due)) in gaps.enumerate() {
        let count = match is.abs_diff(due) {
            0 => continue,
            1 => "1 empty".to_string(),
            more => format!("{more} empties"),
        };
        let how = if is < due { "lost" } else { "too many" };
        let place = match place {
            0 => format!("before {}", numbers.join(" ")),
            last if last == numbers.len() => format!("behind {}", numbers.join(" ")),
            _ => format!("between {} and {}", numbers[place - 1], numbers[place]),
        };
        what.push(format!("{count} {how} {place}"));
    }
    Some(what)
}

/// How many empties stand before the first filled number, between each two, and behind the last.
fn gaps(numbers: &[&str]) -> Vec<usize> {
    numbers
        .split(|&number| number != EMPTY)
        .map(<[&str]>::len)
        .collect()
}

/// Lists the mended rows of a table, as docs/TABLES.md has them.
pub fn list(due: &Due, text: &str, output: &mut impl Write) -> io::Result<()> {
    let parts = due.find(text)?;
    let mut head = false;
    for (&z, part) in due.sizes.iter().zip(&parts) {
        for change in mended(due, z, part)?.changes {
            if !head {
                writeln!(
                    output,
                    "\n| z | row | numbers | printed from column {} on | what was lost or too many |",
                    due.kb
                )?;
                writeln!(output, "|---|---|---|---|---|")?;
                head = true;
            }
            writeln!(
                output,
                "| {z} | {} | {} | `{}` | {} |",
                change.row,
                change.count,
                change.printed.join(" ").replace(EMPTY, "-"),
                change.what
            )?;
        }
    }
    Ok(())
}

#[cfg(test)]
mod tests;
