//! A record that is accepted, written with its tables.

use super::{number, Fault};
use crate::draft::{Draft, Rows, EMPTY};
use crate::record;
use crate::words;

/// The tables of a record, at most ("t (1 to 3)").
const MOST_TABLES: usize = 3;

/// The rows of a table, at most ("m + x at most 40").
const MOST_ROWS: u16 = 40;

/// What the lines of such a record say so far.
pub struct Accepted {
    kb: u16,
    m: u16,
    x: u16,
    coding: u16,
    tables: Vec<Table>,
}

struct Table {
    line: usize,
    z: u16,
    rows: Rows,
}

impl Accepted {
    /// What a record's first line says of it.
    pub fn new([kb, m, x, coding]: [&str; 4]) -> Result<Accepted, String> {
        let record = Accepted {
            kb: number("kb", kb, 1..=20)?,
            m: number("m", m, 3..=12)?,
            x: number("x", x, 0..=37)?,
            coding: number("the type", coding, 1..=2)?,
            tables: Vec::new(),
        };
        let (rows, x) = (record.m + record.x, record.x);
        if rows > MOST_ROWS {
            return Err(format!("m + x is {rows}, and at most {MOST_ROWS}"));
        }
        if record.coding == 1 && x > 0 {
            return Err(format!("x is {x}, and in type 1 it is 0"));
        }
        Ok(record)
    }

    pub fn octets(&self) -> Vec<u8> {
        self.octets_with(&self.tables)
    }

    /// The record with some of its tables.
    fn octets_with(&self, tables: &[Table]) -> Vec<u8> {
        let tables = tables.iter().map(|table| (table.z, table.rows.clone()));
        Draft::of_type(self.coding, self.kb, self.m, self.x, tables.collect()).octets()
    }

    /// "a table has m + x rows of kb+m+x entries".
    fn rows(&self) -> usize {
        usize::from(self.m + self.x)
    }

    fn columns(&self) -> usize {
        usize::from(self.kb) + self.rows()
    }

    /// Begins a table.
    pub fn begin(&mut self, line: usize, z: &str) -> Result<(), String> {
        let z = number("z", z, 1..=81)?;
        if self.tables.len() == MOST_TABLES {
            return Err(format!("a record has at most {MOST_TABLES} tables"));
        }
        match self.tables.last() {
            Some(before) if z <= before.z => {
                return Err(format!(
                    "z {z} does not stand above z {} before it",
                    before.z
                ));
            }
            _ => self.tables.push(Table {
                line,
                z,
                rows: Vec::new(),
            }),
        }
        Ok(())
    }

    /// Puts a row into the last table.
    pub fn row(&mut self, words: &[&str]) -> Result<(), String> {
        let (due_rows, due) = (self.rows(), self.columns());
        let table = self
            .tables
            .last_mut()
            .ok_or("a row stands before the record's first `z ..`")?;
        let rows = table.rows.len();
        if rows == due_rows {
            return Err(format!("a row too many: m + x is {due_rows}"));
        }
        if words.len() != due {
            return Err(format!(
                "row {rows} has {} numbers, and kb + m + x is {due}",
                words.len()
            ));
        }
        let entries: Result<Vec<u8>, String> =
            words.iter().map(|word| entry(word, table.z)).collect();
        table.rows.push(entries?);
        Ok(())
    }

    /// Judges the last table, where there is one.
    pub fn finish_table(&self) -> Result<(), Fault> {
        let Some(table) = self.tables.last() else {
            return Ok(());
        };
        let line = table.line;
        let fault = |what: String| Err(Fault { line, what });
        let (rows, due) = (table.rows.len(), self.rows());
        if rows != due {
            return fault(format!("the table has {rows} rows, and m + x is {due}"));
        }
        match record::profile(&self.octets_with(std::slice::from_ref(table))) {
            Ok(_) => Ok(()),
            Err(_) if self.x > 0 => fault("the table is no staircase with extension".to_string()),
            Err(_) => fault("the table is no staircase".to_string()),
        }
    }

    /// Judges the record, of which each table has been judged.
    pub fn finish(&self) -> Result<(), String> {
        if self.tables.is_empty() {
            return Err("the record has no table".to_string());
        }
        Ok(())
    }
}

/// A row begins with a number or with `-`.
pub fn begins_row(first: &str) -> Result<(), String> {
    if first == "-" || words::short(first.as_bytes()).is_ok() {
        return Ok(());
    }
    Err(format!(
        "`{first}` begins no row, and no `tenant .. profile .. kb .. m .. x .. type ..`, `tenant .. profile .. \
         refused .. octets ..` or `z ..` either"
    ))
}

/// "255 for empty, else a shift below its z".
fn entry(word: &str, z: u16) -> Result<u8, String> {
    if word == "-" {
        return Ok(EMPTY);
    }
    let shift = number("a shift", word, 0..=z - 1)?;
    Ok(u8::try_from(shift).expect("a shift is below 81"))
}
