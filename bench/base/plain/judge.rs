//! Whether a record is well formed (else 5), and whether each of its tables is a staircase with its extension (else 6).

use crate::record::{number, HEAD};

const NO_SHIFT: u8 = 255;

pub fn judge(record: &[u8]) -> Result<(), u32> {
    if record.len() < HEAD {
        return Err(5);
    }
    let [kb, m, x, kind, sizes] = [0, 2, 4, 6, 8].map(|at| number(record, at));
    let known = (1..=20).contains(&kb) && (3..=12).contains(&m) && (1..=3).contains(&sizes);
    let typed = x == 0 && kind == 1 || m + x <= 40 && kind == 2;
    let (head, columns) = (HEAD + 4 * sizes, kb + m + x);
    let length = (m + x) * columns;
    if !known || !typed || record.len() != head + sizes * length {
        return Err(5);
    }
    let (ranges, tables) = record[HEAD..].split_at(head - HEAD);
    if !ranges_right(ranges, head, length) || !shifts_right(ranges, tables, length) {
        return Err(5);
    }
    let stairs = tables.chunks_exact(length).all(|table| {
        let (first, later) = table.split_at(m * columns);
        staircase(first, kb, m, columns) && extension(later, kb + m, columns)
    });
    if stairs {
        Ok(())
    } else {
        Err(6)
    }
}

/// Sizes rise up to 81, and each table starts where the one before it ends.
fn ranges_right(ranges: &[u8], head: usize, length: usize) -> bool {
    let mut last = 0;
    ranges.chunks_exact(4).enumerate().all(|(index, range)| {
        let z = number(range, 0);
        let right = z > last && z <= 81 && number(range, 2) == head + index * length;
        last = z;
        right
    })
}

/// Each shift is below its size. There is no early end, so that it goes by vectors.
fn shifts_right(ranges: &[u8], tables: &[u8], length: usize) -> bool {
    ranges.chunks_exact(4).zip(tables.chunks_exact(length)).all(|(range, table)| {
        let z = range[1];
        !table.iter().fold(false, |wrong, &shift| wrong | ((shift != NO_SHIFT) & (shift >= z)))
    })
}

/// The first m rows.
fn staircase(rows: &[u8], kb: usize, m: usize, columns: usize) -> bool {
    let outer = rows[kb];
    let mut middles = 0;
    for (i, row) in rows.chunks_exact(columns).map(|row| &row[kb..]).enumerate() {
        let (stairs, later) = row.split_at(m);
        match middles_at(stairs[0], outer, i == 0 || i == m - 1) {
            Some(more) if stairs_right(stairs, i) && all_empty(later) => middles += more,
            _ => return false,
        }
    }
    outer != NO_SHIFT && middles == 1
}

/// The rows behind them: row i ends with a 0 in its own column, `from` + i.
fn extension(rows: &[u8], from: usize, columns: usize) -> bool {
    rows.chunks_exact(columns).enumerate().all(|(i, row)| row[from + i] == 0 && all_empty(&row[from + i + 1..]))
}

fn all_empty(entries: &[u8]) -> bool {
    entries.iter().fold(true, |empty, &entry| empty & (entry == NO_SHIFT))
}

/// Whether the first column's shift is the middle one, or nothing where it may not stand there.
fn middles_at(shift: u8, outer: u8, is_outer: bool) -> Option<usize> {
    match (is_outer, shift) {
        (true, _) if shift == outer => Some(0),
        (false, 0) => Some(1),
        (false, NO_SHIFT) => Some(0),
        _ => None,
    }
}

fn stairs_right(row: &[u8], i: usize) -> bool {
    let due = |j: usize| if i + 1 == j || i == j { 0 } else { NO_SHIFT };
    row.iter().enumerate().skip(1).all(|(j, &shift)| shift == due(j))
}
