//! Profile records in their parts, for making good ones and ones with a chosen fault.

mod shelf;

pub use shelf::ShelfDraft;

/// The octet of an empty entry.
pub const EMPTY: u8 = 255;

/// What a record says, part by part; nothing is judged.
#[derive(Clone, Debug)]
pub struct Draft {
    pub kb: u16,
    pub m: u16,
    pub x: u16,
    /// The type, 1 or 2.
    pub coding: u16,
    pub t: u16,
    pub sizes: Vec<u16>,
    pub offsets: Vec<u16>,
    pub tables: Vec<Rows>,
}

/// The octets of a table, row by row.
pub type Rows = Vec<Vec<u8>>;

impl Draft {
    /// A record of Type 1 of these tables, each with its z, and with the offsets that are due.
    pub fn new(kb: u16, m: u16, tables: Vec<(u16, Rows)>) -> Draft {
        Draft::of_type(1, kb, m, 0, tables)
    }

    /// The same of a type, with x extension rows.
    pub fn of_type(coding: u16, kb: u16, m: u16, x: u16, tables: Vec<(u16, Rows)>) -> Draft {
        let (sizes, tables): (Vec<u16>, Vec<Rows>) = tables.into_iter().unzip();
        let t = short(tables.len());
        let offsets = (0..t)
            .map(|place| 10 + 4 * t + place * (m + x) * (kb + m + x))
            .collect();
        Draft {
            kb,
            m,
            x,
            coding,
            t,
            sizes,
            offsets,
            tables,
        }
    }

    pub fn octets(&self) -> Vec<u8> {
        let pairs = self.sizes.iter().zip(&self.offsets);
        let header = [self.kb, self.m, self.x, self.coding, self.t].into_iter();
        let numbers = header.chain(pairs.flat_map(|(&z, &offset)| [z, offset]));
        let mut octets: Vec<u8> = numbers.flat_map(u16::to_be_bytes).collect();
        octets.extend(self.tables.iter().flatten().flatten());
        octets
    }
}

/// Puts the staircase behind the kb columns of a table: its outer shift, and the row of its
/// middle 0 (document 01, "Staircase").
pub fn with_staircase(left: &[Vec<u8>], outer: u8, middle: usize) -> Rows {
    let last = left.len() - 1;
    let entry = |row: usize, j: usize| match j {
        0 if row == 0 || row == last => outer,
        0 if row == middle => 0,
        0 => EMPTY,
        _ if row == j || row + 1 == j => 0,
        _ => EMPTY,
    };
    left.iter()
        .enumerate()
        .map(|(row, entries)| {
            let steps = (0..=last).map(|j| entry(row, j));
            entries.iter().copied().chain(steps).collect()
        })
        .collect()
}

/// Puts an extension below a staircase and behind it: of each extension row what stands before its 0
/// (document 02, CR 3).
pub fn with_extension(staircase: Rows, extension: &[Vec<u8>]) -> Rows {
    let wide = staircase[0].len() + extension.len();
    let mut rows = staircase;
    for before in extension {
        let mut row = before.clone();
        row.push(0);
        rows.push(row);
    }
    for row in &mut rows {
        row.resize(wide, EMPTY);
    }
    rows
}

/// A count or place that is known to be small.
pub fn short(number: usize) -> u16 {
    u16::try_from(number).expect("the parts of a record are small")
}
