//! Which rule a shelf or a record breaks first, and where: what to look at after a refusal with 2, 3, 5 or 6.

use std::fmt;

use crate::raw::{self, call};

macro_rules! rules {
    ($(#[$doc:meta])* $name:ident { $($rule:ident, $words:literal;)* }) => {
        $(#[$doc])*
        #[derive(Clone, Copy, Debug, PartialEq, Eq, Hash)]
        #[non_exhaustive]
        pub enum $name {
            $(#[doc = concat!($words, ".")] $rule,)*
        }

        impl $name {
            /// All of them, in the order in which they are tested.
            pub const ALL: &'static [$name] = &[$($name::$rule),*];

            /// What the rule says.
            #[must_use]
            pub fn words(self) -> &'static str {
                match self {
                    $($name::$rule => $words,)*
                }
            }
        }

        impl fmt::Display for $name {
            fn fmt(&self, f: &mut fmt::Formatter<'_>) -> fmt::Result {
                f.write_str(self.words())
            }
        }
    };
}

rules! {
    /// A rule of a shelf, in the words of the service.
    ShelfRule {
        NoCount, "it begins with a count n of two octets";
        Count, "n is 0 to 64";
        EntriesCut, "then come n entries of tenant, profile number, offset and length, two octets each";
        Pairs, "pairs of tenant and profile number strictly rise";
        FirstOffset, "the first offset is 2 + 8n";
        NextOffset, "each next offset is the end of the record before";
        End, "it ends with the last record, at 2 where n is 0";
        Size, "it has at most 65,535 octets";
        Tenant, "every tenant is 0 in a public shelf and 1 or more in a private one";
    }
}

rules! {
    /// A rule of a profile record: up to `Entry` those of number 5, then those of number 6.
    RecordRule {
        NoHeader, "it begins with kb, m, x, type and t, two octets each";
        Kb, "kb is 1 to 20";
        M, "m is 3 to 12";
        X, "x is 0 to 37";
        Rows, "m + x is at most 40";
        Type, "the type is 1 or 2";
        Type1Extended, "with Type 1 x is 0";
        T, "t is 1 to 3";
        PairsCut, "then come t pairs of z and offset, two octets each";
        Z, "z is 1 to 81";
        ZRising, "sizes strictly rise";
        FirstOffset, "the first offset is 10 + 4t";
        NextOffset, "each next offset is the end of the table before";
        End, "it ends with the last table";
        Entry, "an entry is 255 for empty, else a shift below its z";
        TopEmpty, "column kb is filled in row 0";
        LastEmpty, "column kb is filled in row m-1";
        Between, "column kb is filled in exactly one row between";
        Outer, "the two outer shifts of column kb are equal";
        Middle, "the middle shift of column kb is 0";
        Column, "column kb+j holds 0 in rows j-1 and j, and is empty elsewhere";
        RowExtended, "staircase rows are empty in all extension columns";
        OwnColumn, "extension row m+i holds 0 in column kb+m+i";
        LaterColumn, "in extension row m+i later columns are empty";
    }
}

/// The first rule that a shelf breaks; entries and octets are counted from 0.
#[derive(Clone, Copy, Debug, PartialEq, Eq)]
pub struct BrokenShelf {
    /// The rule.
    pub rule: ShelfRule,
    /// The entry, where the rule is about one, and 0 elsewhere.
    pub entry: usize,
    /// The octet where; where the end is wrong, it may be the length, at which there is none.
    pub at: usize,
}

/// The first rule that a record breaks; tables, rows, columns and octets are counted from 0.
#[derive(Clone, Copy, Debug, PartialEq, Eq)]
pub struct BrokenRecord {
    /// The rule.
    pub rule: RecordRule,
    /// The table, where the rule is about one, and 0 elsewhere.
    pub table: usize,
    /// Its row, likewise.
    pub row: usize,
    /// Its column, likewise.
    pub column: usize,
    /// The octet where; where the end is wrong, it may be the length, at which there is none.
    pub at: usize,
}

/// The first rule of a profile record that these octets break, or none where they are one.
///
/// ```
/// use kuambyte::rules::{broken_record, RecordRule};
///
/// let no_rows = [0, 1, 0, 0, 0, 0, 0, 1, 0, 1];
/// let broken = broken_record(&no_rows).expect("m is 0");
/// assert_eq!((broken.rule, broken.at), (RecordRule::M, 2));
/// assert_eq!(broken.to_string(), "the rule that is broken first: m is 3 to 12 (octet 2)");
/// ```
#[must_use]
pub fn broken_record(record: &[u8]) -> Option<BrokenRecord> {
    let wrong = call!(kuambyte_rule_of_record: read record);
    Some(BrokenRecord {
        rule: rule_of(RecordRule::ALL, wrong.rule)?,
        table: wrong.table,
        row: wrong.row,
        column: wrong.column,
        at: wrong.at,
    })
}

impl BrokenShelf {
    pub(crate) fn of(shelf: u32, octets: &[u8]) -> Option<BrokenShelf> {
        let broken = call!(kuambyte_rule_of_shelf: (shelf) read octets);
        Some(BrokenShelf {
            rule: rule_of(ShelfRule::ALL, broken.rule)?,
            entry: broken.entry,
            at: broken.at,
        })
    }
}

/// Rules are numbered from 1; 0 is for none.
fn rule_of<R: Copy>(all: &[R], number: usize) -> Option<R> {
    let place = number.checked_sub(1)?;
    Some(*all.get(place).unwrap_or_else(|| raw::unknown(number)))
}

impl fmt::Display for BrokenShelf {
    fn fmt(&self, f: &mut fmt::Formatter<'_>) -> fmt::Result {
        let BrokenShelf { rule, entry, at } = self;
        write!(f, "the rule that is broken first: {rule} (")?;
        match rule {
            ShelfRule::Pairs
            | ShelfRule::FirstOffset
            | ShelfRule::NextOffset
            | ShelfRule::Tenant => write!(f, "entry {entry}, octet {at})"),
            _ => write!(f, "octet {at})"),
        }
    }
}

impl fmt::Display for BrokenRecord {
    fn fmt(&self, f: &mut fmt::Formatter<'_>) -> fmt::Result {
        write!(f, "the rule that is broken first: {} (", self.rule)?;
        if self.rule as usize >= RecordRule::Entry as usize {
            let BrokenRecord {
                table, row, column, ..
            } = self;
            write!(f, "table {table}, row {row}, column {column}, ")?;
        }
        write!(f, "octet {})", self.at)
    }
}
