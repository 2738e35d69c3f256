//! Reads the printed tables of 5G.212 v2.3, section 5.1.3.2, counts their numbers row by row, and
//! writes those of Type 1, mended where a row has not its count, as the text of the public shelf, and that of
//! Type 2, which no rule mends, as the text of the trial shelf.

mod mend;
mod third;
mod write;

use std::io;

pub use third::trial;
pub use write::{counts, public};

/// A table of the section and what is due in it (table 5.1.3.2-1).
struct Due {
    number: &'static str,
    title: &'static str,
    kb: usize,
    m: usize,
    /// The extension rows behind the m of the staircase.
    x: usize,
    /// The z of its parts (a), (b) and (c), or of the whole where it has none.
    sizes: &'static [u16],
    /// How many lines a row is printed in.
    lines: usize,
}

const TYPE_1: [u16; 3] = [27, 54, 81];

const FIVE_SIXTHS: Due = Due {
    number: "5.1.3.2-2",
    title: "rate 5/6, Type 1",
    kb: 20,
    m: 4,
    x: 0,
    sizes: &TYPE_1,
    lines: 1,
};

const THREE_QUARTERS: Due = Due {
    number: "5.1.3.2-3",
    title: "rate 3/4, Type 1",
    kb: 18,
    m: 6,
    x: 0,
    sizes: &TYPE_1,
    lines: 1,
};

const TWO_THIRDS: Due = Due {
    number: "5.1.3.2-4",
    title: "rate 2/3, Type 1",
    kb: 16,
    m: 8,
    x: 0,
    sizes: &TYPE_1,
    lines: 1,
};

const HALF: Due = Due {
    number: "5.1.3.2-5",
    title: "rate 1/2, Type 1",
    kb: 12,
    m: 12,
    x: 0,
    sizes: &TYPE_1,
    lines: 1,
};

const THIRD: Due = Due {
    number: "5.1.3.2-6",
    title: "rate 1/3, Type 2",
    kb: 20,
    m: 4,
    x: 36,
    sizes: &[81],
    lines: 2,
};

/// A line of a table: its numbers as they are printed.
type Line<'a> = Vec<&'a str>;

impl Due {
    /// The printed lines of each part.
    fn find<'a>(&self, text: &'a str) -> io::Result<Vec<Vec<Line<'a>>>> {
        let caption = format!("Table {}:", self.number);
        let mut lines = text.lines().skip_while(|line| !line.starts_with(&caption));
        lines.next();
        let mut parts = vec![Vec::new()];
        // The last table is followed by section 5.1.4.
        for line in lines.take_while(|line| !line.starts_with("Table ") && !line.starts_with("5."))
        {
            let words: Line = line.split_whitespace().collect();
            if line.starts_with('(') {
                parts.push(Vec::new());
            } else if !words.is_empty() && words.iter().all(|word| is_number(word)) {
                parts.last_mut().expect("there is one").push(words);
            }
        }
        // Nothing is printed between the caption and the first part.
        parts.retain(|part| !part.is_empty());
        let due = self.rows() * self.lines;
        if parts.len() != self.sizes.len() || parts.iter().any(|part| part.len() != due) {
            let found: Vec<usize> = parts.iter().map(Vec::len).collect();
            return Err(io::Error::other(format!(
                "table {}: lines of numbers in its parts: {found:?}, due: {due} in each of {}",
                self.number,
                self.sizes.len()
            )));
        }
        Ok(parts)
    }

    fn rows(&self) -> usize {
        self.m + self.x
    }

    /// How many numbers a row has to hold.
    fn columns(&self) -> usize {
        self.kb + self.rows()
    }
}

fn is_number(word: &str) -> bool {
    let digits = word.strip_prefix('-').unwrap_or(word);
    !digits.is_empty() && digits.bytes().all(|digit| digit.is_ascii_digit())
}

#[cfg(test)]
mod tests;
