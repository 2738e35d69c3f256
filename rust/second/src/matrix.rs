//! Bits in rows, matrices of them, and equations modulo two, solved by elimination.

/// Places in a word of a row.
const WORD: usize = 64;

/// A row of bits, 64 to a word.
#[derive(Clone, Debug, PartialEq, Eq)]
pub struct Row {
    words: Vec<u64>,
}

impl Row {
    pub fn zeros(length: usize) -> Row {
        let words = vec![0; length.div_ceil(WORD)];
        Row { words }
    }

    /// The row of these single bits.
    pub fn of(bits: &[u8]) -> Row {
        let mut row = Row::zeros(bits.len());
        for (place, &bit) in bits.iter().enumerate() {
            if bit == 1 {
                row.flip(place);
            }
        }
        row
    }

    pub fn bit(&self, place: usize) -> bool {
        self.words[place / WORD] >> (place % WORD) & 1 == 1
    }

    pub fn flip(&mut self, place: usize) {
        self.words[place / WORD] ^= 1 << (place % WORD);
    }

    /// Adds another row of the same length, place by place, modulo two.
    fn add(&mut self, other: &Row) {
        for (word, other) in self.words.iter_mut().zip(&other.words) {
            *word ^= other;
        }
    }

    /// The sum, over the places where this row has a one, of the other row's bits, modulo two.
    fn sum_over(&self, other: &Row) -> bool {
        let common = self.words.iter().zip(&other.words);
        let ones: u32 = common
            .map(|(left, right)| (left & right).count_ones())
            .sum();
        ones % 2 == 1
    }
}

/// A matrix of bits.
#[derive(Clone, Debug, PartialEq, Eq)]
pub struct Matrix {
    pub rows: Vec<Row>,
    pub columns: usize,
}

impl Matrix {
    pub fn zeros(rows: usize, columns: usize) -> Matrix {
        let rows = vec![Row::zeros(columns); rows];
        Matrix { rows, columns }
    }

    /// Each row's sum over the word, modulo two.
    pub fn sums_over(&self, word: &Row) -> Vec<u8> {
        self.rows
            .iter()
            .map(|row| u8::from(row.sum_over(word)))
            .collect()
    }
}

/// Equations whose right sides are not yet known, brought to a form that is easy to read off.
pub struct Equations {
    /// The eliminated equations. Each row is the left side, and behind it the equations whose sum
    /// it is.
    rows: Vec<Row>,
    unknowns: usize,
    /// The unknown that each of the first rows gives. The other rows have nothing on the left.
    given: Vec<usize>,
}

impl Equations {
    /// Eliminates: each row after the other is made the only one that has a one in some column.
    pub fn new(left: &Matrix) -> Equations {
        let mut rows = with_identity(left);
        let mut given = Vec::new();
        for unknown in 0..left.columns {
            let next = given.len();
            let Some(found) = (next..rows.len()).find(|&row| rows[row].bit(unknown)) else {
                continue;
            };
            rows.swap(next, found);
            clear_elsewhere(&mut rows, next, unknown);
            given.push(unknown);
        }
        Equations {
            rows,
            unknowns: left.columns,
            given,
        }
    }

    /// Unknowns with which all the equations hold, wherever there are such. What the equations
    /// leave open is 0.
    pub fn solve(&self, right: &[u8]) -> Vec<u8> {
        // Zeros stand where the left sides do, so that only the right sides are summed.
        let right = Row::of(&[vec![0; self.unknowns], right.to_vec()].concat());
        let mut unknowns = vec![0; self.unknowns];
        for (&unknown, row) in self.given.iter().zip(&self.rows) {
            unknowns[unknown] = u8::from(row.sum_over(&right));
        }
        unknowns
    }

    /// Whether there are unknowns for every right side: no row has nothing on the left.
    #[cfg(test)]
    pub fn have_a_solution(&self) -> bool {
        self.given.len() == self.rows.len()
    }
}

/// The rows of a matrix, each followed by a row of the identity.
fn with_identity(matrix: &Matrix) -> Vec<Row> {
    let count = matrix.rows.len();
    let mut rows = Vec::new();
    for (place, row) in matrix.rows.iter().enumerate() {
        let mut longer = Row::zeros(matrix.columns + count);
        longer.add(row);
        longer.flip(matrix.columns + place);
        rows.push(longer);
    }
    rows
}

/// Adds one row to all others that have a one in the column.
fn clear_elsewhere(rows: &mut [Row], one: usize, column: usize) {
    let only = rows[one].clone();
    for (place, row) in rows.iter_mut().enumerate() {
        if place != one && row.bit(column) {
            row.add(&only);
        }
    }
}

#[cfg(test)]
mod tests {
    use super::{Equations, Matrix, Row};
    use crate::random::Random;
    use crate::samples::{binary, bits};

    fn matrix(rows: &[&[u8]]) -> Matrix {
        Matrix {
            rows: rows.iter().map(|row| Row::of(row)).collect(),
            columns: rows[0].len(),
        }
    }

    #[test]
    fn rows_hold_their_bits() {
        let mut random = Random::new(1);
        for length in [0, 1, 63, 64, 65, 127, 128, 129, 1000] {
            let bits = bits(length, &mut random);
            let row = Row::of(&bits);
            let read: Vec<u8> = (0..length).map(|place| u8::from(row.bit(place))).collect();
            assert_eq!(read, bits);
        }
    }

    #[test]
    fn rows_are_summed_as_on_paper() {
        let mut random = Random::new(2);
        for length in [1, 63, 64, 65, 200] {
            let (left, right) = (bits(length, &mut random), bits(length, &mut random));
            let sum: u32 = left
                .iter()
                .zip(&right)
                .map(|(left, right)| u32::from(left * right))
                .sum();
            assert_eq!(Row::of(&left).sum_over(&Row::of(&right)), sum % 2 == 1);
        }
    }

    #[test]
    fn a_matrix_sums_each_of_its_rows() {
        let matrix = matrix(&[&[1, 1, 0], &[0, 1, 1], &[1, 1, 1], &[0, 0, 0]]);
        assert_eq!(matrix.sums_over(&Row::of(&[1, 0, 1])), [1, 1, 0, 0]);
        assert_eq!(matrix.sums_over(&Row::of(&[1, 1, 1])), [0, 0, 1, 0]);
    }

    #[test]
    fn equations_with_one_solution() {
        let equations = Equations::new(&matrix(&[&[0, 1, 1], &[1, 1, 0], &[1, 1, 1]]));
        // b + c = 1, a + b = 0, a + b + c = 1: c = 1, b = 0, a = 0.
        assert!(equations.have_a_solution());
        assert_eq!(equations.solve(&[1, 0, 1]), [0, 0, 1]);
        assert_eq!(equations.solve(&[0, 0, 0]), [0, 0, 0]);
    }

    #[test]
    fn equations_without_a_solution() {
        // The third row is the sum of the other two.
        let matrix_of_three = matrix(&[&[1, 1, 0], &[0, 1, 1], &[1, 0, 1]]);
        let equations = Equations::new(&matrix_of_three);
        assert!(!equations.have_a_solution());
        let sums = |right: &[u8]| matrix_of_three.sums_over(&Row::of(&equations.solve(right)));
        assert_ne!(sums(&[1, 0, 0]), [1, 0, 0]);
        assert_ne!(sums(&[1, 1, 1]), [1, 1, 1]);
        assert_eq!(sums(&[1, 0, 1]), [1, 0, 1]);
        let nothing = Equations::new(&matrix(&[&[0, 0]]));
        assert!(!nothing.have_a_solution());
        assert_eq!(nothing.solve(&[0]), [0, 0]);
    }

    #[test]
    fn every_solution_solves_and_none_is_missed() {
        // Small systems, against all words that there are.
        let mut random = Random::new(3);
        for _ in 0..300 {
            let (rows, columns) = (1 + random.below(6), 1 + random.below(6));
            let lines: Vec<Vec<u8>> = (0..rows).map(|_| bits(columns, &mut random)).collect();
            let matrix = matrix(&lines.iter().map(Vec::as_slice).collect::<Vec<&[u8]>>());
            let equations = Equations::new(&matrix);
            let right = bits(rows, &mut random);
            let solutions: Vec<Vec<u8>> = (0..1 << columns)
                .map(|number| binary(number, columns))
                .filter(|word| matrix.sums_over(&Row::of(word)) == right)
                .collect();
            let solution = equations.solve(&right);
            assert!(solutions.contains(&solution) || solutions.is_empty());
            assert!(!solutions.is_empty() || !equations.have_a_solution());
        }
    }
}
