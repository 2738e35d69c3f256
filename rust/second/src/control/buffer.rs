//! The rate matching of 5G.212 v2.3 section 5.1.4.2: a matrix for each stream, and the list of all their cells,
//! which has gaps, walked round and round. What is matched may be bits, or the places that bits stand in.

pub const COLUMNS: usize = 32;

/// Table 5.1.4.2.1-1: "P(j) is the original column position of the j-th permuted column".
pub const ORDER: [usize; COLUMNS] = [
    1, 17, 9, 25, 5, 21, 13, 29, 3, 19, 11, 27, 7, 23, 15, 31, 0, 16, 8, 24, 4, 20, 12, 28, 2, 18,
    10, 26, 6, 22, 14, 30,
];

/// A bit, or none for <NULL>.
type Cell<T> = Option<T>;

type Row<T> = [Cell<T>; COLUMNS];

/// What is sent of streams of D bits each.
pub fn sent<T: Copy>(streams: &[T], d: usize, e: usize) -> Vec<T> {
    selected(&buffer(streams, d), e)
}

/// "The circular buffer": the interleaved streams one behind the other.
pub fn buffer<T: Copy>(streams: &[T], d: usize) -> Vec<Cell<T>> {
    streams.chunks(d).flat_map(interleaved).collect()
}

/// "read out column by column from the inter-column permuted matrix".
pub fn interleaved<T: Copy>(stream: &[T]) -> Vec<Cell<T>> {
    let rows: Vec<Row<T>> = matrix(stream).iter().map(permuted).collect();
    (0..COLUMNS)
        .flat_map(|column| rows.iter().map(move |row| row[column]))
        .collect()
}

/// "written into the matrix row by row", "minimum integer" rows, the dummy bits in front.
fn matrix<T: Copy>(stream: &[T]) -> Vec<Row<T>> {
    let dummies = stream.len().next_multiple_of(COLUMNS) - stream.len();
    let mut y = vec![None; dummies];
    y.extend(stream.iter().copied().map(Some));
    let row = |cells: &[Cell<T>]| cells.try_into().expect("the last row is full");
    y.chunks(COLUMNS).map(row).collect()
}

fn permuted<T: Copy>(row: &Row<T>) -> Row<T> {
    ORDER.map(|column| row[column])
}

/// The loop of 5.1.4.2.2, with the names that it has there; k is the count of what is taken. Some cell is no gap.
fn selected<T: Copy>(w: &[Cell<T>], e: usize) -> Vec<T> {
    let mut taken = Vec::with_capacity(e);
    let mut j = 0;
    while taken.len() < e {
        taken.extend(w[j % w.len()]);
        j += 1;
    }
    taken
}
