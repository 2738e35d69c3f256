//! The tail-biting code of 5G.212 v2.3 section 5.1.3.1: each stream is a sum of the word with itself turned round.

/// The coding rate is 1/3.
pub const STREAMS: usize = 3;

/// "three outputs with generators 133, 171 and 165 octal": how far each bit that is added lies behind the current
/// one, which is at the highest digit. The tests read them off the numbers.
pub const TAPS: [[usize; 5]; STREAMS] = [[0, 2, 3, 5, 6], [0, 1, 2, 3, 6], [0, 1, 2, 4, 6]];

/// The three streams of a word of 6 bits or more, one after the other.
pub fn streams(word: &[u8]) -> Vec<u8> {
    TAPS.iter().flat_map(|taps| stream(taps, word)).collect()
}

/// The register is preset to the last bits of the word, s_i = c_{K-1-i}, so in front of the first bit stands the
/// last: the sums go round. With 6 bits the current one is also the farthest behind.
fn stream(taps: &[usize], word: &[u8]) -> Vec<u8> {
    let length = word.len();
    let behind = |k, tap| word[(k + length - tap) % length];
    (0..length)
        .map(|k| taps.iter().map(|tap| behind(k, tap)).sum::<u8>() % 2)
        .collect()
}
