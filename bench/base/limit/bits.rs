//! Bits in machine words: taken out of packed octets, spread to an octet each, and packed again.

/// The n highest places.
pub fn top(n: usize) -> u128 {
    if n == 0 {
        0
    } else {
        u128::MAX << (128 - n)
    }
}

/// n bits, at most 121, from bit `at` on, in the highest places. 16 octets stand behind every place that is read.
pub fn bits_at(octets: &[u8], at: usize, n: usize) -> u128 {
    let start = at / 8;
    let word = u128::from_be_bytes(octets[start..start + 16].try_into().unwrap());
    (word << (at % 8)) & top(n)
}

/// A group of z places from place `at` on, of a block whose `own` bits begin at bit `start`; filler counts as 0.
pub fn own_group(octets: &[u8], start: usize, own: usize, at: usize, z: usize) -> u128 {
    if at >= own {
        0
    } else {
        bits_at(octets, start + at, z.min(own - at))
    }
}

/// The eight bits of each octet, an octet for each.
const fn spread() -> [u64; 256] {
    let mut table = [0; 256];
    let mut place = 0;
    while place < 256 * 8 {
        let (octet, k) = (place / 8, place % 8);
        table[octet] |= ((octet as u64 >> (7 - k)) & 1) << (8 * k);
        place += 1;
    }
    table
}

static SPREAD: [u64; 256] = spread();

pub fn spread_octet(octet: u8) -> [u8; 8] {
    SPREAD[octet as usize].to_le_bytes()
}

/// Writes the n highest bits; up to seven octets more may be written.
pub fn put(out: &mut [u8], bits: u128, n: usize) {
    let octets = bits.to_be_bytes();
    for (eight, &octet) in out[..n.next_multiple_of(8)].chunks_exact_mut(8).zip(&octets) {
        eight.copy_from_slice(&spread_octet(octet));
    }
}

/// Packs bits, an octet each; eight at a time by one multiplication.
pub fn pack(bits: &[u8], out: &mut [u8]) {
    let mut eights = bits.chunks_exact(8);
    let mut octets = out.iter_mut();
    for (eight, octet) in (&mut eights).zip(&mut octets) {
        let word = u64::from_le_bytes(eight.try_into().unwrap());
        *octet = (word.wrapping_mul(0x8040_2010_0804_0201) >> 56) as u8;
    }
    let rest = eights.remainder();
    if !rest.is_empty() {
        *octets.next().unwrap() = rest.iter().enumerate().fold(0, |octet, (k, &bit)| octet | bit << (7 - k));
    }
}
