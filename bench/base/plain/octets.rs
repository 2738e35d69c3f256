//! Octets as bits and back, and tests over long slices.

pub fn unpack(octets: &[u8], out: &mut [u8]) {
    for (eight, &octet) in out.chunks_exact_mut(8).zip(octets) {
        for (k, bit) in eight.iter_mut().enumerate() {
            *bit = (octet >> (7 - k)) & 1;
        }
    }
}

pub fn pack(bits: &[u8], out: &mut [u8]) {
    for (octet, eight) in out.iter_mut().zip(bits.chunks_exact(8)) {
        *octet = eight.iter().fold(0, |value, &bit| (value << 1) | bit);
    }
}

pub fn xor(to: &mut [u8], from: &[u8]) {
    for (a, &b) in to.iter_mut().zip(from) {
        *a ^= b;
    }
}

/// No early end, so that it goes by vectors; with a known `most` it is shorter.
#[inline(always)]
pub fn some_over(most: u8, octets: &[u8]) -> bool {
    octets.iter().fold(false, |over, &octet| over | (octet > most))
}

pub fn all_zero(octets: &[u8]) -> bool {
    octets.iter().fold(0, |any, &octet| any | octet) == 0
}
