//! Checksums under a mask: the mask's digits added to the parity bits (document 02, CR 9).

use crate::checksum::{generator, parity_bits, remainder, single_bits, value};
use crate::numbers::{Number, OUTPUT};

/// The checksum of single bits under a mask, or the number that refuses them: 8, 12.
pub fn checksum_under(width: u64, mask: u64, bits: &[u8]) -> Result<u32, Number> {
    let generator = generator(width)?;
    single_bits(bits)?;
    Ok(value(&parity_under(mask, bits, &generator)))
}

/// Writes the bits and then those of their checksum under a mask: the count of bits written, or 8,
/// 11, 12.
pub fn append(width: u64, mask: u64, bits: &[u8], output: &mut [u8]) -> Result<usize, Number> {
    let generator = generator(width)?;
    let count = bits.len() + degree(&generator);
    if output.len() < count {
        return Err(OUTPUT);
    }
    single_bits(bits)?;
    let word = [bits, &parity_under(mask, bits, &generator)].concat();
    output[..count].copy_from_slice(&word);
    Ok(count)
}

/// Whether a word is some bits with their checksum under a mask behind them, or 8, 12. Without a mask
/// such a word leaves nothing, so with one it leaves just what was added to its last places; and as no
/// two endings of the same bits leave the same, no other word does. A word that has not the places of
/// a checksum is none of these.
pub fn is_appended(width: u64, mask: u64, word: &[u8]) -> Result<bool, Number> {
    let generator = generator(width)?;
    single_bits(word)?;
    if word.len() < degree(&generator) {
        return Ok(false);
    }
    let left = remainder(word.to_vec(), &generator);
    Ok(left == digits(mask, left.len()))
}

/// As many places as a checksum has.
fn degree(generator: &[u8]) -> usize {
    generator.len() - 1
}

/// "(p_{k-A} + x_{ant,k-A}) mod 2" of 5G.212 v2.3 section 5.3.1.1, where the x are the mask's digits.
fn parity_under(mask: u64, bits: &[u8], generator: &[u8]) -> Vec<u8> {
    let parity = parity_bits(bits, generator);
    let digits = digits(mask, parity.len());
    parity
        .iter()
        .zip(digits)
        .map(|(p, x)| (p + x) % 2)
        .collect()
}

/// The last binary digits of the mask, the highest first: "higher bits ignored".
fn digits(mask: u64, places: usize) -> Vec<u8> {
    let mut rest = mask;
    let mut digits = vec![0; places];
    for digit in digits.iter_mut().rev() {
        *digit = u8::from(rest % 2 == 1);
        rest /= 2;
    }
    digits
}

#[cfg(test)]
mod tests;
