//! Checksums (5G.212, 5.1.1): of bits and of octets, of a code block, and under a mask.

use crate::counts::{Checksum, Mask, Width};
use crate::raw::{self, call};
use crate::refusal::Refusal;

/// The checksum of bits, its first bit highest.
///
/// ```
/// use kuambyte::{checksum, Checksum, Refusal, Width};
///
/// let bits = [0, 0, 0, 0, 0, 0, 0, 1];
/// assert_eq!(checksum::of_bits(Width::TwentyFour, &bits), Ok(Checksum(0x86_4cfb)));
/// assert_eq!(checksum::of_bits(Width::Eight, &[1, 2]), Err(Refusal::NoBit));
/// ```
///
/// # Errors
/// 12.
pub fn of_bits(width: Width, bits: &[u8]) -> Result<Checksum, Refusal> {
    summed(call!(kuambyte_checksum_of_bits: (width.bits()) read bits))
}

/// The checksum of packed octets, the highest bit of each first. No octets are refused.
#[must_use]
pub fn of_octets(width: Width, octets: &[u8]) -> Checksum {
    let sum = call!(kuambyte_checksum_of_octets: (width.bits()) read octets);
    debug_assert_eq!(sum.number, 0);
    Checksum(sum.value)
}

/// The checksum that a code block carries in edition 2: 24 bits of generator 24B.
///
/// # Errors
/// 12.
pub fn of_block_bits(bits: &[u8]) -> Result<Checksum, Refusal> {
    summed(call!(kuambyte_checksum_of_block_bits: read bits))
}

/// The checksum of bits with a mask added to it.
///
/// # Errors
/// 12.
pub fn under(width: Width, mask: Mask, bits: &[u8]) -> Result<Checksum, Refusal> {
    summed(call!(kuambyte_sum_under: (width.bits()) (mask.0) read bits))
}

/// Writes bits, and their checksum under a mask behind them.
///
/// # Errors
/// 11, 12.
pub fn append_under<'o>(
    width: Width,
    mask: Mask,
    bits: &[u8],
    out: &'o mut [u8],
) -> Result<&'o mut [u8], Refusal> {
    let answer = call!(kuambyte_append_under: (width.bits()) (mask.0) read bits write out);
    raw::written(answer, out)
}

/// Whether a word ends in the checksum under a mask of the bits before; one that is shorter than
/// its checksum does not.
///
/// ```
/// use kuambyte::{checksum, Mask, Width};
///
/// let mut out = [0; 17];
/// let word = checksum::append_under(Width::Sixteen, Mask(0xffff), &[1], &mut out)?;
/// assert!(checksum::test_under(Width::Sixteen, Mask(0xffff), word)?);
/// assert!(!checksum::test_under(Width::Sixteen, Mask(0), word)?);
/// # Ok::<(), kuambyte::Refusal>(())
/// ```
///
/// # Errors
/// 12.
pub fn test_under(width: Width, mask: Mask, word: &[u8]) -> Result<bool, Refusal> {
    raw::tested(call!(kuambyte_test_under: (width.bits()) (mask.0) read word))
}

fn summed(sum: raw::Sum) -> Result<Checksum, Refusal> {
    raw::done(sum.number, Checksum(sum.value))
}
