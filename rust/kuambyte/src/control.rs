//! Control words of 6 to 128 bits: coded to three streams, sent, taken back, and the nearest word.
//!
//! The three streams of a word lie whole, one after the other, in the order of their generators.
//!
//! ```
//! use kuambyte::{control, CodedBits, WordLength};
//!
//! let word = [1, 0, 1, 1, 0, 0];
//! let (mut sent, mut streams, mut heard) = ([0; 20], [0; 18], [0; 6]);
//! let sent = control::send_word(&word, CodedBits(20), &mut sent)?;
//! let streams = control::streams_of(WordLength(6), sent, &mut streams)?;
//!
//! streams[0] ^= 1;
//! let nearest = control::nearest_word(WordLength(6), streams, &mut heard)?;
//! assert_eq!((&*nearest.word, nearest.differences), (&word[..], 1));
//! # Ok::<(), kuambyte::Refusal>(())
//! ```

use crate::counts::{CodedBits, WordLength};
use crate::raw::{self, call};
use crate::refusal::Refusal;

/// The nearest word, and in how many places its three streams differ from those that were heard.
#[derive(Debug, PartialEq, Eq)]
pub struct Nearest<'o> {
    /// Its bits, the front of the output.
    pub word: &'o mut [u8],
    /// In how many places.
    pub differences: usize,
}

/// Writes the three streams that a word of D bits is coded to: 3D bits.
///
/// # Errors
/// 17, 11, 12.
pub fn code_word<'o>(word: &[u8], out: &'o mut [u8]) -> Result<&'o mut [u8], Refusal> {
    let answer = call!(kuambyte_code_word: read word write out);
    raw::written(answer, out)
}

/// Writes the `e` bits that the three streams of a word of `d` bits are sent as.
///
/// # Errors
/// 17, 8 for E or for other than 3D bits of streams, 11, 12.
pub fn match_streams<'o>(
    d: WordLength,
    streams: &[u8],
    e: CodedBits,
    out: &'o mut [u8],
) -> Result<&'o mut [u8], Refusal> {
    let answer = call!(kuambyte_match_streams: (d.0) read streams (e.0) write out);
    raw::written(answer, out)
}

/// Writes the `e` bits that a word is sent as.
///
/// # Errors
/// 17, 8 for E, 11, 12.
pub fn send_word<'o>(
    word: &[u8],
    e: CodedBits,
    out: &'o mut [u8],
) -> Result<&'o mut [u8], Refusal> {
    let answer = call!(kuambyte_send_word: read word (e.0) write out);
    raw::written(answer, out)
}

/// Writes the three streams of a word of `d` bits that were sent as bits, whose count is E: 3D bits.
/// Bits behind the first 3D are copies, and copies that differ are refused with 14: of bits that
/// noise has touched, lend the first 3D.
///
/// # Errors
/// 17, 8 for E, 11, 12, 13 for E below 3D, 14.
pub fn streams_of<'o>(
    d: WordLength,
    bits: &[u8],
    out: &'o mut [u8],
) -> Result<&'o mut [u8], Refusal> {
    let answer = call!(kuambyte_streams_of: (d.0) read bits write out);
    raw::written(answer, out)
}

/// Writes the word of `d` bits whose three streams differ in the fewest places from those that were
/// heard; of several the smallest.
///
/// # Errors
/// 17, 8 for other than 3D bits of streams, 11, 12.
pub fn nearest_word<'o>(
    d: WordLength,
    heard: &[u8],
    out: &'o mut [u8],
) -> Result<Nearest<'o>, Refusal> {
    let closest = call!(kuambyte_nearest_word: (d.0) read heard write out);
    let word = &mut out[..closest.count];
    let differences = closest.differences;
    raw::done(closest.number, Nearest { word, differences })
}
