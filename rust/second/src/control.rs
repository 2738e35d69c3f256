//! Control words (document 02, CR 5 and CR 10): coded into three streams, matched to a count of radio bits, and taken
//! back from them; and the word that is nearest to three received streams.

mod buffer;
mod nearest;
mod streams;

use std::ops::RangeInclusive;

use crate::checksum::single_bits;
use crate::numbers::{Number, CONTROL_LENGTH, OUTPUT, PARAMETER, SHORT_SHARE, UNSENT};
use buffer::sent;
use streams::{streams, STREAMS};

/// "Inputs are 6 to 128 bits."
const LENGTHS: RangeInclusive<usize> = 6..=128;

/// "E from 1 to 65,536".
const COUNTS: RangeInclusive<usize> = 1..=65_536;

/// Codes a word into its streams, whole, one after the other: the count of bits written, or 17, 11, 12.
pub fn code(word: &[u8], output: &mut [u8]) -> Result<usize, Number> {
    let d = length(word.len() as u64)?;
    let lent = lent(output, STREAMS * d)?;
    single_bits(word)?;
    lent.copy_from_slice(&streams(word));
    Ok(lent.len())
}

/// Matches three streams of D bits each, lying as they are coded: the count of bits written, or 17, 8, 11, 12.
pub fn rate(d: u64, streams: &[u8], e: u64, output: &mut [u8]) -> Result<usize, Number> {
    let d = length(d)?;
    let e = count(e)?;
    if streams.len() != STREAMS * d {
        return Err(PARAMETER);
    }
    let lent = lent(output, e)?;
    single_bits(streams)?;
    lent.copy_from_slice(&sent(streams, d, e));
    Ok(e)
}

/// Codes a word and matches its streams: the count of bits written, or 17, 8, 11, 12.
pub fn send(word: &[u8], e: u64, output: &mut [u8]) -> Result<usize, Number> {
    let d = length(word.len() as u64)?;
    let e = count(e)?;
    let lent = lent(output, e)?;
    single_bits(word)?;
    lent.copy_from_slice(&sent(&streams(word), d, e));
    Ok(e)
}

/// Takes the three streams of D bits each back from what they are sent as: the count of bits written, or 17, 8,
/// 11, 12, 13, 14.
pub fn back(d: u64, bits: &[u8], output: &mut [u8]) -> Result<usize, Number> {
    let d = length(d)?;
    let e = count(bits.len() as u64)?;
    let lent = lent(output, STREAMS * d)?;
    single_bits(bits)?;
    if e < STREAMS * d {
        return Err(SHORT_SHARE);
    }
    lent.copy_from_slice(&sent_from(d, bits).ok_or(UNSENT)?);
    Ok(lent.len())
}

/// The word that is nearest to three received streams.
#[derive(Debug, PartialEq, Eq)]
pub struct Nearest {
    /// How many bits of it are written.
    pub count: usize,
    /// In how many places its streams differ from those received.
    pub differences: usize,
}

/// Finds the nearest word of D bits to three received streams, lying as they are coded: what is written, or 17, 8, 11,
/// 12.
pub fn nearest(d: u64, received: &[u8], output: &mut [u8]) -> Result<Nearest, Number> {
    let d = length(d)?;
    if received.len() != STREAMS * d {
        return Err(PARAMETER);
    }
    let lent = lent(output, d)?;
    single_bits(received)?;
    let (differences, number) = nearest::nearest(d, received);
    lent.copy_from_slice(&nearest::digits(d, number));
    let count = lent.len();
    Ok(Nearest { count, differences })
}

/// D, or 17.
fn length(d: u64) -> Result<usize, Number> {
    within(&LENGTHS, d).ok_or(CONTROL_LENGTH)
}

/// E, or 8.
fn count(e: u64) -> Result<usize, Number> {
    within(&COUNTS, e).ok_or(PARAMETER)
}

fn within(range: &RangeInclusive<usize>, number: u64) -> Option<usize> {
    let number = usize::try_from(number).ok()?;
    range.contains(&number).then_some(number)
}

/// The part of the output that is written, or 11.
fn lent(output: &mut [u8], count: usize) -> Result<&mut [u8], Number> {
    output.get_mut(..count).ok_or(OUTPUT)
}

/// The streams that are sent as these bits. The places of the streams are sent as the bits are, so each bit knows
/// where it belongs; "copies being compared", a place holds one value only. The bits are enough for every place.
fn sent_from(d: usize, bits: &[u8]) -> Option<Vec<u8>> {
    let places: Vec<usize> = (0..STREAMS * d).collect();
    let mut streams = vec![None; places.len()];
    for (&bit, place) in bits.iter().zip(sent(&places, d, bits.len())) {
        if *streams[place].get_or_insert(bit) != bit {
            return None;
        }
    }
    streams.into_iter().collect()
}

#[cfg(test)]
mod tests;
