//! The hosted calls: a lookup first, and then sending, receiving or checking with the record (document
//! 01, "Numbers that are answered"; document 02, CR 4).

use crate::numbers::Number;
use crate::parity::check;
use crate::receive::{receive, Received};
use crate::send::send;
use crate::shelf::{lookup, Asked};
use crate::transfer;

/// The count of bits written, or 1 to 4, or as sending answers.
pub fn hosted_send(
    shelves: &Asked,
    block: &[u8],
    asked: transfer::Asked,
    output: &mut [u8],
) -> Result<usize, Number> {
    let found = lookup(shelves)?;
    send(shelves.octets(&found), block, asked, output)
}

/// The count of octets written, or 1 to 4, or as receiving answers.
pub fn hosted_receive(
    shelves: &Asked,
    received: Received,
    output: &mut [u8],
) -> Result<usize, Number> {
    let found = lookup(shelves)?;
    receive(shelves.octets(&found), received, output)
}

/// Whether a word checks, or 1 to 4, or as checking answers.
pub fn hosted_check(shelves: &Asked, z: u64, word: &[u8]) -> Result<bool, Number> {
    let found = lookup(shelves)?;
    check(shelves.octets(&found), z, word)
}

#[cfg(test)]
mod tests;
