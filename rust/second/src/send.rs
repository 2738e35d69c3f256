//! Sends a transport block (document 01, "From block to radio bits"; document 02, CR 8).

use crate::numbers::{Number, OUTPUT};
use crate::transfer::{Asked, Transfer};

/// The count of bits written, which is G, or 5 to 11, 16 or 19.
pub fn send(record: &[u8], block: &[u8], asked: Asked, output: &mut [u8]) -> Result<usize, Number> {
    // "A is 8 times the octets".
    let transfer = Transfer::new(record, 8 * block.len() as u64, asked)?;
    if output.len() < transfer.g {
        return Err(OUTPUT);
    }
    let bits = transfer.sent(block);
    output[..transfer.g].copy_from_slice(&bits);
    Ok(transfer.g)
}

#[cfg(test)]
mod tests;
