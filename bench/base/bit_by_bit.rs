//! Plain Rust that sums bit by bit, for the driver to call: the checksum of octets is to take at most half its time.
//!
//! Of the plain ways that LLVM 22 leaves bit by bit it is the fastest over the three widths together. Each generator
//! is known when it is compiled, so that a step need not wait for the one before where the generator's highest bits
//! are 0, and a mask says whether it is added. With an `if` in place of the mask LLVM sees that this is a checksum and
//! puts a table of 256 entries there. As it stands, rustc and the kit's clang make the same of it: for each width a
//! loop of eight steps for an octet, each of them shift, sign, and, xor; nothing is loaded but the octet.
//! bench/checksum looks whether that is still so.

use crate::plain::checksum::{G16, G24, G8};

/// The checksum of the octets, the highest bit of each first; 0 where no generator has the width.
pub fn summed(width: usize, octets: &[u8]) -> u32 {
    match width {
        24 => divided::<G24>(octets) >> 8,
        16 => divided::<G16>(octets) >> 16,
        8 => divided::<G8>(octets) >> 24,
        _ => 0,
    }
}

/// The register after all bits. It stands in the highest places of 32, as the generator does.
fn divided<const GENERATOR: u32>(octets: &[u8]) -> u32 {
    let mut register = 0;
    for &octet in octets {
        register ^= u32::from(octet) << 24;
        for _ in 0..8 {
            let ones_if_out = 0u32.wrapping_sub(register >> 31);
            register = (register << 1) ^ (GENERATOR & ones_if_out);
        }
    }
    register
}
