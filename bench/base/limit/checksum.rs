//! Checksums of eight octets at a time, from eight tables.

use super::bits::{bits_at, pack};
use crate::plain::checksum::{bits_from, table, G16, G24, G24B, G8};
use crate::plain::octets::some_over;

type Tables = [[u32; 256]; 8];

/// Table k is for an octet with k octets behind it.
const fn tables(generator: u32) -> Tables {
    let mut tables = [table(generator); 8];
    let mut k = 1;
    while k < 8 {
        tables[k] = moved(&tables[k - 1], &tables[0]);
        k += 1;
    }
    tables
}

const fn moved(last: &[u32; 256], first: &[u32; 256]) -> [u32; 256] {
    let mut table = [0; 256];
    let mut octet = 0;
    while octet < 256 {
        let register = last[octet];
        table[octet] = (register << 8) ^ first[(register >> 24) as usize];
        octet += 1;
    }
    table
}

static TABLES24: Tables = tables(G24);
static TABLES16: Tables = tables(G16);
static TABLES8: Tables = tables(G8);
static TABLES24B: Tables = tables(G24B);

fn folded(tables: &Tables, octets: &[u8]) -> u32 {
    let mut eights = octets.chunks_exact(8);
    let register = (&mut eights).fold(0, |register, eight| of_eight(tables, register, eight));
    let next = |register: u32, &octet: &u8| (register << 8) ^ tables[0][(register >> 24) as usize ^ octet as usize];
    eights.remainder().iter().fold(register, next)
}

fn of_eight(tables: &Tables, register: u32, eight: &[u8]) -> u32 {
    let first = register ^ u32::from_be_bytes([eight[0], eight[1], eight[2], eight[3]]);
    let at = |k: usize, shift: u32| tables[k][(first >> shift) as usize & 255];
    let ahead = at(7, 24) ^ at(6, 16) ^ at(5, 8) ^ at(4, 0);
    let behind = |k: usize| tables[k][eight[7 - k] as usize];
    ahead ^ behind(3) ^ behind(2) ^ behind(1) ^ behind(0)
}

pub fn by_eight_octets(width: usize, octets: &[u8]) -> u32 {
    match width {
        24 => folded(&TABLES24, octets) >> 8,
        16 => folded(&TABLES16, octets) >> 16,
        8 => folded(&TABLES8, octets) >> 24,
        _ => 0,
    }
}

/// Of single bits, 64 at a time. 0 where one is over 1.
pub fn of_bits(width: usize, bits: &[u8]) -> u32 {
    match width {
        _ if some_over(1, bits) => 0,
        24 => bits_folded(&TABLES24, G24, bits) >> 8,
        16 => bits_folded(&TABLES16, G16, bits) >> 16,
        8 => bits_folded(&TABLES8, G8, bits) >> 24,
        _ => 0,
    }
}

/// The checksum of a code block, of single bits. 0 where one is over 1.
pub fn of_block_bits(bits: &[u8]) -> u32 {
    if some_over(1, bits) {
        0
    } else {
        bits_folded(&TABLES24B, G24B, bits) >> 8
    }
}

/// The same of so many packed bits, from bit `start` on. Zeros in front change no checksum, so the bits that are left
/// over where it goes by 64 are taken first, behind zeros.
pub fn of_packed_block(octets: &[u8], start: usize, count: usize) -> u32 {
    let over = count % 64;
    let first = bits_at(octets, start, over).wrapping_shr(128 - over as u32) as u64;
    let mut register = of_eight(&TABLES24B, 0, &first.to_be_bytes());
    for at in (start + over..start + count).step_by(64) {
        let word = (bits_at(octets, at, 64) >> 64) as u64;
        register = of_eight(&TABLES24B, register, &word.to_be_bytes());
    }
    register >> 8
}

fn bits_folded(tables: &Tables, generator: u32, bits: &[u8]) -> u32 {
    let words = bits.chunks_exact(64);
    let rest = words.remainder();
    let register = words.fold(0, |register, word| {
        let mut eight = [0; 8];
        pack(word, &mut eight);
        of_eight(tables, register, &eight)
    });
    bits_from(register, generator, rest)
}
