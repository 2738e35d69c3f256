//! Checksums from a table of 256 entries, of octets and of single bits.

use super::octets::{pack, some_over};

/// The register after each first octet. It stands in the highest places of 32, so that one shape serves every width.
pub const fn table(generator: u32) -> [u32; 256] {
    let mut table = [0; 256];
    let mut octet = 0;
    while octet < 256 {
        table[octet] = stepped((octet as u32) << 24, generator);
        octet += 1;
    }
    table
}

const fn stepped(mut register: u32, generator: u32) -> u32 {
    let mut k = 0;
    while k < 8 {
        register = step(register, generator);
        k += 1;
    }
    register
}

pub const fn step(register: u32, generator: u32) -> u32 {
    if register >> 31 == 1 {
        (register << 1) ^ generator
    } else {
        register << 1
    }
}

/// The generators in the highest places.
pub const G24: u32 = 0x864C_FB00;
pub const G16: u32 = 0x1021_0000;
pub const G8: u32 = 0x9B00_0000;
pub const G24B: u32 = 0x8000_6300;

static TABLE24: [u32; 256] = table(G24);
static TABLE16: [u32; 256] = table(G16);
static TABLE8: [u32; 256] = table(G8);
static TABLE24B: [u32; 256] = table(G24B);

fn folded(table: &[u32; 256], octets: &[u8]) -> u32 {
    let next = |register: u32, &octet: &u8| (register << 8) ^ table[(register >> 24) as usize ^ octet as usize];
    octets.iter().fold(0, next)
}

pub fn by_octets(width: usize, octets: &[u8]) -> u32 {
    match width {
        24 => folded(&TABLE24, octets) >> 8,
        16 => folded(&TABLE16, octets) >> 16,
        8 => folded(&TABLE8, octets) >> 24,
        _ => 0,
    }
}

/// Of single bits: eight of them are packed, and the rest goes bit by bit. 0 where one is over 1.
pub fn of_bits(width: usize, bits: &[u8]) -> u32 {
    match width {
        _ if some_over(1, bits) => 0,
        24 => bits_folded(&TABLE24, G24, bits) >> 8,
        16 => bits_folded(&TABLE16, G16, bits) >> 16,
        8 => bits_folded(&TABLE8, G8, bits) >> 24,
        _ => 0,
    }
}

/// The checksum of a code block, of bits that are none over 1. They stand one to an octet, and packing eight of them for
/// a table takes less than a third of the time of going bit by bit; at most seven are left over.
pub fn of_block(bits: &[u8]) -> u32 {
    bits_folded(&TABLE24B, G24B, bits) >> 8
}

/// The same of any octets. 0 where one is over 1.
pub fn of_block_bits(bits: &[u8]) -> u32 {
    if some_over(1, bits) {
        0
    } else {
        of_block(bits)
    }
}

fn bits_folded(table: &[u32; 256], generator: u32, bits: &[u8]) -> u32 {
    let eights = bits.chunks_exact(8);
    let rest = eights.remainder();
    let register = eights.fold(0u32, |register, eight| {
        let mut octet = [0];
        pack(eight, &mut octet);
        (register << 8) ^ table[(register >> 24) as usize ^ octet[0] as usize]
    });
    bits_from(register, generator, rest)
}

/// Goes on with the register, bit by bit.
pub fn bits_from(register: u32, generator: u32, bits: &[u8]) -> u32 {
    bits.iter().fold(register, |register, &bit| step(register ^ ((bit as u32) << 31), generator))
}
