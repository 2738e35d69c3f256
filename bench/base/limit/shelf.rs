//! Looking a record up in one walk over each shelf, an entry in one u64.

use crate::record::number;

/// Start and length of the entry of this key, 0 and 0 where there is none; nothing of a shelf that is not well formed.
fn walked(shelf: &[u8], keys: core::ops::RangeInclusive<u64>, key: u64) -> Option<(usize, usize)> {
    if shelf.len() < 2 || shelf.len() > 65535 {
        return None;
    }
    let entries = number(shelf, 0);
    if entries > 64 || shelf.len() < 2 + 8 * entries {
        return None;
    }
    let (mut next, most) = keys.into_inner();
    let mut due = 2 + 8 * entries as u64;
    let (mut wrong, mut found) = (false, 0);
    for entry in shelf[2..2 + 8 * entries].chunks_exact(8) {
        let entry = u64::from_be_bytes(entry.try_into().unwrap());
        let own = entry >> 32;
        wrong |= (own < next) | (own > most) | ((entry >> 16) & 65535 != due);
        next = own + 1;
        due += entry & 65535;
        if own == key {
            found = entry;
        }
    }
    let well_formed = !wrong && shelf.len() as u64 == due;
    well_formed.then_some(((found >> 16) as usize & 65535, found as usize & 65535))
}

pub fn lookup<'a>(private: &'a [u8], public: &'a [u8], tenant: u16, profile: u16) -> Result<&'a [u8], u32> {
    if tenant == 0 {
        return Err(1);
    }
    let own = (tenant as u64) << 16 | profile as u64;
    let (start, length) = walked(private, 1 << 16..=u32::MAX as u64, own).ok_or(2u32)?;
    let (public_start, public_length) = walked(public, 0..=65535, profile as u64).ok_or(3u32)?;
    if start != 0 {
        return Ok(&private[start..start + length]);
    }
    if public_start != 0 {
        return Ok(&public[public_start..public_start + public_length]);
    }
    Err(4)
}
