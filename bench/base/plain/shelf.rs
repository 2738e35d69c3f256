//! Looking a record up: both shelves have to be well formed, then the first entry of the two numbers is taken.

use crate::record::number;

fn well_formed(private: bool, shelf: &[u8]) -> bool {
    if shelf.len() < 2 || shelf.len() > 65535 {
        return false;
    }
    let entries = number(shelf, 0);
    let mut due = 2 + 8 * entries;
    if entries > 64 || shelf.len() < due {
        return false;
    }
    let mut last = None;
    for entry in shelf[2..due].chunks_exact(8) {
        let key = (number(entry, 0), number(entry, 2));
        if (key.0 == 0) == private || last.is_some_and(|last| last >= key) || number(entry, 4) != due {
            return false;
        }
        last = Some(key);
        due += number(entry, 6);
    }
    shelf.len() == due
}

fn found(shelf: &[u8], tenant: usize, profile: usize) -> Option<&[u8]> {
    let entries = number(shelf, 0);
    let asked = |entry: &&[u8]| number(entry, 0) == tenant && number(entry, 2) == profile;
    shelf[2..2 + 8 * entries].chunks_exact(8).find(asked).map(|entry| {
        let start = number(entry, 4);
        &shelf[start..start + number(entry, 6)]
    })
}

pub fn lookup<'a>(private: &'a [u8], public: &'a [u8], tenant: u16, profile: u16) -> Result<&'a [u8], u32> {
    if tenant == 0 {
        return Err(1);
    }
    if !well_formed(true, private) {
        return Err(2);
    }
    if !well_formed(false, public) {
        return Err(3);
    }
    let own = found(private, tenant as usize, profile as usize);
    own.or_else(|| found(public, 0, profile as usize)).ok_or(4)
}
