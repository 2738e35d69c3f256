//! Puts a record on a private shelf, or takes one off it: the shelf is taken apart into its records, and a
//! new one is built of those that are left (docs/REQUESTS.md, `put` and `remove`).

use crate::draft::ShelfDraft;
use crate::numbers::{Number, NO_RECORD, NO_ROOM, OUTPUT, PRIVATE_SHELF, TENANT_0};
use crate::record::profile;
use crate::shelf::{records, Records, Side, MOST_ENTRIES, MOST_OCTETS};

/// The private shelf, and the pair on it that is spoken of.
#[derive(Debug, PartialEq, Eq)]
pub struct Place {
    pub private: Vec<u8>,
    pub tenant: u16,
    pub profile: u16,
}

impl Place {
    /// The records of the shelf, or 1, or 2.
    fn records(&self) -> Result<Records, Number> {
        if self.tenant == 0 {
            return Err(TENANT_0);
        }
        records(&self.private, Side::Private).ok_or(PRIVATE_SHELF)
    }

    fn pair(&self) -> (u16, u16) {
        (self.tenant, self.profile)
    }
}

/// Writes the shelf with the record in this place, where there may have been another: the count of octets
/// written, or 1, 2, 5, 6, 26 or 11.
pub fn put(place: &Place, record: &[u8], output: &mut [u8]) -> Result<usize, Number> {
    let mut records = place.records()?;
    profile(record)?;
    records.insert(place.pair(), record.to_vec());
    write(&records, output)
}

/// Writes the shelf without the record in this place: the count of octets written, or 1, 2, 4 or 11.
pub fn remove(place: &Place, output: &mut [u8]) -> Result<usize, Number> {
    let mut records = place.records()?;
    records.remove(&place.pair()).ok_or(NO_RECORD)?;
    write(&records, output)
}

/// Writes the shelf of these records.
fn write(records: &Records, output: &mut [u8]) -> Result<usize, Number> {
    let entries: Vec<(u16, u16, &[u8])> = records
        .iter()
        .map(|(&(tenant, profile), record)| (tenant, profile, &record[..]))
        .collect();
    let shelf = ShelfDraft::new(&entries).octets();
    if entries.len() > MOST_ENTRIES || shelf.len() > MOST_OCTETS {
        return Err(NO_ROOM);
    }
    let lent = output.get_mut(..shelf.len()).ok_or(OUTPUT)?;
    lent.copy_from_slice(&shelf);
    Ok(shelf.len())
}

#[cfg(test)]
mod tests;
