//! Shelves in their parts, for making good ones and ones with a chosen fault.

/// What a shelf says, part by part; nothing is judged.
#[derive(Clone, Debug)]
pub struct ShelfDraft {
    pub count: u16,
    /// Tenant, profile number, offset and length of each entry.
    pub entries: Vec<[u16; 4]>,
    /// The octets of all records.
    pub records: Vec<u8>,
}

impl ShelfDraft {
    /// A shelf of these records, each with its tenant and its profile number, and with the offsets
    /// that are due, as far as two octets can say them.
    pub fn new(records: &[(u16, u16, &[u8])]) -> ShelfDraft {
        let mut offset = 2 + 8 * records.len();
        let mut entries = Vec::new();
        for (tenant, profile, record) in records {
            entries.push([*tenant, *profile, low(offset), low(record.len())]);
            offset += record.len();
        }
        ShelfDraft {
            count: low(records.len()),
            entries,
            records: records
                .iter()
                .flat_map(|record| record.2)
                .copied()
                .collect(),
        }
    }

    pub fn octets(&self) -> Vec<u8> {
        let numbers = [self.count]
            .into_iter()
            .chain(self.entries.iter().copied().flatten());
        let mut octets: Vec<u8> = numbers.flat_map(u16::to_be_bytes).collect();
        octets.extend_from_slice(&self.records);
        octets
    }
}

/// The number in two octets, or the highest there is.
fn low(number: usize) -> u16 {
    u16::try_from(number).unwrap_or(u16::MAX)
}
