//! Octets as numbers and as bits, the highest first (document 01, "Bits, octets, symbols").

/// "All numbers here are two octets, high octet first": the number that begins at a place, or none
/// where the octets end before.
pub fn number_at(octets: &[u8], place: usize) -> Option<u16> {
    match octets.get(place..)? {
        [high, low, ..] => Some(256 * u16::from(*high) + u16::from(*low)),
        _ => None,
    }
}

/// "Transport blocks are packed octets, highest bit first": their single bits.
pub fn unpacked(octets: &[u8]) -> Vec<u8> {
    octets
        .iter()
        .flat_map(|octet| VALUES.map(|value| octet / value % 2))
        .collect()
}

/// Single bits packed into octets, the last one filled up with zeros.
pub fn packed(bits: &[u8]) -> Vec<u8> {
    let octet = |bits: &[u8]| {
        bits.iter()
            .zip(VALUES)
            .map(|(bit, value)| bit * value)
            .sum()
    };
    bits.chunks(8).map(octet).collect()
}

/// What a one counts in each place of an octet.
const VALUES: [u8; 8] = [128, 64, 32, 16, 8, 4, 2, 1];

#[cfg(test)]
mod tests {
    use super::{number_at, packed, unpacked};

    #[test]
    fn the_high_octet_stands_first() {
        assert_eq!(number_at(&[0x12, 0x34, 0x56], 0), Some(0x1234));
        assert_eq!(number_at(&[0x12, 0x34, 0x56], 1), Some(0x3456));
        assert_eq!(number_at(&[0xff, 0xff], 0), Some(65_535));
        assert_eq!(number_at(&[0, 0], 0), Some(0));
    }

    #[test]
    fn a_number_needs_both_its_octets() {
        assert_eq!(number_at(&[0x12, 0x34], 1), None);
        assert_eq!(number_at(&[0x12, 0x34], 2), None);
        assert_eq!(number_at(&[0x12, 0x34], 3), None);
        assert_eq!(number_at(&[], 0), None);
    }

    #[test]
    fn the_highest_bit_stands_first() {
        assert_eq!(unpacked(&[0x01]), [0, 0, 0, 0, 0, 0, 0, 1]);
        assert_eq!(unpacked(&[0x80]), [1, 0, 0, 0, 0, 0, 0, 0]);
        assert_eq!(unpacked(&[0x5c]), [0, 1, 0, 1, 1, 1, 0, 0]);
        assert_eq!(packed(&[0, 1, 0, 1, 1, 1, 0, 0]), [0x5c]);
    }

    #[test]
    fn packing_undoes_unpacking() {
        let octets: Vec<u8> = (0..=255).collect();
        assert_eq!(unpacked(&octets).len(), 2048);
        assert_eq!(packed(&unpacked(&octets)), octets);
        assert!(unpacked(&[]).is_empty());
        assert!(packed(&[]).is_empty());
    }

    #[test]
    fn the_last_octet_is_filled_up_with_zeros() {
        assert_eq!(packed(&[1]), [0x80]);
        assert_eq!(packed(&[1, 1, 1]), [0xe0]);
        assert_eq!(packed(&[1, 1, 1, 1, 1, 1, 1, 1, 1]), [0xff, 0x80]);
    }
}
