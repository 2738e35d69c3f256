//! Editions (document 02, CR 8): whether the code blocks carry a checksum each.

use crate::numbers::{Number, EDITION};

/// The bits of a 24B checksum.
const SUM_BITS: usize = 24;

/// "Calls now carry an edition."
#[derive(Clone, Copy, Debug, PartialEq, Eq)]
pub enum Edition {
    One,
    Two,
}

impl Edition {
    /// The edition of a number, or 19 "for an edition other than 1 or 2".
    pub fn new(ed: u64) -> Result<Edition, Number> {
        match ed {
            1 => Ok(Edition::One),
            2 => Ok(Edition::Two),
            _ => Err(EDITION),
        }
    }

    /// L, the bits of the checksum in each code block of a transport block of B bits: "In edition 2 one block
    /// is enough if B ≤ Kmax", and as in edition 1 it has none.
    pub fn sum_bits(self, b: usize, kmax: usize) -> usize {
        match self {
            Edition::Two if b > kmax => SUM_BITS,
            _ => 0,
        }
    }
}

#[cfg(test)]
mod tests {
    use super::Edition;
    use crate::numbers::EDITION;

    #[test]
    fn an_edition_is_1_or_2() {
        assert_eq!(Edition::new(1), Ok(Edition::One));
        assert_eq!(Edition::new(2), Ok(Edition::Two));
        for ed in [
            0,
            3,
            4,
            19,
            257,
            258,
            1 << 16 | 1,
            1 << 32 | 1,
            1 << 32 | 2,
            1 << 63 | 2,
            u64::MAX - 1,
            u64::MAX,
        ] {
            assert_eq!(Edition::new(ed), Err(EDITION), "{ed}");
        }
    }

    #[test]
    fn blocks_carry_sums_in_edition_2_where_one_is_not_enough() {
        for (b, kmax) in [(32, 972), (32, 33), (32, 32)] {
            assert_eq!(Edition::Two.sum_bits(b, kmax), 0);
        }
        for (b, kmax) in [(32, 31), (976, 972), (32, 25), (32, 24), (32, 1)] {
            assert_eq!(Edition::Two.sum_bits(b, kmax), 24);
            assert_eq!(Edition::One.sum_bits(b, kmax), 0);
        }
    }
}
