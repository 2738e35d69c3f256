//! Redundancy versions (document 02, CR 3; 5G.212 section 5.1.4.1).

use crate::numbers::{Number, RECORD, VERSION};
use crate::record::Coding;

const HIGHEST: u64 = 3;

/// A redundancy version that goes with its type: where rate matching starts.
#[derive(Clone, Copy, Debug, PartialEq, Eq)]
pub struct Version {
    coding: Coding,
    rv: usize,
}

impl Version {
    /// The version of an rv with a type, or 16 "for an rv over 3 or against the type".
    pub fn new(coding: Coding, rv: u64) -> Result<Version, Number> {
        match usize::try_from(rv) {
            // "Type 1 requires rv 0".
            Ok(rv) if rv == 0 => Ok(Version { coding, rv }),
            Ok(place) if rv <= HIGHEST && coding == Coding::Two => {
                Ok(Version { coding, rv: place })
            }
            _ => Err(VERSION),
        }
    }

    /// The same where the type is a number too, or first 5 "for a type other than 1 or 2".
    pub fn asked(coding: u64, rv: u64) -> Result<Version, Number> {
        let coding = match coding {
            1 => Coding::One,
            2 => Coding::Two,
            _ => return Err(RECORD),
        };
        Version::new(coding, rv)
    }

    /// "For Coding Type 1, set k_0 = 0. For Coding Type 2, set k_0 = floor(D/4) rv_idx": the place, filler
    /// counted, at which the D coded places are begun.
    pub fn start(self, d: usize) -> usize {
        match self.coding {
            Coding::One => 0,
            Coding::Two => d / 4 * self.rv,
        }
    }
}

#[cfg(test)]
mod tests {
    use super::Version;
    use crate::numbers::{RECORD, VERSION};
    use crate::record::Coding;

    /// Where it starts in D places, or the number that refuses.
    fn start(coding: u64, rv: u64, d: usize) -> Result<usize, u8> {
        Version::asked(coding, rv).map(|version| version.start(d))
    }

    #[test]
    fn type_2_starts_at_quarters() {
        for (d, starts) in [(15, [0, 3, 6, 9]), (16, [0, 4, 8, 12])] {
            assert_eq!([0, 1, 2, 3].map(|rv| start(2, rv, d)), starts.map(Ok));
        }
        // Below four places a quarter is none.
        for d in 0..4 {
            for rv in 0..4 {
                assert_eq!(start(2, rv, d), Ok(0));
            }
        }
        assert_eq!(start(2, 3, 4860), Ok(3645));
    }

    #[test]
    fn type_1_starts_at_the_first_place() {
        for d in [0, 1, 8, 15, 2592] {
            assert_eq!(start(1, 0, d), Ok(0));
        }
    }

    #[test]
    fn an_rv_is_0_to_3_and_0_with_type_1() {
        for rv in [
            4,
            5,
            255,
            256,
            257,
            1 << 16,
            1 << 32,
            (1 << 32) + 1,
            1 << 63,
            u64::MAX,
        ] {
            for coding in [1, 2] {
                assert_eq!(start(coding, rv, 8), Err(VERSION), "{coding} {rv}");
            }
        }
        for rv in 1..4 {
            assert_eq!(start(1, rv, 8), Err(VERSION));
            assert_eq!(Version::new(Coding::One, rv), Err(VERSION));
            assert!(Version::new(Coding::Two, rv).is_ok());
        }
    }

    #[test]
    fn the_type_goes_before_the_rv() {
        for coding in [0, 3, 4, 257, 258, (1 << 32) + 1, u64::MAX] {
            for rv in [0, 1, 4, u64::MAX] {
                assert_eq!(start(coding, rv, 8), Err(RECORD), "{coding} {rv}");
            }
        }
    }
}
