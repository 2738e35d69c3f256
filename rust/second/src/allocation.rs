//! The radio bits that a transport block is given, and each code block's share (document 01, step 5,
//! as document 02, CR 1 has it).

use crate::numbers::{Number, FEW_PLACES, PARAMETER};

const MOST_BITS: u64 = 65_536;

/// Bits and symbol places are counted apart.
#[derive(Debug, PartialEq, Eq)]
pub struct Allocation {
    /// G, in bits.
    pub g: usize,
    /// N_L·Q_m, the bits of one symbol place over all layers.
    bits_of_a_place: usize,
    /// G', in symbol places per layer.
    places: usize,
}

impl Allocation {
    /// "N_L is 1 to 4 and Q_m is 2, 4 or 6. G is a multiple of N_L·Q_m, from 0 to 65,536", or 8.
    pub fn new(layers: u64, order: u64, g: u64) -> Result<Allocation, Number> {
        if !(1..=4).contains(&layers) || ![2, 4, 6].contains(&order) || g > MOST_BITS {
            return Err(PARAMETER);
        }
        let bits_of_a_place = small(layers * order);
        let g = small(g);
        if g % bits_of_a_place != 0 {
            return Err(PARAMETER);
        }
        Ok(Allocation {
            g,
            bits_of_a_place,
            places: g / bits_of_a_place,
        })
    }

    /// E_r, the bits of each code block, or 10 for "G' below C". "With γ = G' mod C, blocks r < γ
    /// have E_r = N_L·Q_m·ceil(G'/C) and the rest have floor": no division is needed where the symbol
    /// places are dealt out one at a time, to each block in turn and to the first after the last.
    pub fn shares(&self, blocks: usize) -> Result<Vec<usize>, Number> {
        if self.places < blocks {
            return Err(FEW_PLACES);
        }
        let mut shares = vec![0; blocks];
        for r in (0..blocks).cycle().take(self.places) {
            shares[r] += self.bits_of_a_place;
        }
        Ok(shares)
    }
}

fn small(number: u64) -> usize {
    usize::try_from(number).expect("it is at most 65,536")
}

#[cfg(test)]
mod tests {
    use super::Allocation;
    use crate::numbers::{FEW_PLACES, PARAMETER};

    fn is_accepted(layers: u64, order: u64, g: u64) -> bool {
        match Allocation::new(layers, order, g) {
            Ok(_) => true,
            Err(number) => {
                assert_eq!(number, PARAMETER);
                false
            }
        }
    }

    fn shares(layers: u64, order: u64, g: u64, blocks: usize) -> Result<Vec<usize>, u8> {
        Allocation::new(layers, order, g)?.shares(blocks)
    }

    /// So many shares of one length, and then so many of another.
    fn first_and_rest(first: (usize, usize), rest: (usize, usize)) -> Vec<usize> {
        [vec![first.1; first.0], vec![rest.1; rest.0]].concat()
    }

    /// Numbers that are any other number in fewer binary places.
    const WRAPPED: [u64; 5] = [1 << 8, 1 << 16, 1 << 32, 1 << 63, u64::MAX - 255];

    #[test]
    fn one_to_four_layers() {
        for layers in 0..100 {
            assert_eq!(is_accepted(layers, 2, 48), (1..=4).contains(&layers));
        }
        for top in WRAPPED {
            assert!(!is_accepted(top + 1, 2, 48));
        }
        assert!(!is_accepted(u64::MAX, 2, 48));
    }

    #[test]
    fn orders_2_4_and_6() {
        for order in 0..100 {
            assert_eq!(is_accepted(1, order, 48), [2, 4, 6].contains(&order));
        }
        for top in WRAPPED {
            assert!(!is_accepted(1, top + 2, 48));
        }
        assert!(!is_accepted(u64::MAX, u64::MAX, u64::MAX));
    }

    #[test]
    fn g_is_a_multiple_of_the_bits_of_a_place() {
        for layers in 1..=4 {
            for order in [2, 4, 6] {
                for g in 0..200 {
                    assert_eq!(is_accepted(layers, order, g), g % (layers * order) == 0);
                }
            }
        }
    }

    #[test]
    fn g_is_at_most_65_536() {
        assert!(is_accepted(1, 2, 65_536));
        assert!(!is_accepted(1, 2, 65_537));
        assert!(!is_accepted(1, 2, 65_538));
        // 65,520 is the highest multiple of 24 that is allowed.
        assert!(is_accepted(4, 6, 65_520));
        assert!(!is_accepted(4, 6, 65_544));
        for top in &WRAPPED[1..] {
            assert!(!is_accepted(1, 2, top + 128));
        }
        assert!(!is_accepted(1, 2, u64::MAX - 1));
    }

    #[test]
    fn equal_shares() {
        // Document 01, P10: G 128 gives E 8 to 16 blocks.
        assert_eq!(shares(1, 2, 128, 16), Ok(vec![8; 16]));
        assert_eq!(shares(4, 6, 216, 3), Ok(vec![72; 3]));
        assert_eq!(shares(1, 2, 65_536, 1), Ok(vec![65_536]));
        assert_eq!(shares(1, 6, 66, 1), Ok(vec![66]));
    }

    #[test]
    fn the_first_blocks_have_the_spare_symbol_places() {
        // Document 02, CR 1: "The toy case with G 130 now gives ten bits to the first block".
        let toy = |g| shares(1, 2, g, 16).unwrap();
        assert_eq!(toy(130), first_and_rest((1, 10), (15, 8)));
        // 134 bits are 67 symbol places, 4 · 16 and 3; 126 are 63, 3 · 16 and 15.
        assert_eq!(toy(134), first_and_rest((3, 10), (13, 8)));
        assert_eq!(toy(126), first_and_rest((15, 8), (1, 6)));
        // 44 symbol places for six blocks, 7 · 6 and 2; one fewer; 48 are 8 · 6.
        assert_eq!(shares(1, 2, 88, 6), Ok(vec![16, 16, 14, 14, 14, 14]));
        assert_eq!(shares(1, 2, 86, 6), Ok(vec![16, 14, 14, 14, 14, 14]));
        assert_eq!(shares(1, 2, 96, 6), Ok(vec![16; 6]));
        // 16,384 symbol places for 17 blocks, 963 · 17 and 13.
        let longest = first_and_rest((13, 3856), (4, 3852));
        assert_eq!(shares(2, 2, 65_536, 17), Ok(longest));
    }

    #[test]
    fn the_spare_ones_are_symbol_places_and_not_bits() {
        // 80 bits are 10 symbol places of 8 bits, 2 · 4 and 2; 80 is 20 · 4 and leaves nothing.
        assert_eq!(shares(2, 4, 80, 4), Ok(vec![24, 24, 16, 16]));
        // 240 bits are 10 symbol places of 24 bits, 3 · 3 and 1.
        assert_eq!(shares(4, 6, 240, 3), Ok(vec![96, 72, 72]));
        // 40 bits are 20 symbol places of 2 bits, 6 · 3 and 2; 40 is 13 · 3 and leaves 1.
        assert_eq!(shares(1, 2, 40, 3), Ok(vec![14, 14, 12]));
    }

    /// By how much each share is below the one before it, where it is.
    fn falls(shares: &[usize]) -> Vec<usize> {
        let pairs = shares.windows(2).filter(|pair| pair[0] != pair[1]);
        pairs.map(|pair| pair[0] - pair[1]).collect()
    }

    #[test]
    fn shares_add_up_to_g_and_fall_once_by_one_symbol_place() {
        // No other shares are like this: the place of the fall decides the sum.
        for (layers, order, place) in [(1, 2, 2), (1, 6, 6), (2, 4, 8), (3, 2, 6), (4, 6, 24)] {
            for places in 1..=200 {
                let g = place * places;
                for blocks in 1..=places.min(64) {
                    let shares = shares(layers, order, g as u64, blocks).unwrap();
                    assert_eq!(shares.len(), blocks);
                    assert_eq!(shares.iter().sum::<usize>(), g);
                    assert!(shares.iter().all(|share| share % place == 0));
                    let falls = falls(&shares);
                    assert!(falls.is_empty() || falls == [place], "{shares:?}");
                }
            }
        }
    }

    #[test]
    fn every_block_needs_a_symbol_place() {
        // Document 01: "G 30: both answer 10."
        assert_eq!(shares(1, 2, 30, 16), Err(FEW_PLACES));
        assert_eq!(shares(1, 2, 32, 16), Ok(vec![2; 16]));
        assert_eq!(shares(1, 2, 34, 16), Ok(first_and_rest((1, 4), (15, 2))));
        assert_eq!(shares(1, 2, 0, 1), Err(FEW_PLACES));
        assert_eq!(shares(4, 6, 24 * 63, 64), Err(FEW_PLACES));
        assert_eq!(shares(4, 6, 24 * 64, 64), Ok(vec![24; 64]));
    }
}
