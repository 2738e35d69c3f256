//! Plans how a transport block is cut into code blocks (document 01, steps 1 to 3; document 02, CR 8).

use crate::edition::Edition;
use crate::numbers::{Number, BLOCK_LENGTH, MANY_BLOCKS};
use crate::record::{profile, Profile};

/// The checksum bits of step 1.
const CHECKSUM_BITS: usize = 24;

const MOST_OCTETS: usize = 2048;
const MOST_BLOCKS: usize = 64;

/// B, C, K and z, under the names of document 01, and L, under that of source document 000, section 5.1.2:
/// the checksum bits in each code block.
#[derive(Debug, PartialEq, Eq)]
pub struct Plan {
    pub b: usize,
    pub c: usize,
    pub k: usize,
    pub z: usize,
    pub l: usize,
}

impl Plan {
    /// "The first B mod C blocks carry ceil(B/C) bits in order, the others floor(B/C)."
    pub fn own_bits(&self, r: usize) -> usize {
        if r < self.b % self.c {
            self.b.div_ceil(self.c)
        } else {
            self.b / self.c
        }
    }

    /// "each block's own bits are followed by their 24B checksum and then filler": the bits in front of the
    /// filler.
    pub fn carried_bits(&self, r: usize) -> usize {
        self.own_bits(r) + self.l
    }

    /// The filler places of a block.
    pub fn filler(&self, r: usize) -> usize {
        self.k - self.carried_bits(r)
    }
}

/// The plan for a record and a count of octets in an edition, or the first of 5, 6, 19, 7 and 9 that applies:
/// 19 stands "before 7".
pub fn plan(record: &[u8], octets: u64, ed: u64) -> Result<Plan, Number> {
    let profile = profile(record)?;
    let edition = Edition::new(ed)?;
    // Where there are too many octets to be counted in bits there are too many anyway.
    let octets = block_octets(octets.saturating_mul(8))?;
    cut(&profile, octets, edition)
}

/// The octets of a block of A bits, where A is "8 times a number from 1 to 2,048", or 7.
pub fn block_octets(a: u64) -> Result<usize, Number> {
    match usize::try_from(a / 8) {
        Ok(octets) if a % 8 == 0 && (1..=MOST_OCTETS).contains(&octets) => Ok(octets),
        _ => Err(BLOCK_LENGTH),
    }
}

/// Steps 1 to 3 for a length that a transport block may have, or 9.
pub fn cut(profile: &Profile, octets: usize, edition: Edition) -> Result<Plan, Number> {
    // "A is 8 times the octets"; "B = A + 24".
    let b = 8 * octets + CHECKSUM_BITS;
    // "Kmax is kb times the largest z."
    let kmax = profile.kb * sizes(profile).max().unwrap_or(0);
    let l = edition.sum_bits(b, kmax);
    let c = blocks(b, kmax, l)?;
    // "K is the smallest that holds ceil(B/C) + 24", or in edition 1 ceil(B/C).
    let z = smallest_size(profile, b.div_ceil(c) + l);
    Ok(Plan {
        b,
        c,
        k: profile.kb * z,
        z,
        l,
    })
}

fn sizes(profile: &Profile) -> impl Iterator<Item = usize> + '_ {
    profile.tables.iter().map(|table| table.z)
}

/// "C = ceil(B/Kmax), at most 64", or where the blocks carry checksums "C = ceil(B/(Kmax-24))"; or 9, "also in
/// edition 2 where B > Kmax and Kmax ≤ 24".
fn blocks(b: usize, kmax: usize, l: usize) -> Result<usize, Number> {
    if kmax <= l || b.div_ceil(kmax - l) > MOST_BLOCKS {
        return Err(MANY_BLOCKS);
    }
    Ok(b.div_ceil(kmax - l))
}

/// "the smallest z with kb·z ≥" so many bits.
fn smallest_size(profile: &Profile, bits: usize) -> usize {
    let roomy = sizes(profile).filter(|z| profile.kb * z >= bits);
    roomy.min().expect("the largest z has room for each block")
}

#[cfg(test)]
mod tests {
    use super::{block_octets, Plan};
    use crate::numbers::{Number, BLOCK_LENGTH, EDITION, MANY_BLOCKS, RECORD, STAIRCASE};
    use crate::samples::{half, no_staircase, not_well_formed, plain, twenty, TOY};

    /// The plan in edition 1, whose blocks carry no checksums.
    fn plan(record: &[u8], octets: u64) -> Result<Plan, Number> {
        let plan = super::plan(record, octets, 1)?;
        assert_eq!(plan.l, 0);
        Ok(plan)
    }

    /// B, C, K and z in this order.
    fn numbers(record: &[u8], octets: u64) -> Result<[usize; 4], Number> {
        plan(record, octets).map(|Plan { b, c, k, z, .. }| [b, c, k, z])
    }

    /// The same and L, in edition 2.
    fn second(record: &[u8], octets: u64) -> Result<[usize; 5], Number> {
        let plan = super::plan(record, octets, 2);
        plan.map(|Plan { b, c, k, z, l }| [b, c, k, z, l])
    }

    #[test]
    fn the_toy() {
        // Document 01: "octet 01 ...: B 32, C 16"; "13 octets: B 128, C 64"; "14 octets: C 68,
        // answer 9".
        assert_eq!(numbers(&TOY, 1), Ok([32, 16, 2, 2]));
        assert_eq!(numbers(&TOY, 13), Ok([128, 64, 2, 2]));
        assert_eq!(numbers(&TOY, 14), Err(MANY_BLOCKS));
    }

    /// Each block's own bits and filler.
    fn blocks(record: &[u8], octets: u64) -> Vec<(usize, usize)> {
        blocks_of(&plan(record, octets).unwrap())
    }

    fn blocks_of(plan: &Plan) -> Vec<(usize, usize)> {
        (0..plan.c)
            .map(|r| (plan.own_bits(r), plan.filler(r)))
            .collect()
    }

    #[test]
    fn own_bits_and_filler() {
        // Document 01: "37 octets give B 320, K 324, filler 4. 118 give B 968, K 972, filler 4. 119
        // give B 976, C 2, 488 bits each, K 648, filler 160. 2,048 give ... three blocks of 966
        // bits, fourteen of 965".
        let record = half().octets();
        assert_eq!(blocks(&record, 37), [(320, 4)]);
        assert_eq!(blocks(&record, 118), [(968, 4)]);
        assert_eq!(blocks(&record, 119), [(488, 160); 2]);
        let longest = [vec![(966, 6); 3], vec![(965, 7); 14]].concat();
        assert_eq!(blocks(&record, 2048), longest);
        // "ten blocks of 3 bits, the last 2 bits and one filler."
        let record = plain(1, 3, &[3]).octets();
        assert_eq!(
            blocks(&record, 1),
            [vec![(3, 0); 10], vec![(2, 1)]].concat()
        );
        assert_eq!(blocks(&TOY, 1), [(2, 0); 16]);
    }

    #[test]
    fn the_blocks_carry_all_the_bits() {
        for octets in 1..=2048 {
            let record = half().octets();
            let plan = plan(&record, octets).unwrap();
            let bits: usize = (0..plan.c).map(|r| plan.own_bits(r)).sum();
            assert_eq!(bits, plan.b);
            assert!((0..plan.c).all(|r| plan.own_bits(r) <= plan.k));
        }
    }

    #[test]
    fn a_is_8_times_the_octets() {
        assert_eq!(block_octets(8), Ok(1));
        assert_eq!(block_octets(16_384), Ok(2048));
        for a in [
            0,
            1,
            7,
            9,
            12,
            15,
            16_383,
            16_385,
            16_392,
            u64::MAX,
            u64::MAX - 7,
        ] {
            assert_eq!(block_octets(a), Err(BLOCK_LENGTH), "{a}");
        }
    }

    #[test]
    fn kb_12_with_z_27_54_and_81() {
        // Document 01, "Small profile and worked numbers".
        let record = half().octets();
        assert_eq!(numbers(&record, 37), Ok([320, 1, 324, 27]));
        assert_eq!(numbers(&record, 118), Ok([968, 1, 972, 81]));
        assert_eq!(numbers(&record, 119), Ok([976, 2, 648, 54]));
        assert_eq!(numbers(&record, 2048), Ok([16_408, 17, 972, 81]));
        // 38 octets are 328 bits, over 324; 78 are 648 bits, and 79 are over.
        assert_eq!(numbers(&record, 38), Ok([328, 1, 648, 54]));
        assert_eq!(numbers(&record, 78), Ok([648, 1, 648, 54]));
        assert_eq!(numbers(&record, 79), Ok([656, 1, 972, 81]));
    }

    #[test]
    fn kb_1_with_z_3() {
        // Document 01: "one octet: B 32, C 11".
        let record = plain(1, 3, &[3]).octets();
        assert_eq!(numbers(&record, 1), Ok([32, 11, 3, 3]));
    }

    #[test]
    fn the_smallest_z_that_has_room_is_taken() {
        // Blocks of 32, 40 and 48 bits.
        let record = plain(1, 3, &[32, 40, 47]).octets();
        assert_eq!(numbers(&record, 1), Ok([32, 1, 32, 32]));
        assert_eq!(numbers(&record, 2), Ok([40, 1, 40, 40]));
        assert_eq!(numbers(&record, 3), Ok([48, 2, 32, 32]));
        let record = plain(1, 3, &[31, 39, 48]).octets();
        assert_eq!(numbers(&record, 1), Ok([32, 1, 39, 39]));
        assert_eq!(numbers(&record, 2), Ok([40, 1, 48, 48]));
        assert_eq!(numbers(&record, 3), Ok([48, 1, 48, 48]));
    }

    #[test]
    fn at_most_64_blocks() {
        // Kmax 1: 5 octets are 64 bits. Kmax 3: 21 octets are 192 bits.
        let record = plain(1, 3, &[1]).octets();
        assert_eq!(numbers(&record, 5), Ok([64, 64, 1, 1]));
        assert_eq!(numbers(&record, 6), Err(MANY_BLOCKS));
        let record = plain(3, 3, &[1]).octets();
        assert_eq!(numbers(&record, 21), Ok([192, 64, 3, 1]));
        assert_eq!(numbers(&record, 22), Err(MANY_BLOCKS));
        // 2,048 octets are 16,408 bits: 64 blocks of 257, or 65 of 256 with 16 blocks over.
        let record = plain(13, 3, &[20]).octets();
        assert_eq!(numbers(&record, 2048), Ok([16_408, 64, 260, 20]));
        let record = plain(16, 3, &[16]).octets();
        assert_eq!(numbers(&record, 2045), Ok([16_384, 64, 256, 16]));
        assert_eq!(numbers(&record, 2046), Err(MANY_BLOCKS));
        assert_eq!(numbers(&record, 2048), Err(MANY_BLOCKS));
    }

    #[test]
    fn the_largest_profile_takes_the_longest_block() {
        let record = plain(20, 12, &[79, 80, 81]).octets();
        // Kmax 1620: 11 blocks of 1,491 or 1,492 bits; 79 · 20 is 1,580.
        assert_eq!(numbers(&record, 2048), Ok([16_408, 11, 1580, 79]));
    }

    #[test]
    fn a_block_has_1_to_2048_octets() {
        let record = half().octets();
        let wrapped = (1 << 61) + 1;
        for octets in [
            0,
            2049,
            2050,
            4096,
            65_537,
            1 << 32,
            1 << 61,
            wrapped,
            u64::MAX,
        ] {
            assert_eq!(numbers(&record, octets), Err(BLOCK_LENGTH), "{octets}");
        }
        assert!(plan(&record, 1).is_ok());
        assert!(plan(&record, 2048).is_ok());
    }

    #[test]
    fn the_lowest_number_is_answered() {
        assert_eq!(numbers(&not_well_formed(), 0), Err(RECORD));
        assert_eq!(numbers(&no_staircase(), 0), Err(STAIRCASE));
        // 2,049 octets would be too many blocks of the toy too.
        assert_eq!(numbers(&TOY, 2049), Err(BLOCK_LENGTH));
    }

    #[test]
    fn one_block_is_enough_for_kmax_in_either_edition() {
        // 118 octets are 968 bits of 972.
        let record = half().octets();
        for octets in 1..=118 {
            let [b, c, k, z] = numbers(&record, octets).unwrap();
            assert_eq!(second(&record, octets), Ok([b, c, k, z, 0]));
            assert_eq!(c, 1);
        }
        // B = Kmax, and with one octet more, or a Kmax of one less, it is not.
        let record = plain(1, 3, &[32]).octets();
        assert_eq!(second(&record, 1), Ok([32, 1, 32, 32, 0]));
        assert_eq!(second(&record, 2), Ok([40, 5, 32, 32, 24]));
        let record = plain(1, 3, &[31]).octets();
        assert_eq!(second(&record, 1), Ok([32, 5, 31, 31, 24]));
        let record = plain(3, 3, &[13]).octets();
        assert_eq!(second(&record, 1), Ok([32, 1, 39, 13, 0]));
        assert_eq!(second(&record, 2), Ok([40, 3, 39, 13, 24]));
    }

    #[test]
    fn own_bits_checksum_and_filler_in_edition_2() {
        // Worked out beforehand: "119: C 2, 488 + 24, K 648, filler 136. 2,048: C 18, ten of 912, eight of 911,
        // K 972, filler 36 and 37."
        let record = half().octets();
        assert_eq!(second(&record, 119), Ok([976, 2, 648, 54, 24]));
        let plan = |octets| super::plan(&record, octets, 2).unwrap();
        assert_eq!(blocks_of(&plan(119)), [(488, 136); 2]);
        assert_eq!(second(&record, 2048), Ok([16_408, 18, 972, 81, 24]));
        let longest = [vec![(912, 36); 10], vec![(911, 37); 8]].concat();
        assert_eq!(blocks_of(&plan(2048)), longest);
    }

    #[test]
    fn the_smallest_z_has_room_for_the_checksum_too() {
        // 48 bits, Kmax 40: three blocks of 16 and 24; of two blocks each would have 24 and no room.
        assert_eq!(numbers(&twenty().octets(), 3), Ok([48, 2, 40, 2]));
        assert_eq!(second(&twenty().octets(), 3), Ok([48, 3, 40, 2, 24]));
        // 64 bits, Kmax 60: two blocks of 32, which would have room in 32 and are given 56.
        let record = plain(1, 3, &[32, 56, 60]).octets();
        assert_eq!(second(&record, 5), Ok([64, 2, 56, 56, 24]));
        let record = plain(1, 3, &[32, 55, 60]).octets();
        assert_eq!(second(&record, 5), Ok([64, 2, 60, 60, 24]));
        assert_eq!(numbers(&record, 5), Ok([64, 2, 32, 32]));
    }

    #[test]
    fn kmax_is_over_24_in_edition_2() {
        // One octet: with Kmax 25 a block has one of the 32 bits; with 24 or less none.
        assert_eq!(
            second(&plain(1, 3, &[25]).octets(), 1),
            Ok([32, 32, 25, 25, 24])
        );
        for (kb, z) in [(1, 24), (2, 12), (12, 2), (1, 23), (1, 1)] {
            let record = plain(kb, 3, &[z]).octets();
            assert_eq!(second(&record, 1), Err(MANY_BLOCKS), "{kb} {z}");
            assert_eq!(second(&record, 2048), Err(MANY_BLOCKS), "{kb} {z}");
        }
        assert_eq!(second(&TOY, 1), Err(MANY_BLOCKS));
        // In edition 1 nothing has changed.
        assert_eq!(
            numbers(&plain(1, 3, &[24]).octets(), 1),
            Ok([32, 2, 24, 24])
        );
    }

    #[test]
    fn at_most_64_blocks_in_edition_2() {
        // Worked out beforehand: "125 octets: C 64; 126: 9."
        let record = twenty().octets();
        assert_eq!(second(&record, 125), Ok([1024, 64, 40, 2, 24]));
        assert_eq!(second(&record, 126), Err(MANY_BLOCKS));
        assert_eq!(numbers(&record, 126), Ok([1032, 26, 40, 2]));
        // Kmax 25: 5 octets are 64 bits, one to each block.
        let record = plain(5, 3, &[5]).octets();
        assert_eq!(second(&record, 5), Ok([64, 64, 25, 5, 24]));
        assert_eq!(second(&record, 6), Err(MANY_BLOCKS));
    }

    #[test]
    fn the_blocks_carry_all_the_bits_and_their_checksums() {
        for octets in 1..=2048 {
            let record = half().octets();
            let plan = super::plan(&record, octets, 2).unwrap();
            let bits: usize = (0..plan.c).map(|r| plan.own_bits(r)).sum();
            assert_eq!(bits, plan.b);
            let is_full = |r| plan.own_bits(r) + plan.l + plan.filler(r) == plan.k;
            assert!((0..plan.c).all(is_full));
            // "In edition 2 one block is enough if B ≤ Kmax; otherwise C = ceil(B/(Kmax-24))".
            let blocks = if plan.b <= 972 {
                1
            } else {
                plan.b.div_ceil(948)
            };
            assert_eq!(plan.c, blocks);
        }
    }

    #[test]
    fn the_edition_is_tested_before_7() {
        let record = half().octets();
        let number = |record: &[u8], octets, ed| super::plan(record, octets, ed).err();
        for ed in [0, 3, 258, 1 << 32 | 1, u64::MAX] {
            assert_eq!(number(&not_well_formed(), 0, ed), Some(RECORD));
            assert_eq!(number(&no_staircase(), 0, ed), Some(STAIRCASE));
            for octets in [0, 1, 14, 2048, 2049, u64::MAX] {
                assert_eq!(number(&record, octets, ed), Some(EDITION));
                assert_eq!(number(&TOY, octets, ed), Some(EDITION));
            }
        }
        for ed in [1, 2] {
            assert_eq!(number(&record, 0, ed), Some(BLOCK_LENGTH));
            // 7 goes before 9.
            assert_eq!(number(&TOY, 2049, ed), Some(BLOCK_LENGTH));
            assert_eq!(number(&TOY, 14, ed), Some(MANY_BLOCKS));
        }
    }
}
