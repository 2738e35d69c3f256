//! Rate matching: a coded block's places in order from where its version starts, round and round
//! (document 01, step 6; document 02, CR 3; 5G.212 section 5.1.4.1).

use crate::numbers::{Number, NO_BIT, OUTPUT, PARAMETER};
use crate::parity::FILLER;
use crate::version::Version;

const MOST_BITS: usize = 65_536;

/// Matches one coded block alone, of a type and in a version: the count of bits written, or 5, 16,
/// 8, 11, 12.
pub fn rate(
    e: u64,
    places: &[u8],
    coding: u64,
    rv: u64,
    output: &mut [u8],
) -> Result<usize, Number> {
    let version = Version::asked(coding, rv)?;
    let count = usize::try_from(e).map_err(|_| PARAMETER)?;
    // "an E over 65,536, or an E above 0 where every coded place is marked 2".
    let all_marked = places.iter().all(|&place| place == FILLER);
    if count > MOST_BITS || (count > 0 && all_marked) {
        return Err(PARAMETER);
    }
    if output.len() < count {
        return Err(OUTPUT);
    }
    if places.iter().any(|&place| place > FILLER) {
        return Err(NO_BIT);
    }
    output[..count].copy_from_slice(&matched(places, version, count));
    Ok(count)
}

/// The bits that are sent of a coded block. Some place is not marked, or the count is 0.
pub fn matched(places: &[u8], version: Version, count: usize) -> Vec<u8> {
    let sent = sent_places(places, version, count);
    sent.iter().map(|&place| places[place]).collect()
}

/// The loop of 5.1.4.1, with the names that it has there, d being the coded places: for each bit that is
/// sent the place that it is taken from.
pub fn sent_places(d: &[u8], version: Version, e: usize) -> Vec<usize> {
    let k_0 = version.start(d.len());
    let mut sent = Vec::with_capacity(e);
    let mut j = 0;
    while sent.len() < e {
        let place = (k_0 + j) % d.len();
        if d[place] != FILLER {
            sent.push(place);
        }
        j += 1;
    }
    sent
}

#[cfg(test)]
mod tests {
    use super::{matched, rate};
    use crate::numbers::{Number, NO_BIT, OUTPUT, PARAMETER, RECORD, VERSION};
    use crate::version::Version;

    /// Matches with room enough.
    fn rated(e: u64, places: &[u8]) -> Result<Vec<u8>, Number> {
        rated_from(1, 0, e, places)
    }

    /// The same of a type and in a version.
    fn rated_from(coding: u64, rv: u64, e: u64, places: &[u8]) -> Result<Vec<u8>, Number> {
        let mut output = vec![0; 70_000];
        let count = rate(e, places, coding, rv, &mut output)?;
        output.truncate(count);
        Ok(output)
    }

    #[test]
    fn places_go_round() {
        assert_eq!(rated(3, &[1, 0, 0, 1]), Ok(vec![1, 0, 0]));
        assert_eq!(rated(4, &[1, 0, 0, 1]), Ok(vec![1, 0, 0, 1]));
        assert_eq!(rated(5, &[1, 0, 0, 1]), Ok(vec![1, 0, 0, 1, 1]));
        assert_eq!(
            rated(10, &[1, 0, 0, 1]),
            Ok(vec![1, 0, 0, 1, 1, 0, 0, 1, 1, 0])
        );
        assert_eq!(rated(65_536, &[1]), Ok(vec![1; 65_536]));
    }

    #[test]
    fn filler_is_skipped() {
        // A slip of document 01: "Filler sent as a 0 bit. Every later bit moves."
        assert_eq!(rated(4, &[1, 2, 0, 1]), Ok(vec![1, 0, 1, 1]));
        assert_eq!(rated(4, &[2, 2, 0, 1]), Ok(vec![0, 1, 0, 1]));
        assert_eq!(rated(4, &[0, 1, 2, 2]), Ok(vec![0, 1, 0, 1]));
        assert_eq!(rated(3, &[2, 2, 1, 2]), Ok(vec![1, 1, 1]));
    }

    #[test]
    fn it_is_the_filtered_list_over_and_over() {
        let places = [2, 0, 1, 1, 2, 0, 2, 1, 0, 0, 2];
        let kept = [0, 1, 1, 0, 1, 0, 0];
        for count in 0..40 {
            let expected: Vec<u8> = kept.iter().copied().cycle().take(count).collect();
            let version = Version::asked(1, 0).unwrap();
            assert_eq!(matched(&places, version, count), expected);
        }
    }

    #[test]
    fn none_of_anything_is_nothing() {
        for places in [&[][..], &[0], &[2], &[2, 2, 2], &[0, 1, 2]] {
            assert_eq!(rated(0, places), Ok(vec![]));
        }
    }

    #[test]
    fn e_is_at_most_65_536() {
        assert!(rated(65_536, &[0, 1]).is_ok());
        for e in [
            65_537,
            65_538,
            1 << 17,
            1 << 32,
            (1 << 32) + 1,
            1 << 63,
            u64::MAX,
        ] {
            assert_eq!(rated(e, &[0, 1]), Err(PARAMETER), "{e}");
        }
    }

    #[test]
    fn where_every_place_is_marked_there_is_nothing_to_send() {
        for places in [&[][..], &[2], &[2, 2, 2]] {
            assert_eq!(rated(1, places), Err(PARAMETER));
            assert_eq!(rated(65_536, places), Err(PARAMETER));
        }
        // A place over 2 is not marked 2.
        assert_eq!(rated(1, &[3]), Err(NO_BIT));
        assert_eq!(rated(1, &[2, 255]), Err(NO_BIT));
    }

    #[test]
    fn the_output_has_room_for_the_bits() {
        for length in 0..6 {
            let mut output = vec![7; length];
            let number = rate(6, &[1, 0], 1, 0, &mut output);
            assert_eq!(number, Err(OUTPUT));
            assert_eq!(output, vec![7; length]);
        }
        let mut output = [7; 8];
        assert_eq!(rate(6, &[1, 0], 1, 0, &mut output), Ok(6));
        assert_eq!(output, [1, 0, 1, 0, 1, 0, 7, 7]);
        assert_eq!(rate(0, &[], 1, 0, &mut []), Ok(0));
    }

    #[test]
    fn octets_over_2_are_refused_wherever_they_stand() {
        for octet in 3..=255 {
            for place in 0..4 {
                let mut places = [0, 1, 2, 1];
                places[place] = octet;
                assert_eq!(rated(0, &places), Err(NO_BIT));
                assert_eq!(rated(1, &places), Err(NO_BIT));
            }
        }
    }

    #[test]
    fn the_lowest_number_is_answered() {
        assert_eq!(rate(65_537, &[3], 1, 0, &mut []), Err(PARAMETER));
        assert_eq!(rate(u64::MAX, &[3], 1, 0, &mut []), Err(PARAMETER));
        assert_eq!(rate(1, &[2], 1, 0, &mut []), Err(PARAMETER));
        assert_eq!(rate(1, &[3], 1, 0, &mut []), Err(OUTPUT));
        assert_eq!(rate(1, &[3], 1, 0, &mut [0]), Err(NO_BIT));
    }

    #[test]
    fn type_2_starts_at_a_quarter_of_all_places() {
        // D 8, so the quarters are places 0, 2, 4 and 6.
        let places = [1, 0, 0, 1, 1, 1, 0, 0];
        for (rv, bits) in [
            (0, [1, 0, 0, 1, 1, 1, 0, 0, 1, 0]),
            (1, [0, 1, 1, 1, 0, 0, 1, 0, 0, 1]),
            (2, [1, 1, 0, 0, 1, 0, 0, 1, 1, 1]),
            (3, [0, 0, 1, 0, 0, 1, 1, 1, 0, 0]),
        ] {
            assert_eq!(rated_from(2, rv, 10, &places), Ok(bits.to_vec()), "{rv}");
        }
        // D 11: "floor(D/4)" is 2.
        let places = [0, 1, 2, 1, 1, 2, 0, 0, 1, 0, 1];
        assert_eq!(rated_from(2, 1, 4, &places), Ok(vec![1, 1, 0, 0]));
        assert_eq!(rated_from(2, 3, 4, &places), Ok(vec![0, 0, 1, 0]));
        assert_eq!(rated_from(2, 3, 6, &places), Ok(vec![0, 0, 1, 0, 1, 0]));
    }

    #[test]
    fn filler_is_counted_where_it_starts() {
        // Places 0 to 3 are filler: place 2 lies among them, and place 4 is the first that is kept. A start
        // by the kept ones would be their second, and their third.
        let places = [2, 2, 2, 2, 1, 0, 0, 0];
        assert_eq!(rated_from(2, 1, 4, &places), Ok(vec![1, 0, 0, 0]));
        assert_eq!(rated_from(2, 2, 4, &places), Ok(vec![1, 0, 0, 0]));
        assert_eq!(rated_from(2, 3, 4, &places), Ok(vec![0, 0, 1, 0]));
        // The start, place 6, is filler, and all that is kept stands before it.
        let places = [1, 0, 0, 0, 0, 0, 2, 2];
        assert_eq!(rated_from(2, 3, 7, &places), Ok(vec![1, 0, 0, 0, 0, 0, 1]));
    }

    #[test]
    fn the_coded_places_of_a_block_in_each_version() {
        // 112 coded with the record of Type 2 of samples: D 15, one place marked.
        let places = [1, 1, 2, 0, 0, 0, 1, 1, 0, 1, 0, 1, 0, 1, 1];
        for (rv, bits) in [
            (0, [1, 1, 0, 0, 0, 1, 1, 0, 1, 0, 1, 0, 1, 1]),
            (1, [0, 0, 0, 1, 1, 0, 1, 0, 1, 0, 1, 1, 1, 1]),
            (2, [1, 1, 0, 1, 0, 1, 0, 1, 1, 1, 1, 0, 0, 0]),
            (3, [1, 0, 1, 0, 1, 1, 1, 1, 0, 0, 0, 1, 1, 0]),
        ] {
            assert_eq!(rated_from(2, rv, 14, &places), Ok(bits.to_vec()), "{rv}");
        }
    }

    #[test]
    fn a_type_is_1_or_2_and_a_version_goes_with_it() {
        for coding in [0, 3, 257, 258, u64::MAX] {
            assert_eq!(rated_from(coding, 0, 1, &[1]), Err(RECORD));
        }
        for (coding, rv) in [
            (1, 1),
            (1, 2),
            (1, 3),
            (1, 4),
            (2, 4),
            (2, 256),
            (2, u64::MAX),
        ] {
            assert_eq!(
                rated_from(coding, rv, 1, &[1]),
                Err(VERSION),
                "{coding} {rv}"
            );
        }
        for rv in 0..4 {
            assert_eq!(rated_from(2, rv, 1, &[1]), Ok(vec![1]));
            assert_eq!(rated_from(2, rv, 0, &[]), Ok(vec![]));
        }
    }

    #[test]
    fn the_type_goes_first_and_the_version_second() {
        assert_eq!(rate(65_537, &[3], 3, 4, &mut []), Err(RECORD));
        assert_eq!(rate(65_537, &[3], 2, 4, &mut []), Err(VERSION));
        assert_eq!(rate(65_537, &[3], 1, 1, &mut []), Err(VERSION));
        assert_eq!(rate(65_537, &[3], 2, 1, &mut []), Err(PARAMETER));
        assert_eq!(rate(1, &[3], 2, 1, &mut []), Err(OUTPUT));
        assert_eq!(rate(1, &[3], 2, 1, &mut [0]), Err(NO_BIT));
    }
}
