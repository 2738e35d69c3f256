//! Rewrites a record: x 0 and type 1 behind m, and each offset four higher.

use super::edit::{Edit, Edits};
use crate::octets::number_at;
use crate::record;

/// The header of the old form: kb, m and t.
const HEADER: usize = 6;

/// x 0 and type 1, which stand between m and t.
const ADDED: [u8; 4] = [0, 0, 0, 1];

/// The edits of a record that begins at a place. What is shorter than a header stays as it is. What is no
/// record, or a broken one, is rewritten as far as it has the parts of one, so that it is broken as before.
pub fn edits(record: &[u8], start: usize) -> Result<Edits, String> {
    if record::is_well_formed(record) {
        return Err("a record has the new form already".into());
    }
    let mut edits = Edits::default();
    if record.len() < HEADER {
        return Ok(edits);
    }
    edits.records = 1;
    edits.list.push(Edit::Insert(start + 4, ADDED.to_vec()));
    for place in (0..pairs(record)).map(|pair| HEADER + 4 * pair + 2) {
        let Some(offset) = number_at(record, place) else {
            break;
        };
        match offset.checked_add(4) {
            Some(raised) => edits.list.push(Edit::Replace(start + place, raised)),
            None => edits.left.push(format!(
                "an offset of {offset} stays: four more would not fit into two octets"
            )),
        }
    }
    Ok(edits)
}

/// Pairs that a record may have, and one more for a record that has too many.
const MOST_PAIRS: usize = 4;

/// How many pairs of z and offset stand before the tables: as many as the first offset has room for, or,
/// where it is wrong, as t says.
fn pairs(record: &[u8]) -> usize {
    let t = number_at(record, 4).map_or(0, usize::from);
    let first = number_at(record, HEADER + 2).map_or(0, usize::from);
    let room = first.saturating_sub(HEADER) / 4;
    if (1..=MOST_PAIRS).contains(&room) && first == HEADER + 4 * room {
        room
    } else {
        t.min(MOST_PAIRS)
    }
}

#[cfg(test)]
mod tests {
    use super::edits;
    use crate::rewrite::edit::apply;
    use crate::samples::TOY;

    /// The toy in the old form (document 01, "Small profile and worked numbers").
    const OLD_TOY: [u8; 22] = [
        0x00, 0x01, 0x00, 0x03, 0x00, 0x01, 0x00, 0x02, 0x00, 0x0a, 0x00, 0x01, 0x00, 0xff, 0x01,
        0x00, 0x00, 0x00, 0xff, 0x01, 0xff, 0x00,
    ];

    fn rewritten(record: &[u8]) -> Vec<u8> {
        apply(record, &edits(record, 0).unwrap().list)
    }

    #[test]
    fn the_toy_becomes_that_of_26_octets() {
        assert_eq!(rewritten(&OLD_TOY), TOY);
    }

    #[test]
    fn every_offset_is_raised() {
        let old = [
            &[0, 1, 0, 3, 0, 3, 0, 2, 0, 18, 0, 3, 0, 30, 0, 4, 1, 254][..],
            &[9; 36],
        ]
        .concat();
        let new = [
            &[
                0, 1, 0, 3, 0, 0, 0, 1, 0, 3, 0, 2, 0, 22, 0, 3, 0, 34, 0, 4, 2, 2,
            ][..],
            &[9; 36],
        ]
        .concat();
        assert_eq!(rewritten(&old), new);
    }

    #[test]
    fn a_broken_record_is_rewritten_as_far_as_its_parts_go() {
        // A length, an offset or an entry that is wrong stays so.
        assert_eq!(rewritten(&OLD_TOY[..21]), TOY[..25]);
        assert_eq!(
            rewritten(&[&OLD_TOY[..], &[7]].concat()),
            [&TOY[..], &[7]].concat()
        );
        for place in [0, 1, 2, 3, 6, 7, 10, 15, 21] {
            let (mut old, mut new) = (OLD_TOY, TOY);
            old[place] = 77;
            new[place + if place < 4 { 0 } else { 4 }] = 77;
            assert_eq!(rewritten(&old), new, "{place}");
        }
        // A count of tables that is wrong: the pair is the one that is there.
        for t in [[0, 0], [0, 2], [1, 1], [0, 83]] {
            let (mut old, mut new) = (OLD_TOY, TOY);
            old[4..6].copy_from_slice(&t);
            new[8..10].copy_from_slice(&t);
            assert_eq!(rewritten(&old), new, "{t:?}");
        }
        // Only a header, and a pair cut off in its offset.
        assert_eq!(rewritten(&OLD_TOY[..6]), TOY[..10]);
        assert_eq!(rewritten(&OLD_TOY[..9]), TOY[..13]);
        assert_eq!(rewritten(&OLD_TOY[..10]), TOY[..14]);
    }

    #[test]
    fn what_is_shorter_than_a_header_stays() {
        for length in 0..6 {
            assert_eq!(rewritten(&OLD_TOY[..length]), OLD_TOY[..length]);
            assert_eq!(edits(&OLD_TOY[..length], 0).unwrap().records, 0);
        }
        assert_eq!(edits(&OLD_TOY, 0).unwrap().records, 1);
    }

    #[test]
    fn an_offset_that_cannot_be_raised_stays_and_is_told() {
        for (old, new) in [(65_531u16, Some(65_535u16)), (65_532, None), (65_535, None)] {
            let mut record = OLD_TOY;
            record[8..10].copy_from_slice(&old.to_be_bytes());
            let mut expected = TOY;
            expected[12..14].copy_from_slice(&new.unwrap_or(old).to_be_bytes());
            assert_eq!(rewritten(&record), expected);
            assert_eq!(edits(&record, 0).unwrap().left.is_empty(), new.is_some());
        }
    }

    #[test]
    fn a_record_of_the_new_form_is_refused() {
        assert!(edits(&TOY, 0).is_err());
        // A table that is no staircase has the form all the same.
        let mut no_staircase = TOY;
        no_staircase[16] = 1;
        assert!(edits(&no_staircase, 0).is_err());
    }
}
