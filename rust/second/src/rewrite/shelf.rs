//! Rewrites a shelf: its records, and the offsets and lengths of its entries.

use std::ops::Range;

use super::edit::{Edit, Edits};
use super::record;
use crate::octets::number_at;

/// The octets of an entry, and where its offset and its length stand in it.
const ENTRY: usize = 8;
const OFFSET: usize = 4;
const LENGTH: usize = 6;

/// The edits of a shelf. A broken one is rewritten as far as it has entries, so that it is broken as before.
pub fn edits(shelf: &[u8]) -> Result<Edits, String> {
    let entries: Vec<Range<usize>> = (0..count(shelf))
        .map(|place| stretch(shelf, place))
        .collect();
    let mut edits = Edits::default();
    // Where records that are rewritten start. Octets that several entries claim are one record.
    let mut starts: Vec<usize> = Vec::new();
    for stretch in &entries {
        let end = stretch.end.min(shelf.len());
        let claimed = starts
            .iter()
            .any(|&start| start.abs_diff(stretch.start) < 4);
        if stretch.start >= end || stretch.start < 2 + ENTRY * entries.len() || claimed {
            continue;
        }
        let own = record::edits(&shelf[stretch.start..end], stretch.start)?;
        edits.left.extend(own.left);
        edits.list.extend(own.list);
        edits.records += own.records;
        starts.extend((own.records > 0).then_some(stretch.start));
    }
    // What stands before a place pushes it on.
    let inserted: Vec<usize> = edits.list.iter().filter_map(insertion).collect();
    let moved = |place: usize| place + 4 * inserted.iter().filter(|&&other| other < place).count();
    for (place, stretch) in entries.iter().enumerate() {
        let entry = 2 + ENTRY * place;
        let offset = moved(stretch.start);
        let length = moved(stretch.end) - offset;
        for (at, old, new) in [
            (entry + OFFSET, stretch.start, offset),
            (entry + LENGTH, stretch.len(), length),
        ] {
            match u16::try_from(new) {
                Ok(_) if old == new => {}
                Ok(new) => edits.list.push(Edit::Replace(at, new)),
                Err(_) => edits.left.push(format!(
                    "entry {place} keeps {old}: {new} would not fit into two octets"
                )),
            }
        }
    }
    Ok(edits)
}

fn insertion(edit: &Edit) -> Option<usize> {
    match edit {
        Edit::Insert(place, _) => Some(*place),
        Edit::Replace(..) => None,
    }
}

/// Where an entry says that its record stands.
fn stretch(shelf: &[u8], place: usize) -> Range<usize> {
    let number = |at| number_at(shelf, 2 + ENTRY * place + at).map_or(0, usize::from);
    number(OFFSET)..number(OFFSET) + number(LENGTH)
}

/// How many entries there are: as many as the count says, unless the shelf shows another number, in that
/// the first offset says it and every record stands behind the one before.
fn count(shelf: &[u8]) -> usize {
    let fits = |count: usize| 2 + ENTRY * count <= shelf.len();
    let said = number_at(shelf, 0).map_or(0, usize::from);
    let shown = stretch(shelf, 0).start.saturating_sub(2) / ENTRY;
    let follow = |count: usize| {
        let mut due = 2 + ENTRY * count;
        (0..count).all(|place| {
            let stretch = stretch(shelf, place);
            stretch.start == std::mem::replace(&mut due, stretch.end)
        })
    };
    if fits(shown) && shown > 0 && follow(shown) && !(fits(said) && follow(said)) {
        return shown;
    }
    if fits(said) {
        said
    } else {
        0
    }
}

#[cfg(test)]
mod tests {
    use super::edits;
    use crate::draft::ShelfDraft;
    use crate::rewrite::edit::apply;
    use crate::samples::TOY;

    /// The toy in the old form.
    fn old_toy() -> Vec<u8> {
        let mut record = [&TOY[..4], &TOY[8..]].concat();
        record[9] = 10;
        record
    }

    fn rewritten(shelf: &[u8]) -> Vec<u8> {
        apply(shelf, &edits(shelf).unwrap().list)
    }

    /// A shelf of three records before and after: the middle one is too short to be rewritten.
    fn shelves() -> (ShelfDraft, ShelfDraft) {
        let old = old_toy();
        (
            ShelfDraft::new(&[(1, 7, &old), (2, 7, &[1, 2, 3]), (2, 8, &old), (3, 0, &[])]),
            ShelfDraft::new(&[(1, 7, &TOY), (2, 7, &[1, 2, 3]), (2, 8, &TOY), (3, 0, &[])]),
        )
    }

    #[test]
    fn records_and_entries_are_rewritten() {
        let (old, new) = shelves();
        assert_eq!(rewritten(&old.octets()), new.octets());
        assert_eq!(edits(&old.octets()).unwrap().records, 2);
        assert_eq!(rewritten(&[0, 0]), [0, 0]);
    }

    #[test]
    fn broken_shelves_stay_broken_in_the_same_way() {
        let (good_old, good_new) = shelves();
        let octets: [fn(&mut ShelfDraft); 8] = [
            |shelf| shelf.count += 1,
            |shelf| shelf.count -= 1,
            |shelf| shelf.count += 256,
            |shelf| shelf.entries[3][2] += 1,
            |shelf| shelf.entries[1][3] -= 1,
            |shelf| shelf.records.push(9),
            |shelf| shelf.records.truncate(shelf.records.len() - 1),
            |shelf| shelf.entries.swap(0, 2),
        ];
        for spoil in octets {
            let (mut old, mut new) = (good_old.clone(), good_new.clone());
            spoil(&mut old);
            spoil(&mut new);
            assert_eq!(rewritten(&old.octets()), new.octets());
        }
        for short in [&[][..], &[0], &[0, 1], &[0, 1, 0, 1, 0], &[255; 10]] {
            assert_eq!(rewritten(short), short);
        }
    }

    #[test]
    fn a_record_of_the_new_form_is_refused() {
        let (_, new) = shelves();
        assert!(edits(&new.octets()).is_err());
    }
}
