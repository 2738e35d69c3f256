//! What a changed shelf is, octet for octet, and each refusal.

use super::{put, remove, Place};
use crate::draft::ShelfDraft;
use crate::numbers::{
    Number, NO_RECORD, NO_ROOM, OUTPUT, PRIVATE_SHELF, RECORD, STAIRCASE, TENANT_0,
};
use crate::samples::{no_staircase, not_well_formed, EXTENDED, FIVE, TOY};
use crate::shelf::{lookup, Asked, MOST_OCTETS};

/// A shelf of records, each with its tenant and its profile number.
fn shelf(records: &[(u16, u16, &[u8])]) -> Vec<u8> {
    ShelfDraft::new(records).octets()
}

fn place(private: &[u8], tenant: u16, profile: u16) -> Place {
    Place {
        private: private.to_vec(),
        tenant,
        profile,
    }
}

/// What a call writes that is lent so many octets.
fn written(
    length: usize,
    call: impl FnOnce(&mut [u8]) -> Result<usize, Number>,
) -> Result<Vec<u8>, Number> {
    let mut output = vec![0xee; length];
    let result = call(&mut output);
    let count = *result.as_ref().unwrap_or(&0);
    assert!(output[count..].iter().all(|&octet| octet == 0xee));
    output.truncate(count);
    result.map(|_| output)
}

fn putting(place: &Place, record: &[u8]) -> Result<Vec<u8>, Number> {
    written(70_000, |output| put(place, record, output))
}

fn removing(place: &Place) -> Result<Vec<u8>, Number> {
    written(70_000, |output| remove(place, output))
}

/// Records of lengths 3, 0, 26 and 1, for three tenants.
fn four() -> Vec<(u16, u16, &'static [u8])> {
    vec![
        (1, 5, &[1, 2, 3]),
        (1, 7, &[]),
        (4, 5, &FIVE),
        (256, 0, &[9]),
    ]
}

#[test]
fn a_record_is_put_on_the_empty_shelf() {
    let toy = [0, 1, 0, 7, 0, 34, 0, 10, 0, 26];
    assert_eq!(
        putting(&place(&[0, 0], 7, 34), &TOY),
        Ok([&toy[..], &TOY].concat())
    );
}

#[test]
fn a_record_goes_to_its_place_by_the_rising_pairs() {
    for (place_due, pair) in [
        (0, (1, 4)),
        (0, (1, 0)),
        (1, (1, 6)),
        (2, (1, 8)),
        (2, (1, 65_535)),
        (2, (2, 5)),
        (2, (4, 4)),
        (3, (4, 6)),
        (3, (255, 65_535)),
        (4, (256, 1)),
        (4, (65_535, 65_535)),
    ] {
        let mut records = four();
        let private = shelf(&records);
        records.insert(place_due, (pair.0, pair.1, &TOY));
        assert_eq!(
            putting(&place(&private, pair.0, pair.1), &TOY),
            Ok(shelf(&records)),
            "{pair:?}"
        );
    }
}

#[test]
fn a_record_that_is_there_is_replaced() {
    for changed in 0..4 {
        let mut records = four();
        let private = shelf(&records);
        let (tenant, profile, _) = records[changed];
        records[changed].2 = &EXTENDED;
        let place = place(&private, tenant, profile);
        assert_eq!(putting(&place, &EXTENDED), Ok(shelf(&records)), "{changed}");
    }
}

#[test]
fn a_record_is_removed() {
    for removed in 0..4 {
        let mut records = four();
        let private = shelf(&records);
        let (tenant, profile, _) = records.remove(removed);
        let place = place(&private, tenant, profile);
        assert_eq!(removing(&place), Ok(shelf(&records)), "{removed}");
    }
    let last = shelf(&[(1, 5, &[])]);
    assert_eq!(removing(&place(&last, 1, 5)), Ok(vec![0, 0]));
}

#[test]
fn others_find_what_they_found() {
    let private = shelf(&four());
    let found = |private: &[u8], tenant, profile| {
        let asked = Asked {
            private: private.to_vec(),
            public: vec![0, 0],
            tenant,
            profile,
        };
        lookup(&asked).map(|found| asked.octets(&found).to_vec())
    };
    let replaced = putting(&place(&private, 1, 7), &TOY).unwrap();
    let removed = removing(&place(&private, 1, 7)).unwrap();
    assert_eq!(found(&replaced, 1, 7), Ok(TOY.to_vec()));
    assert_eq!(found(&removed, 1, 7), Err(NO_RECORD));
    for (tenant, profile) in [(1, 5), (4, 5), (256, 0), (4, 7), (2, 7)] {
        let before = found(&private, tenant, profile);
        assert_eq!(found(&replaced, tenant, profile), before);
        assert_eq!(found(&removed, tenant, profile), before);
    }
}

#[test]
fn what_is_not_there_is_not_removed() {
    let private = shelf(&four());
    for (tenant, profile) in [(1, 4), (1, 6), (2, 5), (4, 7), (5, 5), (256, 1), (1, 0)] {
        let place = place(&private, tenant, profile);
        assert_eq!(removing(&place), Err(NO_RECORD), "{tenant} {profile}");
    }
    assert_eq!(removing(&place(&[0, 0], 1, 5)), Err(NO_RECORD));
}

#[test]
fn the_lowest_condition_is_answered_in_the_order_of_the_tests() {
    let good = shelf(&four());
    let public = shelf(&[(0, 5, &TOY)]);
    for bad in [&[][..], &[0], &good[..good.len() - 1], &public] {
        assert_eq!(putting(&place(bad, 0, 5), &[]), Err(TENANT_0));
        assert_eq!(putting(&place(bad, 1, 5), &[]), Err(PRIVATE_SHELF));
        assert_eq!(removing(&place(bad, 0, 9)), Err(TENANT_0));
        assert_eq!(removing(&place(bad, 1, 9)), Err(PRIVATE_SHELF));
    }
    let none = |record: &[u8]| written(0, |output| put(&place(&good, 1, 5), record, output));
    assert_eq!(none(&[]), Err(RECORD));
    assert_eq!(none(&not_well_formed()), Err(RECORD));
    assert_eq!(none(&no_staircase()), Err(STAIRCASE));
    assert_eq!(none(&TOY), Err(OUTPUT));
    let none = |profile| written(0, |output| remove(&place(&good, 1, profile), output));
    assert_eq!(none(6), Err(NO_RECORD));
    assert_eq!(none(5), Err(OUTPUT));
}

#[test]
fn the_output_is_as_long_as_the_new_shelf_or_longer() {
    let good = shelf(&four());
    let due = good.len() - 3 + 26;
    let put_in = |length| {
        written(length, |output| put(&place(&good, 1, 5), &TOY, output)).map(|shelf| shelf.len())
    };
    assert_eq!(put_in(due - 1), Err(OUTPUT));
    assert_eq!(put_in(due), Ok(due));
    assert_eq!(put_in(due + 1), Ok(due));
    let due = good.len() - 8 - 3;
    let remove_in = |length| {
        written(length, |output| remove(&place(&good, 1, 5), output)).map(|shelf| shelf.len())
    };
    assert_eq!(remove_in(due - 1), Err(OUTPUT));
    assert_eq!(remove_in(due), Ok(due));
}

#[test]
fn a_shelf_has_at_most_64_entries() {
    let records: Vec<(u16, u16, &[u8])> = (0..64).map(|profile| (2, profile, &[][..])).collect();
    let full = shelf(&records);
    for (tenant, profile) in [(1, 0), (2, 64), (3, 0)] {
        let place = place(&full, tenant, profile);
        assert_eq!(putting(&place, &TOY), Err(NO_ROOM));
        // 26 goes before 11, and 5 and 6 before it.
        assert_eq!(written(0, |output| put(&place, &TOY, output)), Err(NO_ROOM));
        assert_eq!(putting(&place, &[]), Err(RECORD));
        assert_eq!(putting(&place, &no_staircase()), Err(STAIRCASE));
    }
    assert!(putting(&place(&full, 2, 63), &TOY).is_ok());
    let one_less = removing(&place(&full, 2, 63)).unwrap();
    assert_eq!(one_less, shelf(&records[..63]));
    assert!(putting(&place(&one_less, 3, 0), &TOY).is_ok());
}

#[test]
fn a_shelf_has_at_most_65_535_octets() {
    for (more, expected) in [(0, Ok(MOST_OCTETS)), (1, Err(NO_ROOM))] {
        let filler = vec![7; MOST_OCTETS - 2 - 2 * 8 - TOY.len() + more];
        let private = shelf(&[(2, 2, &filler)]);
        for tenant in [1, 3] {
            let put = putting(&place(&private, tenant, 2), &TOY);
            assert_eq!(put.map(|shelf| shelf.len()), expected);
        }
        let private = shelf(&[(1, 2, &[]), (2, 2, &filler)]);
        let put = putting(&place(&private, 1, 2), &TOY);
        assert_eq!(put.map(|shelf| shelf.len()), expected);
    }
    // A long record makes room for a shorter one.
    let filler = vec![7; MOST_OCTETS - 2 - 8];
    let private = shelf(&[(2, 2, &filler)]);
    assert_eq!(
        putting(&place(&private, 2, 2), &TOY),
        Ok(shelf(&[(2, 2, &TOY)]))
    );
    assert_eq!(putting(&place(&private, 2, 3), &TOY), Err(NO_ROOM));
    assert_eq!(removing(&place(&private, 2, 2)), Ok(vec![0, 0]));
}
