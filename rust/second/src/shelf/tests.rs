//! What a shelf may be, what is found on it, and each refusal.

use std::ops::Range;

use super::{lookup, Asked, Found, Side};
use crate::draft::ShelfDraft;
use crate::numbers::{Number, NO_RECORD, PRIVATE_SHELF, PUBLIC_SHELF, TENANT_0};

const EMPTY_SHELF: [u8; 2] = [0, 0];

fn asked(private: &[u8], public: &[u8], tenant: u16, profile: u16) -> Asked {
    Asked {
        private: private.to_vec(),
        public: public.to_vec(),
        tenant,
        profile,
    }
}

/// A shelf of records, each with its tenant and its profile number.
fn shelf(records: &[(u16, u16, &[u8])]) -> Vec<u8> {
    ShelfDraft::new(records).octets()
}

fn private(stretch: Range<usize>) -> Found {
    let side = Side::Private;
    Found { side, stretch }
}

fn public(stretch: Range<usize>) -> Found {
    let side = Side::Public;
    Found { side, stretch }
}

/// The number for a private shelf, with an empty public one and nothing to be found.
fn private_number(octets: &[u8]) -> Number {
    match lookup(&asked(octets, &EMPTY_SHELF, 65_535, 65_535)) {
        Ok(_) | Err(NO_RECORD) => 0,
        Err(number) => number,
    }
}

/// The number for a public shelf, with an empty private one and nothing to be found.
fn public_number(octets: &[u8]) -> Number {
    match lookup(&asked(&EMPTY_SHELF, octets, 65_535, 65_535)) {
        Ok(_) | Err(NO_RECORD) => 0,
        Err(number) => number,
    }
}

/// Three records of lengths 3, 0 and 2, for two tenants.
fn three() -> ShelfDraft {
    ShelfDraft::new(&[(1, 5, &[1, 2, 3]), (1, 7, &[]), (4, 5, &[8, 9])])
}

#[test]
fn the_tenants_own_record_goes_first() {
    let own = shelf(&[(1, 5, &[1, 2, 3]), (2, 5, &[4, 5]), (2, 6, &[6])]);
    let all = shelf(&[(0, 5, &[7]), (0, 8, &[8, 9])]);
    assert_eq!(lookup(&asked(&own, &all, 1, 5)), Ok(private(26..29)));
    assert_eq!(lookup(&asked(&own, &all, 2, 5)), Ok(private(29..31)));
    assert_eq!(lookup(&asked(&own, &all, 2, 6)), Ok(private(31..32)));
    // Tenant 1 has no record 8, and tenant 3 has none at all.
    assert_eq!(lookup(&asked(&own, &all, 1, 8)), Ok(public(19..21)));
    assert_eq!(lookup(&asked(&own, &all, 3, 5)), Ok(public(18..19)));
}

#[test]
fn another_tenants_record_is_not_found() {
    // A slip of document 01: "The search that matches the profile number and forgets the tenant."
    let own = shelf(&[(1, 5, &[1]), (3, 5, &[3])]);
    assert_eq!(lookup(&asked(&own, &EMPTY_SHELF, 2, 5)), Err(NO_RECORD));
    let all = shelf(&[(0, 5, &[0])]);
    assert_eq!(lookup(&asked(&own, &all, 2, 5)), Ok(public(10..11)));
}

#[test]
fn the_octets_of_the_stretch_are_the_record() {
    let own = shelf(&[(1, 5, &[1, 2, 3])]);
    let all = shelf(&[(0, 6, &[7, 8])]);
    for (profile, record) in [(5, &[1, 2, 3][..]), (6, &[7, 8])] {
        let asked = asked(&own, &all, 1, profile);
        assert_eq!(asked.octets(&lookup(&asked).unwrap()), record);
    }
}

#[test]
fn a_record_of_length_0_is_found() {
    let own = shelf(&[(1, 5, &[]), (1, 6, &[1]), (1, 7, &[])]);
    assert_eq!(
        lookup(&asked(&own, &EMPTY_SHELF, 1, 5)),
        Ok(private(26..26))
    );
    assert_eq!(
        lookup(&asked(&own, &EMPTY_SHELF, 1, 7)),
        Ok(private(27..27))
    );
    // It goes before the public record of that number.
    let all = shelf(&[(0, 5, &[1, 2])]);
    assert_eq!(lookup(&asked(&own, &all, 1, 5)), Ok(private(26..26)));
}

#[test]
fn the_first_and_the_last_numbers() {
    let own = shelf(&[
        (1, 0, &[1]),
        (1, 65_535, &[2]),
        (65_535, 0, &[3]),
        (65_535, 65_535, &[4]),
    ]);
    assert_eq!(
        lookup(&asked(&own, &EMPTY_SHELF, 1, 0)),
        Ok(private(34..35))
    );
    assert_eq!(
        lookup(&asked(&own, &EMPTY_SHELF, 1, 65_535)),
        Ok(private(35..36))
    );
    assert_eq!(
        lookup(&asked(&own, &EMPTY_SHELF, 65_535, 0)),
        Ok(private(36..37))
    );
    assert_eq!(
        lookup(&asked(&own, &EMPTY_SHELF, 65_535, 65_535)),
        Ok(private(37..38))
    );
}

#[test]
fn tenant_0_is_refused() {
    let all = shelf(&[(0, 5, &[1])]);
    assert_eq!(lookup(&asked(&EMPTY_SHELF, &all, 0, 5)), Err(TENANT_0));
    assert_eq!(lookup(&asked(&[], &[], 0, 5)), Err(TENANT_0));
}

#[test]
fn empty_shelves_have_no_record() {
    let asked = asked(&EMPTY_SHELF, &EMPTY_SHELF, 1, 0);
    assert_eq!(lookup(&asked), Err(NO_RECORD));
}

#[test]
fn a_shelf_has_at_least_its_count() {
    for octets in [&[][..], &[0]] {
        assert_eq!(private_number(octets), PRIVATE_SHELF);
        assert_eq!(public_number(octets), PUBLIC_SHELF);
    }
    assert_eq!(private_number(&EMPTY_SHELF), 0);
    assert_eq!(public_number(&EMPTY_SHELF), 0);
    assert_eq!(private_number(&[0, 0, 0]), PRIVATE_SHELF);
    assert_eq!(public_number(&[0, 0, 0]), PUBLIC_SHELF);
}

#[test]
fn at_most_64_entries() {
    for (count, expected) in [
        (1, 0),
        (2, 0),
        (63, 0),
        (64, 0),
        (65, 2),
        (256, 2),
        (257, 2),
    ] {
        let records: Vec<(u16, u16, &[u8])> = (0..count).map(|p| (1, p, &[7][..])).collect();
        assert_eq!(private_number(&shelf(&records)), expected, "{count}");
        let records: Vec<(u16, u16, &[u8])> = (0..count).map(|p| (0, p, &[7][..])).collect();
        let expected = if expected == 2 { 3 } else { 0 };
        assert_eq!(public_number(&shelf(&records)), expected, "{count}");
    }
}

#[test]
fn at_most_65_535_octets() {
    // One entry: its record starts at 10.
    for (length, expected) in [(65_524, 0), (65_525, 0), (65_526, 2), (65_535, 2)] {
        let record = vec![7; length];
        assert_eq!(private_number(&shelf(&[(1, 1, &record)])), expected);
        let expected = if expected == 2 { 3 } else { 0 };
        assert_eq!(public_number(&shelf(&[(0, 1, &record)])), expected);
    }
    // Two entries whose ends are beyond: no offset can say so.
    let half = vec![7; 40_000];
    let mut draft = ShelfDraft::new(&[(1, 1, &half)]);
    draft.entries.push([1, 2, 50, 40_000]);
    draft.count = 2;
    draft.entries[0][2] = 18;
    draft.records.extend_from_slice(&half);
    assert_eq!(private_number(&draft.octets()), PRIVATE_SHELF);
}

#[test]
fn pairs_strictly_rise() {
    let judged = |left: (u16, u16), right: (u16, u16)| {
        private_number(&shelf(&[(left.0, left.1, &[1]), (right.0, right.1, &[2])]))
    };
    assert_eq!(judged((1, 5), (1, 6)), 0);
    assert_eq!(judged((1, 5), (2, 5)), 0);
    assert_eq!(judged((1, 5), (2, 4)), 0);
    assert_eq!(judged((1, 65_535), (2, 0)), 0);
    assert_eq!(judged((255, 1), (256, 0)), 0);
    assert_eq!(judged((1, 5), (1, 5)), PRIVATE_SHELF);
    assert_eq!(judged((1, 6), (1, 5)), PRIVATE_SHELF);
    assert_eq!(judged((2, 5), (1, 5)), PRIVATE_SHELF);
    assert_eq!(judged((2, 5), (1, 6)), PRIVATE_SHELF);
    assert_eq!(judged((256, 0), (255, 1)), PRIVATE_SHELF);
    let judged =
        |left: u16, right: u16| public_number(&shelf(&[(0, left, &[1]), (0, right, &[2])]));
    assert_eq!(judged(5, 6), 0);
    assert_eq!(judged(5, 5), PUBLIC_SHELF);
    assert_eq!(judged(6, 5), PUBLIC_SHELF);
    assert_eq!(judged(256, 255), PUBLIC_SHELF);
    // The last pair counts as the first does.
    let last = shelf(&[(1, 1, &[]), (1, 2, &[]), (1, 3, &[]), (1, 3, &[])]);
    assert_eq!(private_number(&last), PRIVATE_SHELF);
}

#[test]
fn every_tenant_is_0_on_a_public_shelf_and_none_on_a_private_one() {
    assert_eq!(private_number(&shelf(&[(0, 5, &[1])])), PRIVATE_SHELF);
    assert_eq!(
        private_number(&shelf(&[(0, 5, &[1]), (1, 5, &[2])])),
        PRIVATE_SHELF
    );
    assert_eq!(public_number(&shelf(&[(1, 5, &[1])])), PUBLIC_SHELF);
    assert_eq!(
        public_number(&shelf(&[(0, 5, &[1]), (1, 5, &[2])])),
        PUBLIC_SHELF
    );
    assert_eq!(public_number(&shelf(&[(256, 5, &[1])])), PUBLIC_SHELF);
}

#[test]
fn records_follow_one_another_without_gaps() {
    assert_eq!(private_number(&three().octets()), 0);
    for place in 0..3 {
        for (number, name) in [(2, "offset"), (3, "length")] {
            let due = three().entries[place][number];
            for other in [due.wrapping_sub(1), due + 1, due + 256, 65_535] {
                let mut draft = three();
                draft.entries[place][number] = other;
                let judged = private_number(&draft.octets());
                assert_eq!(judged, PRIVATE_SHELF, "{name} {place}");
            }
        }
    }
    // A gap and an overlap that leave the last end where it is.
    let mut draft = three();
    draft.entries[1][2] += 1;
    assert_eq!(private_number(&draft.octets()), PRIVATE_SHELF);
    let mut draft = three();
    draft.entries[0][3] = 2;
    assert_eq!(private_number(&draft.octets()), PRIVATE_SHELF);
}

#[test]
fn the_shelf_ends_with_the_last_record() {
    let octets = three().octets();
    for length in 0..octets.len() {
        assert_eq!(private_number(&octets[..length]), PRIVATE_SHELF, "{length}");
    }
    let longer = [&octets[..], &[0]].concat();
    assert_eq!(private_number(&longer), PRIVATE_SHELF);
}

#[test]
fn the_count_says_how_many_entries_there_are() {
    for count in [0, 1, 2, 4, 64, 65, 259, 65_535] {
        let mut draft = three();
        draft.count = count;
        assert_eq!(private_number(&draft.octets()), PRIVATE_SHELF, "{count}");
    }
}

#[test]
fn offsets_do_not_wrap_round() {
    // The second record would start at 65,536 and the third at 16.
    let mut draft = ShelfDraft::new(&[(1, 1, &[]), (1, 2, &[]), (1, 3, &[])]);
    draft.entries[0] = [1, 1, 26, 65_510];
    draft.entries[1] = [1, 2, 0, 26];
    draft.entries[2] = [1, 3, 26, 0];
    assert_eq!(private_number(&draft.octets()), PRIVATE_SHELF);
}

#[test]
fn record_contents_are_not_judged() {
    let own = shelf(&[(1, 5, &[255; 100])]);
    assert_eq!(
        lookup(&asked(&own, &EMPTY_SHELF, 1, 5)),
        Ok(private(10..110))
    );
}

#[test]
fn the_lowest_number_is_answered() {
    let good = three().octets();
    assert_eq!(lookup(&asked(&[], &[], 0, 5)), Err(TENANT_0));
    assert_eq!(lookup(&asked(&[], &[], 1, 5)), Err(PRIVATE_SHELF));
    assert_eq!(lookup(&asked(&good, &[], 1, 5)), Err(PUBLIC_SHELF));
    assert_eq!(lookup(&asked(&good, &[], 9, 9)), Err(PUBLIC_SHELF));
    assert_eq!(lookup(&asked(&good, &EMPTY_SHELF, 9, 9)), Err(NO_RECORD));
    assert_eq!(
        lookup(&asked(&good, &EMPTY_SHELF, 1, 5)),
        Ok(private(26..29))
    );
}
