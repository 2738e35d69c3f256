//! The hosted calls: they do as sending, receiving and checking with the record that is found.

use super::{hosted_check, hosted_receive, hosted_send};
use crate::draft::ShelfDraft;
use crate::numbers::{
    Number, BLOCK_LENGTH, EDITION, FEW_PLACES, MANY_BLOCKS, NO_BIT, NO_RECORD, OUTPUT, PARAMETER,
    PRIVATE_SHELF, PUBLIC_SHELF, RECORD, SHORT_SHARE, STAIRCASE, TENANT_0, UNSENT, VERSION,
};
use crate::receive::Received;
use crate::samples::{
    bits_of_hex, no_staircase, plain, twenty, EXTENDED, EXTENDED_SENT, FIVE, FIVE_WORD, TOY,
    TWENTY_SENT,
};
use crate::send::send;
use crate::shelf::Asked;
use crate::transfer;

const G_128: transfer::Asked = transfer::Asked {
    layers: 1,
    order: 2,
    g: 128,
    rv: 0,
    ed: 1,
};

/// Bits of one octet with N_L 1 and Q_m 2, rv 0 and edition 1.
fn one_octet(bits: &[u8]) -> Received<'_> {
    Received {
        a: 8,
        layers: 1,
        order: 2,
        rv: 0,
        ed: 1,
        bits,
    }
}

/// Tenants 1 and 2 have a record 7 each, tenant 3 an empty one, and the toy is public record 7.
fn shelves(tenant: u16, profile: u16) -> Asked {
    let other = plain(2, 4, &[5]).octets();
    let third = plain(1, 3, &[2]).octets();
    Asked {
        private: ShelfDraft::new(&[(1, 7, &other), (2, 7, &third), (3, 7, &[])]).octets(),
        public: ShelfDraft::new(&[(0, 7, &TOY), (0, 8, &TOY[..25]), (0, 9, &no_staircase())])
            .octets(),
        tenant,
        profile,
    }
}

fn sent(shelves: &Asked, block: &[u8]) -> Result<Vec<u8>, Number> {
    let mut output = vec![7; 128];
    let count = hosted_send(shelves, block, G_128, &mut output)?;
    output.truncate(count);
    Ok(output)
}

fn received(shelves: &Asked, bits: &[u8]) -> Result<Vec<u8>, Number> {
    let mut output = vec![7; 4];
    let count = hosted_receive(shelves, one_octet(bits), &mut output)?;
    output.truncate(count);
    Ok(output)
}

/// What sending gives with a record of its own.
fn sent_with(record: &[u8]) -> Vec<u8> {
    let mut output = vec![7; 128];
    assert_eq!(send(record, &[0x01], G_128, &mut output), Ok(128));
    output
}

#[test]
fn each_tenant_is_served_from_its_own_record_or_the_public_one() {
    let own = [plain(2, 4, &[5]).octets(), plain(1, 3, &[2]).octets()];
    assert_eq!(sent(&shelves(1, 7), &[0x01]), Ok(sent_with(&own[0])));
    assert_eq!(sent(&shelves(2, 7), &[0x01]), Ok(sent_with(&own[1])));
    assert_eq!(sent(&shelves(4, 7), &[0x01]), Ok(sent_with(&TOY)));
    assert_ne!(sent_with(&own[0]), sent_with(&TOY));
    assert_ne!(sent_with(&own[1]), sent_with(&TOY));
}

#[test]
fn what_was_sent_is_received_by_the_same_tenant() {
    for tenant in [2, 4] {
        let bits = sent(&shelves(tenant, 7), &[0x01]).unwrap();
        assert_eq!(received(&shelves(tenant, 7), &bits), Ok(vec![0x01]));
        assert_eq!(received(&shelves(6 - tenant, 7), &bits), Err(UNSENT));
    }
}

/// `FIVE` with shift 0 in the place of its first, 2.
const OTHER_FIVE: [u8; 26] = {
    let mut record = FIVE;
    record[14] = 0;
    record
};

/// The word of 10000 with that record, worked as `FIVE_WORD`: rows 0 to 4 are x[i] + p[i+1] + q[i]. So p[i]
/// is x[i] + x[i+4] + x[i+1], with ones in places 0, 1 and 4, and p[i+1] has ones in places 4, 0 and 3. With
/// x[i] in place 0 the ones of q are in 3 and 4; with x[i+1] in place 4 those of r are in 0 and 3.
const OTHER_WORD: [u8; 20] = [1, 0, 0, 0, 0, 1, 1, 0, 0, 1, 0, 0, 0, 1, 1, 1, 0, 0, 1, 0];

/// Tenants 1 and 3 have a record 7 each, and the other record is public record 7.
fn shelves_of_five(tenant: u16) -> Asked {
    Asked {
        private: ShelfDraft::new(&[(1, 7, &FIVE), (1, 8, &OTHER_FIVE), (3, 7, &TOY)]).octets(),
        public: ShelfDraft::new(&[(0, 6, &FIVE), (0, 7, &OTHER_FIVE), (0, 8, &FIVE)]).octets(),
        tenant,
        profile: 7,
    }
}

#[test]
fn a_word_is_checked_with_the_own_record_or_the_public_one() {
    for (tenant, own, other) in [(1, true, false), (2, false, true), (4, false, true)] {
        let shelves = shelves_of_five(tenant);
        assert_eq!(hosted_check(&shelves, 5, &FIVE_WORD), Ok(own));
        assert_eq!(hosted_check(&shelves, 5, &OTHER_WORD), Ok(other));
    }
    let shelves = shelves_of_five(3);
    assert_eq!(
        hosted_check(&shelves, 2, &[0, 1, 1, 1, 1, 0, 1, 1]),
        Ok(true)
    );
    assert_eq!(hosted_check(&shelves, 5, &FIVE_WORD), Err(PARAMETER));
}

#[test]
fn other_tenants_records_decide_nothing() {
    // Demand 2: two private shelves that agree on a tenant's records.
    let mut left = shelves(2, 7);
    let mut right = shelves(2, 7);
    let record = plain(1, 3, &[2]).octets();
    left.private = ShelfDraft::new(&[(2, 7, &record)]).octets();
    right.private =
        ShelfDraft::new(&[(1, 7, &[1]), (1, 9, &TOY), (2, 7, &record), (9, 7, &TOY)]).octets();
    let bits = sent(&left, &[0x01]).unwrap();
    assert_eq!(sent(&right, &[0x01]), Ok(bits.clone()));
    assert_eq!(received(&left, &bits), received(&right, &bits));
}

#[test]
fn the_numbers_of_a_lookup_go_first() {
    let mut broken = shelves(1, 7);
    broken.private.push(0);
    let mut public = shelves(1, 7);
    public.public.push(0);
    for (shelves, number) in [
        (shelves(0, 7), TENANT_0),
        (broken, PRIVATE_SHELF),
        (public, PUBLIC_SHELF),
        (shelves(1, 10), NO_RECORD),
    ] {
        // The block and the bits are refused too, with higher numbers.
        assert_eq!(sent(&shelves, &[]), Err(number));
        assert_eq!(received(&shelves, &[9]), Err(number));
        assert_eq!(hosted_check(&shelves, 9, &[9]), Err(number));
    }
}

#[test]
fn a_record_of_length_0_is_found_and_not_well_formed() {
    assert_eq!(sent(&shelves(3, 7), &[0x01]), Err(RECORD));
    assert_eq!(received(&shelves(3, 7), &[0; 128]), Err(RECORD));
    assert_eq!(hosted_check(&shelves(3, 7), 2, &[0; 8]), Err(RECORD));
}

#[test]
fn then_the_numbers_of_sending() {
    assert_eq!(sent(&shelves(4, 8), &[0x01]), Err(RECORD));
    assert_eq!(sent(&shelves(4, 9), &[0x01]), Err(STAIRCASE));
    assert_eq!(sent(&shelves(4, 7), &[]), Err(BLOCK_LENGTH));
    assert_eq!(sent(&shelves(4, 7), &[0; 14]), Err(MANY_BLOCKS));
    let asked = |layers, g| transfer::Asked { layers, g, ..G_128 };
    let send = |asked| hosted_send(&shelves(4, 7), &[0x01], asked, &mut [0; 127]);
    assert_eq!(send(asked(0, 128)), Err(PARAMETER));
    assert_eq!(send(asked(1, 30)), Err(FEW_PLACES));
    assert_eq!(send(asked(1, 128)), Err(OUTPUT));
    assert_eq!(send(asked(1, 126)), Ok(126));
}

#[test]
fn then_the_numbers_of_receiving() {
    let receive = |a, bits: &[u8], length: usize| {
        let got = Received {
            a,
            ..one_octet(bits)
        };
        hosted_receive(&shelves(4, 7), got, &mut vec![0; length])
    };
    assert_eq!(receive(9, &[0; 128], 1), Err(BLOCK_LENGTH));
    assert_eq!(receive(8, &[0; 129], 1), Err(PARAMETER));
    assert_eq!(receive(112, &[0; 128], 14), Err(MANY_BLOCKS));
    assert_eq!(receive(8, &[0; 30], 1), Err(FEW_PLACES));
    assert_eq!(receive(8, &[0; 128], 0), Err(OUTPUT));
    assert_eq!(receive(8, &[2; 128], 1), Err(NO_BIT));
    assert_eq!(receive(8, &[0; 126], 1), Err(SHORT_SHARE));
    assert_eq!(receive(8, &[1; 128], 1), Err(UNSENT));
    assert_eq!(receive(8, &[0; 128], 1), Ok(1));
}

#[test]
fn then_the_numbers_of_checking() {
    let check = |profile, z, word: &[u8]| hosted_check(&shelves(4, profile), z, word);
    assert_eq!(check(8, 3, &[9]), Err(RECORD));
    assert_eq!(check(9, 3, &[9]), Err(STAIRCASE));
    assert_eq!(check(7, 3, &[9; 8]), Err(PARAMETER));
    assert_eq!(check(7, 2, &[9; 7]), Err(PARAMETER));
    assert_eq!(check(7, 2, &[0, 0, 0, 0, 0, 0, 0, 2]), Err(NO_BIT));
    assert_eq!(check(7, 2, &[0, 0, 0, 0, 0, 0, 0, 1]), Ok(false));
    assert_eq!(check(7, 2, &[1, 0, 1, 1, 0, 1, 1, 1]), Ok(true));
}

#[test]
fn a_refusal_changes_nothing() {
    let mut output = [7; 4];
    for shelves in [shelves(0, 7), shelves(1, 10), shelves(3, 7), shelves(4, 9)] {
        assert!(hosted_send(&shelves, &[0x01], G_128, &mut output).is_err());
        assert!(hosted_receive(&shelves, one_octet(&[0; 128]), &mut output).is_err());
    }
    assert_eq!(output, [7; 4]);
}

#[test]
fn a_version_goes_with_the_record_that_is_found() {
    // Tenant 1 has a record of Type 2, everybody else the toy.
    let asked = |tenant| Asked {
        private: ShelfDraft::new(&[(1, 7, &EXTENDED)]).octets(),
        public: ShelfDraft::new(&[(0, 7, &TOY)]).octets(),
        tenant,
        profile: 7,
    };
    for (rv, hex) in (0..).zip(EXTENDED_SENT) {
        let bits = bits_of_hex(hex, 176);
        let mut output = vec![7; 176];
        let wanted = transfer::Asked {
            g: 176,
            rv,
            ..G_128
        };
        let count = hosted_send(&asked(1), &[0xa5], wanted, &mut output);
        assert_eq!((count, &output), (Ok(176), &bits));
        let mut octets = [7; 1];
        let got = Received {
            rv,
            ..one_octet(&bits)
        };
        let received = hosted_receive(&asked(1), got, &mut octets);
        assert_eq!((received, octets), (Ok(1), [0xa5]));
        if rv > 0 {
            let count = hosted_send(&asked(2), &[0xa5], wanted, &mut output);
            assert_eq!(count, Err(VERSION));
            let received = hosted_receive(&asked(2), got, &mut octets);
            assert_eq!(received, Err(VERSION));
            // 1 to 4 go before it.
            let received = hosted_receive(&asked(0), got, &mut octets);
            assert_eq!(received, Err(TENANT_0));
        }
    }
}

#[test]
fn an_edition_goes_with_the_record_that_is_found() {
    // Tenant 1 has a record with a Kmax of 40, everybody else the toy, which has no edition 2 but for 9.
    let asked = |tenant| Asked {
        private: ShelfDraft::new(&[(1, 7, &twenty().octets())]).octets(),
        public: ShelfDraft::new(&[(0, 7, &TOY)]).octets(),
        tenant,
        profile: 7,
    };
    for (ed, hex) in (1..).zip(TWENTY_SENT) {
        let bits = bits_of_hex(hex, 138);
        let wanted = transfer::Asked {
            g: 138,
            ed,
            ..G_128
        };
        let mut output = vec![7; 138];
        let count = hosted_send(&asked(1), &[1, 2, 3], wanted, &mut output);
        assert_eq!((count, &output), (Ok(138), &bits));
        let got = |ed| Received {
            a: 24,
            ed,
            ..one_octet(&bits)
        };
        let mut octets = [7; 3];
        let received = hosted_receive(&asked(1), got(ed), &mut octets);
        assert_eq!((received, octets), (Ok(3), [1, 2, 3]));
        let received = hosted_receive(&asked(1), got(3 - ed), &mut octets);
        assert_eq!(received, Err(UNSENT));
    }
    let wanted = |ed| transfer::Asked { ed, ..G_128 };
    let send = |tenant, ed| hosted_send(&asked(tenant), &[1], wanted(ed), &mut [0; 128]);
    assert_eq!(send(2, 2), Err(MANY_BLOCKS));
    for ed in [0, 3, u64::MAX] {
        // 1 to 4 go before it.
        assert_eq!(send(0, ed), Err(TENANT_0));
        for tenant in [1, 2] {
            assert_eq!(send(tenant, ed), Err(EDITION));
            let got = Received {
                a: 9,
                ed,
                ..one_octet(&[9])
            };
            let received = hosted_receive(&asked(tenant), got, &mut []);
            assert_eq!(received, Err(EDITION));
        }
    }
}
