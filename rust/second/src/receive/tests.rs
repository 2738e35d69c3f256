//! Receiving: the worked numbers, each refusal, and every kind of damage.

use std::ops::RangeInclusive;

use super::{receive, Received};
use crate::checksum::with_checksum;
use crate::numbers::{
    Number, BLOCK_LENGTH, EDITION, FEW_PLACES, MANY_BLOCKS, NO_BIT, OUTPUT, PARAMETER, RECORD,
    SHORT_SHARE, STAIRCASE, UNSENT, VERSION,
};
use crate::octets::unpacked;
use crate::parity::FILLER;
use crate::random::Random;
use crate::samples::{
    bits_of_hex, five_sixths, half, no_staircase, not_well_formed, plain, plain_extended, twenty,
    EXTENDED, EXTENDED_SENT, TOY, TOY_SENT, TWENTY_SENT,
};
use crate::send::send;
use crate::transfer::{Asked, Transfer};

/// Bits with N_L 1 and Q_m 2, rv 0 and edition 1.
fn plainly(a: u64, bits: &[u8]) -> Received<'_> {
    Received {
        a,
        layers: 1,
        order: 2,
        rv: 0,
        ed: 1,
        bits,
    }
}

/// Receives with room enough.
fn received(record: &[u8], a: u64, place: (u64, u64), bits: &[u8]) -> Result<Vec<u8>, Number> {
    received_in(0, record, a, place, bits)
}

/// The same in a redundancy version.
fn received_in(
    rv: u64,
    record: &[u8],
    a: u64,
    (layers, order): (u64, u64),
    bits: &[u8],
) -> Result<Vec<u8>, Number> {
    let got = Received {
        layers,
        order,
        rv,
        ..plainly(a, bits)
    };
    received_as(record, got)
}

/// The same with all that is asked for.
fn received_as(record: &[u8], got: Received) -> Result<Vec<u8>, Number> {
    let mut output = vec![0; 2048];
    let count = receive(record, got, &mut output)?;
    output.truncate(count);
    Ok(output)
}

/// The bits of a block that is sent.
fn sent(record: &[u8], block: &[u8], place: (u64, u64), g: usize) -> Vec<u8> {
    sent_in(0, record, block, place, g)
}

/// The same in a redundancy version.
fn sent_in(rv: u64, record: &[u8], block: &[u8], (layers, order): (u64, u64), g: usize) -> Vec<u8> {
    let mut output = vec![0; g];
    let asked = Asked {
        layers,
        order,
        g: g as u64,
        rv,
        ed: 1,
    };
    assert_eq!(send(record, block, asked, &mut output), Ok(g));
    output
}

fn octets(count: usize, random: &mut Random) -> Vec<u8> {
    (0..count).map(|_| random.octet()).collect()
}

#[test]
fn the_toy_receives_octet_01() {
    // Document 01, P10 and the lines after it.
    let bits = sent(&TOY, &[0x01], (1, 2), 128);
    assert_eq!(received(&TOY, 8, (1, 2), &bits), Ok(vec![0x01]));
    // "G 30: both answer 10. G 129: 8."
    assert_eq!(received(&TOY, 8, (1, 2), &[0; 30]), Err(FEW_PLACES));
    assert_eq!(received(&TOY, 8, (1, 2), &[0; 129]), Err(PARAMETER));
}

#[test]
fn the_copies_of_the_spare_places_are_compared() {
    for (octet, g, hex) in TOY_SENT {
        let bits = bits_of_hex(hex, g);
        // With G 126 the last block is short, and no other: six bits for its eight places.
        let expected = if g == 126 {
            Err(SHORT_SHARE)
        } else {
            Ok(vec![octet])
        };
        assert_eq!(received(&TOY, 8, (1, 2), &bits), expected, "{octet} {g}");
    }
    // With G 130 and more the first block has ten bits, and the last two of them are copies.
    for (octet, g, hex) in TOY_SENT.into_iter().filter(|(_, g, _)| *g >= 130) {
        let mut changed = bits_of_hex(hex, g);
        changed[9] = 1 - changed[9];
        assert_eq!(
            received(&TOY, 8, (1, 2), &changed),
            Err(UNSENT),
            "{octet} {g}"
        );
    }
}

#[test]
fn equal_shares_and_zeros_behind_them_are_not_sent_any_more() {
    // What document 01 said before CR 1: with G 130 the bits of G 128 and two zeros.
    for octet in [0x01, 0xc0, 0xff] {
        let before = [sent(&TOY, &[octet], (1, 2), 128), vec![0; 2]].concat();
        assert_eq!(received(&TOY, 8, (1, 2), &before), Err(UNSENT), "{octet}");
    }
    // The spare place in the last block, whose word is P8's with C0.
    let bits = sent(&TOY, &[0xc0], (1, 2), 128);
    let late = [&bits[..], &[1, 0]].concat();
    assert_eq!(received(&TOY, 8, (1, 2), &late), Err(UNSENT));
}

#[test]
fn what_was_sent_is_received() {
    let mut random = Random::new(1);
    for (record, lengths, place, shares) in [
        (
            TOY.to_vec(),
            &[1, 2, 12, 13][..],
            (1, 2),
            [8, 10, 14, 16, 30],
        ),
        (
            plain(1, 3, &[3]).octets(),
            &[1, 5, 20],
            (2, 2),
            [12, 16, 20, 24, 48],
        ),
        (
            plain(2, 4, &[3, 5, 9]).octets(),
            &[1, 2, 7],
            (1, 4),
            [56, 60, 64, 108, 112],
        ),
        (
            half().octets(),
            &[37, 118, 119],
            (3, 6),
            [1944, 1962, 3888, 5400, 9000],
        ),
        (
            five_sixths().octets(),
            &[64, 131, 200],
            (4, 6),
            [1944, 1968, 2400, 3888, 4008],
        ),
    ] {
        for &length in lengths {
            let block = octets(length, &mut random);
            let a = 8 * length as u64;
            let blocks = crate::plan::plan(&record, length as u64, 1).unwrap().c;
            let bits_of_a_place = usize::try_from(place.0 * place.1).unwrap();
            for share in shares {
                // No spare place, one, some, and one for every block but the last.
                for spare in [0, 1.min(blocks - 1), blocks / 2, blocks - 1] {
                    let g = share * blocks + bits_of_a_place * spare;
                    let bits = sent(&record, &block, place, g);
                    assert_eq!(received(&record, a, place, &bits), Ok(block.clone()));
                }
            }
        }
    }
}

#[test]
fn the_longest_block_comes_back() {
    let mut random = Random::new(2);
    let block = octets(2048, &mut random);
    let bits = sent(&half().octets(), &block, (2, 2), 65_536);
    assert_eq!(received(&half().octets(), 16_384, (2, 2), &bits), Ok(block));
}

#[test]
fn every_changed_bit_is_noticed() {
    // Toy: eight coded places and two copies; with G 162 two more in the first block, with G 190 in
    // all but the last. A changed bit in any block, systematic, parity or copy, gives bits that no
    // block is sent as.
    for g in [162, 190] {
        let bits = sent(&TOY, &[0x01], (1, 2), g);
        assert_eq!(received(&TOY, 8, (1, 2), &bits), Ok(vec![0x01]));
        for place in 0..g {
            let mut changed = bits.clone();
            changed[place] = 1 - changed[place];
            assert_eq!(received(&TOY, 8, (1, 2), &changed), Err(UNSENT), "{place}");
        }
    }
}

#[test]
fn every_changed_word_is_noticed() {
    // A block's systematic bits changed along with its parity and its copies: only the checksum
    // is not right then. With G 170 the first five blocks have twelve bits and the others ten.
    let words: Vec<Vec<u8>> = [0x00, 0x7b, 0xb7, 0xcc]
        .map(|octet| unpacked(&[octet]))
        .to_vec();
    for (g, longer) in [(160, 0), (170, 5)] {
        let bits = sent(&TOY, &[0x01], (1, 2), g);
        for r in 0..16 {
            let start = 10 * r + 2 * longer.min(r);
            let share = if r < longer { 12 } else { 10 };
            for word in &words {
                let mut changed = bits.clone();
                let places = changed[start..start + share].iter_mut();
                places
                    .zip(word.iter().cycle())
                    .for_each(|(to, bit)| *to = *bit);
                let same = (changed == bits).then(|| vec![0x01]);
                assert_eq!(received(&TOY, 8, (1, 2), &changed), same.ok_or(UNSENT));
            }
        }
    }
}

#[test]
fn another_checksum_is_another_block_or_none() {
    // The bits of octet 01 with those of octet 02's checksum.
    let left = sent(&TOY, &[0x01], (1, 2), 128);
    let right = sent(&TOY, &[0x02], (1, 2), 128);
    let mixed = [&left[..32], &right[32..]].concat();
    assert_eq!(received(&TOY, 8, (1, 2), &mixed), Err(UNSENT));
    assert_eq!(received(&TOY, 8, (1, 2), &right), Ok(vec![0x02]));
}

#[test]
fn all_bits_zero_are_the_block_of_zeros() {
    assert_eq!(received(&TOY, 8, (1, 2), &[0; 128]), Ok(vec![0]));
    assert_eq!(received(&TOY, 8, (1, 2), &[1; 128]), Err(UNSENT));
}

#[test]
fn octets_over_1_are_refused_wherever_they_stand() {
    let bits = sent(&TOY, &[0x01], (1, 2), 162);
    for place in 0..162 {
        for octet in [2, 3, 128, 255] {
            let mut changed = bits.clone();
            changed[place] = octet;
            assert_eq!(received(&TOY, 8, (1, 2), &changed), Err(NO_BIT), "{place}");
        }
    }
}

/// The least G, of those that are tried with N_L 1 and Q_m 2, with which what is sent is received; with
/// every lower one the answer is 13, and with every higher one the block comes back.
fn least_with_room(record: &[u8], block: &[u8], tried: RangeInclusive<usize>) -> usize {
    let mut least = None;
    for g in tried.step_by(2) {
        let bits = sent(record, block, (1, 2), g);
        match received(record, 8 * block.len() as u64, (1, 2), &bits) {
            Ok(octets) => {
                assert_eq!(octets, block);
                least = least.or(Some(g));
            }
            number => assert_eq!((number, least), (Err(SHORT_SHARE), None), "{g}"),
        }
    }
    least.unwrap()
}

#[test]
fn every_block_needs_room_for_its_places() {
    // Toy, one octet: sixteen blocks of 8 places.
    assert_eq!(least_with_room(&TOY, &[0x5a], 32..=200), 128);
    // Kb 1, z 3, one octet: ten blocks of 12 places, the last of 11, which need 6 symbol places too.
    let record = plain(1, 3, &[3]).octets();
    assert_eq!(least_with_room(&record, &[0x5a], 22..=200), 132);
    // Kb 2, m 3, z 16, one octet: one block of 32 bits and no filler, N 80.
    let record = plain(2, 3, &[16]).octets();
    assert_eq!(least_with_room(&record, &[0x5a], 2..=100), 80);
    // Damage does not matter where there is no room.
    let mut bits = sent(&TOY, &[0x01], (1, 2), 126);
    bits[0] = 1;
    bits[125] = 1;
    assert_eq!(received(&TOY, 8, (1, 2), &bits), Err(SHORT_SHARE));
}

#[test]
fn one_block_short_of_room_is_enough() {
    // Toy: with G 126 it is the last of sixteen, with G 124 the last two.
    for g in [126, 124] {
        let bits = sent(&TOY, &[0x01], (1, 2), g);
        assert_eq!(received(&TOY, 8, (1, 2), &bits), Err(SHORT_SHARE));
    }
    // Kb 1, m 3, z 27: 5 octets are 64 bits, cut into 22, 21 and 21, so N is 103, 102 and 102. With
    // G 306 each block has 102 bits and the first is short; with G 308 it has 104.
    let record = plain(1, 3, &[27]).octets();
    assert_eq!(least_with_room(&record, &[9; 5], 300..=320), 308);
}

#[test]
fn the_first_blocks_have_room_by_their_spare_place() {
    // Kb 2, m 3, z 3: 32 bits are cut into 6, 6, 5, 5, 5 and 5, so N is 15 or 14. With G 88 the shares
    // are 16, 16, 14, 14, 14 and 14; with G 86 the second is 14 and short, and no other is.
    let record = plain(2, 3, &[3]).octets();
    assert_eq!(least_with_room(&record, &[0x5a], 12..=130), 88);
    // Kb 1, m 4, z 5: 32 bits are cut into 5, 5, 5, 5, 4, 4 and 4, so N is 25 or 24. With symbol places
    // of 6 bits four blocks need 5 of them and three need 4: 32 places, which are 192 bits.
    let record = plain(1, 4, &[5]).octets();
    for (g, expected) in [(186, Err(SHORT_SHARE)), (192, Ok(vec![0x5a]))] {
        let bits = sent(&record, &[0x5a], (1, 6), g);
        assert_eq!(received(&record, 8, (1, 6), &bits), expected, "{g}");
    }
}

#[test]
fn a_is_8_times_the_octets() {
    let record = half().octets();
    for a in [
        0,
        1,
        7,
        9,
        295,
        297,
        16_383,
        16_385,
        16_392,
        1 << 32,
        u64::MAX - 7,
        u64::MAX,
    ] {
        assert_eq!(
            received(&record, a, (1, 2), &[0; 2000]),
            Err(BLOCK_LENGTH),
            "{a}"
        );
    }
    assert_eq!(received(&record, 296, (1, 2), &[0; 2000]), Ok(vec![0; 37]));
    // The bits of one octet are not those of two.
    let bits = sent(&TOY, &[0x01], (1, 2), 160);
    assert_eq!(received(&TOY, 8, (1, 2), &bits), Ok(vec![0x01]));
    assert_eq!(received(&TOY, 16, (1, 2), &bits), Err(UNSENT));
    assert_eq!(received(&TOY, 112, (1, 2), &bits), Err(MANY_BLOCKS));
}

#[test]
fn layers_order_and_bits_are_those_of_step_5() {
    let bits = sent(&TOY, &[0x01], (1, 2), 192);
    for (layers, order) in [
        (0, 2),
        (5, 2),
        (1, 0),
        (1, 3),
        (1, 8),
        (u64::MAX, 2),
        (1, u64::MAX),
    ] {
        assert_eq!(received(&TOY, 8, (layers, order), &bits), Err(PARAMETER));
    }
    for order in [2, 4, 6] {
        assert_eq!(received(&TOY, 8, (1, order), &bits), Ok(vec![0x01]));
    }
    assert_eq!(received(&TOY, 8, (1, 2), &vec![0; 65_536]), Ok(vec![0]));
    assert_eq!(received(&TOY, 8, (1, 2), &vec![0; 65_538]), Err(PARAMETER));
    assert_eq!(received(&TOY, 8, (1, 2), &vec![0; 131_072]), Err(PARAMETER));
    assert_eq!(received(&TOY, 8, (1, 2), &[]), Err(FEW_PLACES));
}

#[test]
fn the_output_has_room_for_the_octets() {
    let bits = sent(&TOY, &[1, 2, 3], (1, 2), 192);
    for length in 0..3 {
        let mut output = vec![7; length];
        let number = receive(&TOY, plainly(24, &bits), &mut output);
        assert_eq!(number, Err(OUTPUT));
        assert_eq!(output, vec![7; length]);
    }
    let mut output = [7; 5];
    assert_eq!(receive(&TOY, plainly(24, &bits), &mut output), Ok(3));
    assert_eq!(output, [1, 2, 3, 7, 7]);
}

#[test]
fn a_refusal_changes_nothing() {
    // A slip of document 01: "Octets written to the output before the checksum has been tested."
    let mut bits = sent(&TOY, &[1, 2, 3], (1, 2), 192);
    bits[191] = 1 - bits[191];
    let mut output = [7; 5];
    let number = receive(&TOY, plainly(24, &bits), &mut output);
    assert_eq!(number, Err(UNSENT));
    assert_eq!(output, [7; 5]);
}

#[test]
fn the_lowest_number_is_answered() {
    let receive = |record: &[u8], a, layers, bits: &[u8], length: usize| {
        let got = Received {
            layers,
            ..plainly(a, bits)
        };
        receive(record, got, &mut vec![0; length])
    };
    assert_eq!(receive(&not_well_formed(), 9, 0, &[9], 0), Err(RECORD));
    assert_eq!(receive(&no_staircase(), 9, 0, &[9], 0), Err(STAIRCASE));
    assert_eq!(receive(&TOY, 9, 0, &[9], 0), Err(BLOCK_LENGTH));
    assert_eq!(receive(&TOY, 112, 0, &[9], 0), Err(PARAMETER));
    assert_eq!(receive(&TOY, 112, 1, &[9], 0), Err(PARAMETER));
    assert_eq!(receive(&TOY, 112, 1, &[9; 2], 0), Err(MANY_BLOCKS));
    assert_eq!(receive(&TOY, 8, 1, &[9; 30], 0), Err(FEW_PLACES));
    assert_eq!(receive(&TOY, 8, 1, &[9; 32], 0), Err(OUTPUT));
    assert_eq!(receive(&TOY, 8, 1, &[9; 32], 1), Err(NO_BIT));
    assert_eq!(receive(&TOY, 8, 1, &[1; 32], 1), Err(SHORT_SHARE));
    assert_eq!(receive(&TOY, 8, 1, &[1; 128], 1), Err(UNSENT));
}

#[test]
fn octet_a5_in_each_version() {
    // Document 02, CR 3: "receiver and sender using the same one".
    for (rv, hex) in (0..).zip(EXTENDED_SENT) {
        let bits = bits_of_hex(hex, 176);
        for other in 0..4 {
            let received = received_in(other, &EXTENDED, 8, (1, 2), &bits);
            let expected = if other == rv {
                Ok(vec![0xa5])
            } else {
                Err(UNSENT)
            };
            assert_eq!(received, expected, "{rv} {other}");
        }
        assert_eq!(received_in(4, &EXTENDED, 8, (1, 2), &bits), Err(VERSION));
    }
}

#[test]
fn every_changed_bit_is_noticed_in_each_version() {
    // G 176 gives each of eleven blocks 16 bits for its 15 or 14 places.
    for (rv, hex) in (0..).zip(EXTENDED_SENT) {
        let bits = bits_of_hex(hex, 176);
        for place in 0..176 {
            let mut changed = bits.clone();
            changed[place] = 1 - changed[place];
            let received = received_in(rv, &EXTENDED, 8, (1, 2), &changed);
            assert_eq!(received, Err(UNSENT), "{rv} {place}");
        }
    }
}

#[test]
fn what_was_sent_in_a_version_is_received_in_it() {
    let mut random = Random::new(3);
    for (record, lengths, place, shares) in [
        (
            plain_extended(1, 3, 2, &[2]).octets(),
            &[1, 13][..],
            (1, 2),
            [12, 14, 26],
        ),
        // One block of 32 or 40 bits, K 96: rv 1 starts inside filler.
        (
            plain_extended(6, 3, 3, &[16]).octets(),
            &[1, 2, 9],
            (1, 2),
            [192, 194, 400],
        ),
        (
            plain_extended(2, 4, 36, &[3, 5]).octets(),
            &[1, 2],
            (2, 2),
            [212, 216, 500],
        ),
    ] {
        for &length in lengths {
            let block = octets(length, &mut random);
            let a = 8 * length as u64;
            let blocks = crate::plan::plan(&record, length as u64, 1).unwrap().c;
            for share in shares {
                for rv in 0..4 {
                    let bits = sent_in(rv, &record, &block, place, share * blocks);
                    let received = received_in(rv, &record, a, place, &bits);
                    assert_eq!(received, Ok(block.clone()), "{rv}");
                }
            }
        }
    }
}

#[test]
fn filler_that_a_version_starts_in_is_not_sent() {
    // Of 192 places 64 are filler: 128 bits have room, and 126 have not, whatever the version.
    let record = plain_extended(6, 3, 3, &[16]).octets();
    for rv in 0..4 {
        let bits = sent_in(rv, &record, &[0x5a], (1, 2), 128);
        assert_eq!(received_in(rv, &record, 8, (1, 2), &bits), Ok(vec![0x5a]));
        let bits = sent_in(rv, &record, &[0x5a], (1, 2), 126);
        assert_eq!(received_in(rv, &record, 8, (1, 2), &bits), Err(SHORT_SHARE));
    }
}

#[test]
fn the_version_is_tested_between_7_and_8() {
    let receive = |record: &[u8], a, layers, rv, bits: &[u8]| {
        let got = Received {
            layers,
            rv,
            ..plainly(a, bits)
        };
        receive(record, got, &mut [])
    };
    assert_eq!(receive(&not_well_formed(), 9, 0, 4, &[9]), Err(RECORD));
    assert_eq!(receive(&no_staircase(), 9, 0, 4, &[9]), Err(STAIRCASE));
    assert_eq!(receive(&EXTENDED, 9, 0, 4, &[9]), Err(BLOCK_LENGTH));
    assert_eq!(receive(&EXTENDED, 8, 0, 4, &[9]), Err(VERSION));
    assert_eq!(receive(&TOY, 8, 0, 1, &[9]), Err(VERSION));
    assert_eq!(receive(&TOY, 8, 0, 0, &[9]), Err(PARAMETER));
    assert_eq!(receive(&EXTENDED, 8, 0, 3, &[9]), Err(PARAMETER));
    assert_eq!(receive(&EXTENDED, 2048, 1, 3, &[9; 2]), Err(MANY_BLOCKS));
    assert_eq!(receive(&EXTENDED, 8, 1, 3, &[9; 20]), Err(FEW_PLACES));
    assert_eq!(receive(&EXTENDED, 8, 1, 3, &[9; 22]), Err(OUTPUT));
}

/// Received in edition 2, with N_L 1 and Q_m 2.
fn second(record: &[u8], a: u64, bits: &[u8]) -> Result<Vec<u8>, Number> {
    received_as(
        record,
        Received {
            ed: 2,
            ..plainly(a, bits)
        },
    )
}

/// A transfer in edition 2, with N_L 1 and Q_m 2.
fn transfer(record: &[u8], a: u64, g: u64, rv: u64) -> Transfer {
    let asked = Asked {
        layers: 1,
        order: 2,
        g,
        rv,
        ed: 2,
    };
    Transfer::new(record, a, asked).unwrap()
}

#[test]
fn octets_010203_in_each_edition() {
    // Worked out beforehand. "Demand 3 holds within one edition, never across two."
    let record = twenty().octets();
    let [one, two] = TWENTY_SENT.map(|hex| bits_of_hex(hex, 138));
    assert_eq!(received(&record, 24, (1, 2), &one), Ok(vec![1, 2, 3]));
    assert_eq!(second(&record, 24, &two), Ok(vec![1, 2, 3]));
    assert_eq!(received(&record, 24, (1, 2), &two), Err(UNSENT));
    assert_eq!(second(&record, 24, &one), Err(UNSENT));
}

#[test]
fn zeros_are_received_in_either_edition() {
    let record = twenty().octets();
    assert_eq!(received(&record, 24, (1, 2), &[0; 138]), Ok(vec![0; 3]));
    assert_eq!(second(&record, 24, &[0; 138]), Ok(vec![0; 3]));
    assert_eq!(second(&record, 24, &[1; 138]), Err(UNSENT));
}

#[test]
fn what_was_sent_in_edition_2_is_received_in_it() {
    let mut random = Random::new(8);
    for (record, lengths, share) in [
        (twenty().octets(), &[1, 2, 3, 40, 125][..], 46),
        (plain(1, 3, &[25]).octets(), &[1, 5], 100),
        (plain(1, 3, &[32, 56, 60]).octets(), &[1, 5, 11], 240),
        (half().octets(), &[37, 118, 119, 300], 1944),
    ] {
        for &length in lengths {
            let block = octets(length, &mut random);
            let a = 8 * length as u64;
            let blocks = crate::plan::plan(&record, length as u64, 2).unwrap().c as u64;
            for spare in [0, 1, blocks - 1, blocks] {
                let bits = transfer(&record, a, share * blocks + 2 * spare, 0).sent(&block);
                assert_eq!(second(&record, a, &bits), Ok(block.clone()), "{length}");
            }
        }
    }
}

#[test]
fn the_longest_block_comes_back_in_edition_2() {
    let mut random = Random::new(9);
    let block = octets(2048, &mut random);
    let record = half().octets();
    let bits = transfer(&record, 16_384, 65_536, 0).sent(&block);
    assert_eq!(second(&record, 16_384, &bits), Ok(block));
}

#[test]
fn every_changed_bit_is_noticed_in_edition_2() {
    // Three blocks of 46 places, with two copies, or four in the first.
    let record = twenty().octets();
    for g in [144, 146] {
        let bits = transfer(&record, 24, g, 0).sent(&[1, 2, 3]);
        assert_eq!(second(&record, 24, &bits), Ok(vec![1, 2, 3]));
        for place in 0..bits.len() {
            let mut changed = bits.clone();
            changed[place] = 1 - changed[place];
            assert_eq!(second(&record, 24, &changed), Err(UNSENT), "{place}");
        }
    }
}

/// The bits of octets 010203 where the code blocks that are named have other bits in the place of their checksum.
/// The parity is that of those bits.
fn with_sums(blocks: &[usize], other: impl Fn(&[u8]) -> Vec<u8>) -> Vec<u8> {
    let transfer = transfer(&twenty().octets(), 24, 138, 0);
    transfer.sent_with(&[1, 2, 3], |r, own| {
        let mut places = transfer.places(own);
        if blocks.contains(&r) {
            let sum = other(&places[own.len()..]);
            places.truncate(own.len());
            places.extend(sum);
        }
        places
    })
}

#[test]
fn a_wrong_checksum_is_noticed_in_each_block() {
    // A slip: "only the last block's sum tested", or all but it.
    let record = twenty().octets();
    assert_eq!(
        second(&record, 24, &with_sums(&[], <[u8]>::to_vec)),
        Ok(vec![1, 2, 3])
    );
    for blocks in [&[0][..], &[1], &[2], &[0, 1], &[0, 1, 2]] {
        for place in 0..24 {
            let bits = with_sums(blocks, |sum| {
                let mut sum = sum.to_vec();
                sum[place] = 1 - sum[place];
                sum
            });
            // Every parity row is even.
            for word in bits.chunks(46) {
                assert_eq!(crate::parity::check(&record, 2, word), Ok(true));
            }
            assert_eq!(second(&record, 24, &bits), Err(UNSENT), "{blocks:?}");
        }
        let turned = with_sums(blocks, |sum| sum.iter().map(|bit| 1 - bit).collect());
        assert_eq!(second(&record, 24, &turned), Err(UNSENT));
        let zeros = with_sums(blocks, |_| vec![0; 24]);
        assert_eq!(second(&record, 24, &zeros), Err(UNSENT));
    }
}

#[test]
fn a_checksum_of_24a_is_none_of_24b() {
    let transfer = transfer(&twenty().octets(), 24, 138, 0);
    for wrong in 0..3 {
        let bits = transfer.sent_with(&[1, 2, 3], |r, own| {
            if r == wrong {
                with_checksum(own)
            } else {
                transfer.places(own)
            }
        });
        assert_eq!(
            second(&twenty().octets(), 24, &bits),
            Err(UNSENT),
            "{wrong}"
        );
    }
}

#[test]
fn a_checksum_behind_the_filler_is_noticed() {
    // Kb 1, m 3, z 60: 32 bits, 24, and 4 places of filler. The same bits are sent, but for the parity.
    let record = plain(1, 3, &[60]).octets();
    let block = [0xde, 0xad, 0xbe, 0xef, 0x5a];
    let transfer = transfer(&record, 40, 472, 0);
    let right = transfer.sent(&block);
    assert_eq!(second(&record, 40, &right), Ok(block.to_vec()));
    let bits = transfer.sent_with(&block, |_, own| {
        let sum = &transfer.places(own)[32..56];
        [own, &[FILLER; 4], sum].concat()
    });
    assert_eq!(bits[..56], right[..56]);
    assert_eq!(second(&record, 40, &bits), Err(UNSENT));
}

#[test]
fn one_block_has_no_checksum_of_its_own() {
    // Kb 4, m 3, z 16, one octet: 32 bits of 64, which would have room for 24 more.
    let record = plain(4, 3, &[16]).octets();
    let transfer = transfer(&record, 8, 112, 0);
    let bits = transfer.sent(&[0x5a]);
    assert_eq!(bits, sent(&record, &[0x5a], (1, 2), 112));
    assert_eq!(second(&record, 8, &bits), Ok(vec![0x5a]));
    // The bits of edition 1 with no room for all of them.
    assert_eq!(second(&record, 8, &bits[..78]), Err(SHORT_SHARE));
    assert_eq!(second(&record, 8, &bits[..80]), Ok(vec![0x5a]));
}

#[test]
fn room_is_needed_for_the_checksum_too() {
    // Three blocks of 46 places: 69 symbol places have room, 68 have not.
    let record = twenty().octets();
    for (g, expected) in [(138, Ok(vec![1, 2, 3])), (136, Err(SHORT_SHARE))] {
        let bits = transfer(&record, 24, g, 0).sent(&[1, 2, 3]);
        assert_eq!(second(&record, 24, &bits), expected, "{g}");
    }
    // Edition 1 has two blocks of 24 bits and 6: 60 bits have room.
    let bits = sent(&record, &[1, 2, 3], (1, 2), 60);
    assert_eq!(received(&record, 24, (1, 2), &bits), Ok(vec![1, 2, 3]));
    assert_eq!(second(&record, 24, &bits), Err(SHORT_SHARE));
}

#[test]
fn edition_2_in_each_version() {
    // Kb 1, m 3, x 1, z 28: D 140. Of 8 blocks each has 4 bits and 24. And kb 1, z 40, 48 and 60: filler.
    for record in [
        plain_extended(1, 3, 1, &[28]).octets(),
        plain_extended(1, 3, 1, &[40, 48, 60]).octets(),
    ] {
        for length in [1, 5] {
            let a = 8 * length as u64;
            let mut random = Random::new(10);
            let block = octets(length, &mut random);
            let blocks = crate::plan::plan(&record, length as u64, 2).unwrap().c as u64;
            for rv in 0..4 {
                let bits = transfer(&record, a, 320 * blocks, rv).sent(&block);
                for other in 0..4 {
                    let got = Received {
                        rv: other,
                        ed: 2,
                        ..plainly(a, &bits)
                    };
                    let expected = (other == rv).then(|| block.clone()).ok_or(UNSENT);
                    assert_eq!(received_as(&record, got), expected, "{length} {rv} {other}");
                }
            }
        }
    }
}

#[test]
fn the_edition_is_tested_before_7() {
    let receive = |record: &[u8], a, layers, rv, ed, bits: &[u8]| {
        let got = Received {
            layers,
            rv,
            ed,
            ..plainly(a, bits)
        };
        receive(record, got, &mut [])
    };
    for ed in [0, 3, 258, 1 << 32 | 1, u64::MAX] {
        assert_eq!(receive(&not_well_formed(), 9, 0, 4, ed, &[9]), Err(RECORD));
        assert_eq!(receive(&no_staircase(), 9, 0, 4, ed, &[9]), Err(STAIRCASE));
        assert_eq!(receive(&EXTENDED, 9, 0, 4, ed, &[9]), Err(EDITION));
        assert_eq!(receive(&EXTENDED, 8, 0, 4, ed, &[9]), Err(EDITION));
        assert_eq!(receive(&EXTENDED, 8, 1, 0, ed, &[0; 176]), Err(EDITION));
    }
    assert_eq!(receive(&EXTENDED, 9, 0, 4, 2, &[9]), Err(BLOCK_LENGTH));
    assert_eq!(receive(&EXTENDED, 8, 0, 4, 2, &[9]), Err(VERSION));
    assert_eq!(receive(&EXTENDED, 8, 0, 3, 2, &[9]), Err(PARAMETER));
    assert_eq!(receive(&EXTENDED, 8, 1, 3, 2, &[9; 2]), Err(MANY_BLOCKS));
    let record = twenty().octets();
    assert_eq!(receive(&record, 24, 1, 0, 2, &[9; 4]), Err(FEW_PLACES));
    assert_eq!(receive(&record, 24, 1, 0, 2, &[9; 6]), Err(OUTPUT));
    assert_eq!(second(&record, 24, &[9; 6]), Err(NO_BIT));
    assert_eq!(second(&record, 24, &[1; 6]), Err(SHORT_SHARE));
}
