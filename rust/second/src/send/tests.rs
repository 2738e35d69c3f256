//! Sending: the worked numbers, each refusal, and what each step adds.

use super::send;
use crate::checksum::{with_block_checksum, with_checksum};
use crate::numbers::{
    Number, BLOCK_LENGTH, EDITION, FEW_PLACES, MANY_BLOCKS, OUTPUT, PARAMETER, RECORD, STAIRCASE,
    VERSION,
};
use crate::octets::{packed, unpacked};
use crate::parity::{check, encode};
use crate::random::Random;
use crate::samples::{
    bits_of_hex, five_sixths, half, no_staircase, not_well_formed, plain, plain_extended, twenty,
    EXTENDED, EXTENDED_SENT, TOY, TOY_SENT, TWENTY_SENT,
};
use crate::transfer::Asked;

fn asked(layers: u64, order: u64, g: u64) -> Asked {
    Asked {
        layers,
        order,
        g,
        rv: 0,
        ed: 1,
    }
}

/// The same in edition 2.
fn second(asked: Asked) -> Asked {
    Asked { ed: 2, ..asked }
}

/// The same in a redundancy version.
fn with_version(rv: u64, asked: Asked) -> Asked {
    Asked { rv, ..asked }
}

/// Sends with room enough.
fn sent(record: &[u8], block: &[u8], asked: Asked) -> Result<Vec<u8>, Number> {
    let mut output = vec![0; 65_536];
    let count = send(record, block, asked, &mut output)?;
    output.truncate(count);
    Ok(output)
}

fn octets(count: usize, random: &mut Random) -> Vec<u8> {
    (0..count).map(|_| random.octet()).collect()
}

#[test]
fn the_toy_sends_octet_01() {
    // Document 01, P10.
    let expected = [
        0x00, 0x00, 0x00, 0x7b, 0xb7, 0x00, 0x7b, 0xb7, 0x7b, 0x00, 0xcc, 0x00, 0xcc, 0xcc, 0xb7,
        0xcc,
    ];
    let bits = sent(&TOY, &[0x01], asked(1, 2, 128)).unwrap();
    assert_eq!(bits.len(), 128);
    assert_eq!(packed(&bits), expected);
    // "G 30: both answer 10. G 129: 8."
    assert_eq!(sent(&TOY, &[0x01], asked(1, 2, 30)), Err(FEW_PLACES));
    assert_eq!(sent(&TOY, &[0x01], asked(1, 2, 129)), Err(PARAMETER));
}

#[test]
fn the_first_words_of_the_toy_have_the_spare_places() {
    for (octet, g, hex) in TOY_SENT {
        let bits = sent(&TOY, &[octet], asked(1, 2, g as u64));
        assert_eq!(bits, Ok(bits_of_hex(hex, g)), "{octet} {g}");
    }
}

#[test]
fn each_word_of_the_toy_fills_its_own_share() {
    // The words of C0 2A E4 76, from two bits of each to more than two times round. Here "γ = G' mod
    // C" and "ceil(G'/C)" are worked out as they stand.
    let words = [
        0xcc, 0x00, 0x00, 0x00, 0x00, 0xb7, 0xb7, 0xb7, 0xcc, 0xb7, 0x7b, 0x00, 0x7b, 0xcc, 0x7b,
        0xb7,
    ];
    for (layers, order, place) in [(1, 2, 2), (3, 2, 6), (2, 4, 8)] {
        for places in 16_usize..=160 {
            let mut expected = Vec::new();
            for (r, word) in words.iter().enumerate() {
                let each = if r < places % 16 {
                    places.div_ceil(16)
                } else {
                    places / 16
                };
                expected.extend(unpacked(&[*word]).iter().cycle().take(place * each));
            }
            let g = (place * places) as u64;
            let bits = sent(&TOY, &[0xc0], asked(layers, order, g));
            assert_eq!(bits, Ok(expected), "{layers} {order} {g}");
        }
    }
}

#[test]
fn the_toy_sends_13_octets_and_not_14() {
    // Document 01: "13 octets: B 128, C 64, done with room enough. 14 octets: C 68, answer 9."
    let bits = sent(&TOY, &[0xff; 13], asked(1, 2, 512)).unwrap();
    let word = with_checksum(&[1; 104]);
    for (block, pair) in bits.chunks(8).zip(word.chunks(2)) {
        let mut coded = [0; 8];
        assert_eq!(encode(&TOY, 2, pair, &mut coded), Ok(8));
        assert_eq!(block, coded);
    }
    assert_eq!(sent(&TOY, &[0xff; 14], asked(1, 2, 512)), Err(MANY_BLOCKS));
}

#[test]
fn filler_is_not_sent() {
    // Kb 1, z 3, one octet: the last block has 2 bits and one filler, so 11 of its 12 places.
    let record = plain(1, 3, &[3]).octets();
    let bits = sent(&record, &[0xa5], asked(1, 2, 11 * 12)).unwrap();
    let word = with_checksum(&unpacked(&[0xa5]));
    for (r, block) in bits.chunks(12).enumerate() {
        let mut own = word[3 * r..(3 * r + 3).min(32)].to_vec();
        own.resize(3, 2);
        let mut coded = [0; 12];
        assert_eq!(encode(&record, 3, &own, &mut coded), Ok(12));
        let kept: Vec<u8> = coded.into_iter().filter(|&place| place != 2).collect();
        assert_eq!(block[..kept.len()], kept);
        assert_eq!(block[kept.len()..], kept[..12 - kept.len()]);
    }
}

#[test]
fn blocks_of_different_lengths_follow_one_another() {
    // The longest block with rate 1/2: 17 code blocks, of which three carry one bit more.
    let record = half().octets();
    let mut random = Random::new(1);
    let block = octets(2048, &mut random);
    let word = with_checksum(&unpacked(&block));
    // 16,384 symbol places are 17 · 963 and 13, so thirteen blocks have 3,856 bits and four have
    // 3,852; N is 1,938 or 1,937.
    let bits = sent(&record, &block, asked(2, 2, 65_536)).unwrap();
    let mut rest = &bits[..];
    let mut carried = Vec::new();
    for r in 0..17 {
        let own = if r < 3 { 966 } else { 965 };
        let share = if r < 13 { 3856 } else { 3852 };
        let (coded, after) = rest.split_at(share);
        rest = after;
        carried.extend_from_slice(&coded[..own]);
        let filled = [&coded[..own], &vec![0; 972 - own], &coded[own..own + 972]].concat();
        assert_eq!(check(&record, 81, &filled), Ok(true));
        let period = own + 972;
        assert_eq!(coded[period..], coded[..share - period]);
    }
    assert_eq!(rest, []);
    assert_eq!(carried, word);
}

#[test]
fn every_table_is_used() {
    let record = five_sixths().octets();
    let mut random = Random::new(2);
    // 64, 131 and 199 octets are 536, 1,072 and 1,616 bits of 540, 1,080 and 1,620.
    for (count, z, own) in [(64, 27, 536), (131, 54, 1072), (199, 81, 1616)] {
        let block = octets(count, &mut random);
        let bits = sent(&record, &block, asked(1, 6, 24 * 162)).unwrap();
        let zeros = vec![0; 20 * z - own];
        let word = [&bits[..own], &zeros, &bits[own..own + 4 * z]].concat();
        assert_eq!(check(&record, z as u64, &word), Ok(true));
        assert_eq!(bits[..own], with_checksum(&unpacked(&block)));
    }
}

#[test]
fn the_blocks_own_bits_decide_its_stretch() {
    // Two transport blocks that differ in one bit differ in the stretch of that bit, and in those
    // of the checksum.
    let left = sent(&TOY, &[0x00, 0x00], asked(1, 2, 160)).unwrap();
    let right = sent(&TOY, &[0x00, 0x80], asked(1, 2, 160)).unwrap();
    let differing: Vec<usize> = (0..20)
        .filter(|r| left[8 * r..8 * r + 8] != right[8 * r..8 * r + 8])
        .collect();
    assert_eq!(differing[0], 4);
    assert!(differing[1..].iter().all(|&r| r >= 8));
}

#[test]
fn a_block_has_1_to_2048_octets() {
    let record = half().octets();
    let room = asked(1, 2, 65_536);
    for count in [0, 2049, 4096] {
        assert_eq!(sent(&record, &vec![0; count], room), Err(BLOCK_LENGTH));
    }
    for count in [1, 2048] {
        assert!(sent(&record, &vec![0; count], room).is_ok());
    }
}

#[test]
fn layers_order_and_bits_are_those_of_step_5() {
    for (layers, order, g) in [
        (0, 2, 128),
        (5, 2, 160),
        (u64::MAX, 2, 128),
        (1, 0, 128),
        (1, 1, 128),
        (1, 3, 192),
        (1, 8, 128),
        (1, u64::MAX, 128),
        (1, 2, 65_538),
        (1, 2, u64::MAX),
        (1, 4, 130),
        (2, 6, 126),
    ] {
        assert_eq!(
            sent(&TOY, &[0x01], asked(layers, order, g)),
            Err(PARAMETER),
            "{layers} {order} {g}"
        );
    }
    for (layers, order) in [(1, 2), (4, 2), (1, 6), (4, 6), (3, 4)] {
        let g = layers * order * 16;
        assert!(sent(&TOY, &[0x01], asked(layers, order, g)).is_ok());
        assert_eq!(
            sent(&TOY, &[0x01], asked(layers, order, g - layers * order)),
            Err(FEW_PLACES)
        );
    }
    assert_eq!(sent(&TOY, &[0x01], asked(1, 2, 0)), Err(FEW_PLACES));
}

#[test]
fn the_output_has_room_for_g_bits() {
    for length in [0, 1, 126, 127] {
        let mut output = vec![7; length];
        let number = send(&TOY, &[0x01], asked(1, 2, 128), &mut output);
        assert_eq!(number, Err(OUTPUT));
        assert_eq!(output, vec![7; length]);
    }
    let mut output = vec![7; 140];
    assert_eq!(send(&TOY, &[0x01], asked(1, 2, 130), &mut output), Ok(130));
    // The last word is P9's.
    assert_eq!(output[122..130], [1, 1, 0, 0, 1, 1, 0, 0]);
    assert_eq!(output[130..], [7; 10]);
}

#[test]
fn the_lowest_number_is_answered() {
    // Too many octets, and no layer; too many blocks; too few places; no output.
    let send = |record: &[u8], count: usize, asked| send(record, &vec![0; count], asked, &mut []);
    assert_eq!(send(&not_well_formed(), 0, asked(0, 2, 2)), Err(RECORD));
    assert_eq!(send(&no_staircase(), 0, asked(0, 2, 2)), Err(STAIRCASE));
    assert_eq!(send(&TOY, 0, asked(0, 2, 2)), Err(BLOCK_LENGTH));
    assert_eq!(send(&TOY, 2049, asked(0, 2, 2)), Err(BLOCK_LENGTH));
    assert_eq!(send(&TOY, 14, asked(0, 2, 2)), Err(PARAMETER));
    assert_eq!(send(&TOY, 14, asked(1, 2, 2)), Err(MANY_BLOCKS));
    assert_eq!(send(&TOY, 13, asked(1, 2, 2)), Err(FEW_PLACES));
    assert_eq!(send(&TOY, 13, asked(1, 2, 128)), Err(OUTPUT));
}

#[test]
fn octet_a5_in_each_version() {
    // Worked out beforehand.
    for (rv, hex) in (0..).zip(EXTENDED_SENT) {
        let asked = with_version(rv, asked(1, 2, 176));
        let bits = sent(&EXTENDED, &[0xa5], asked);
        assert_eq!(bits, Ok(bits_of_hex(hex, 176)), "{rv}");
    }
    // An rv over 3: 16; behind 7, and before 8.
    let four = with_version(4, asked(1, 2, 176));
    assert_eq!(sent(&EXTENDED, &[0xa5], four), Err(VERSION));
    assert_eq!(sent(&EXTENDED, &[], four), Err(BLOCK_LENGTH));
    let nine = with_version(4, asked(9, 2, 176));
    assert_eq!(sent(&EXTENDED, &[0xa5], nine), Err(VERSION));
}

#[test]
fn type_1_has_version_0_alone() {
    assert!(sent(&TOY, &[0x01], asked(1, 2, 128)).is_ok());
    for rv in [1, 2, 3, 4, 1 << 32, u64::MAX] {
        let asked = with_version(rv, asked(1, 2, 128));
        assert_eq!(sent(&TOY, &[0x01], asked), Err(VERSION), "{rv}");
    }
}

#[test]
fn type_2_without_an_extension_has_versions_all_the_same() {
    // The toy as a record of Type 2: D is 8, so rv 1 starts at the third place of each word.
    let mut record = TOY;
    record[7] = 2;
    let first = sent(&record, &[0xc0], asked(1, 2, 128)).unwrap();
    assert_eq!(Ok(first.clone()), sent(&TOY, &[0xc0], asked(1, 2, 128)));
    for (rv, turned) in [(1, 2), (2, 4), (3, 6)] {
        let bits = sent(&record, &[0xc0], with_version(rv, asked(1, 2, 128))).unwrap();
        for (word, other) in first.chunks(8).zip(bits.chunks(8)) {
            assert_eq!([&word[turned..], &word[..turned]].concat(), other);
        }
    }
}

#[test]
fn a_version_may_start_inside_filler() {
    // Kb 6, m 3, x 3, z 16: 32 bits of K 96, D 192. Places 48 and 96 are the starts of rv 1 and 2, and
    // places 32 to 95 are filler: either begins with the first parity bit.
    let record = plain_extended(6, 3, 3, &[16]).octets();
    let first = sent(&record, &[0x5a], asked(1, 2, 128)).unwrap();
    let parity = [&first[32..], &first[..32]].concat();
    for rv in [1, 2] {
        let bits = sent(&record, &[0x5a], with_version(rv, asked(1, 2, 128)));
        assert_eq!(bits, Ok(parity.clone()), "{rv}");
    }
    // Place 144 is parity bit 48, after the own 32 bits the 80th that is kept.
    let bits = sent(&record, &[0x5a], with_version(3, asked(1, 2, 128)));
    assert_eq!(bits, Ok([&first[80..], &first[..80]].concat()));
}

#[test]
fn the_version_is_tested_between_7_and_8() {
    let send = |record: &[u8], count: usize, asked| send(record, &vec![0; count], asked, &mut []);
    let bad = with_version(4, asked(0, 2, 2));
    assert_eq!(send(&not_well_formed(), 0, bad), Err(RECORD));
    assert_eq!(send(&no_staircase(), 0, bad), Err(STAIRCASE));
    for count in [0, 2049] {
        assert_eq!(send(&EXTENDED, count, bad), Err(BLOCK_LENGTH));
    }
    assert_eq!(send(&EXTENDED, 2048, bad), Err(VERSION));
    assert_eq!(
        send(&TOY, 2048, with_version(1, asked(0, 2, 2))),
        Err(VERSION)
    );
    let good = |asked| with_version(3, asked);
    assert_eq!(send(&EXTENDED, 2048, good(asked(0, 2, 2))), Err(PARAMETER));
    assert_eq!(
        send(&EXTENDED, 2048, good(asked(1, 2, 2))),
        Err(MANY_BLOCKS)
    );
    assert_eq!(send(&EXTENDED, 1, good(asked(1, 2, 2))), Err(FEW_PLACES));
    assert_eq!(send(&EXTENDED, 1, good(asked(1, 2, 22))), Err(OUTPUT));
}

#[test]
fn the_longest_block_at_full_size() {
    // Kb 20, m 4, x 36, z 81: 11 blocks of 1,492 or 1,491 bits, D 4,860, so that rv 2 starts at place 2,430.
    let record = plain_extended(20, 4, 36, &[81]).octets();
    let mut random = Random::new(5);
    let block = octets(2048, &mut random);
    let word = with_checksum(&unpacked(&block));
    let bits = sent(&record, &block, with_version(2, asked(1, 2, 65_536))).unwrap();
    // 32,768 symbol places are 11 · 2,978 and 10.
    let (share, own) = (2 * 2979, 1492);
    let unmarked = own + 40 * 81;
    let first = &bits[..share];
    assert_eq!(first[unmarked..], first[..share - unmarked]);
    // Behind place 2,430 there are 2,430 places, all parity, and then the block's own bits.
    let carried = &first[2430..2430 + own];
    assert_eq!(carried, &word[..own]);
    let parity = [&first[2430 + own..unmarked], &first[..2430]].concat();
    let filled = [carried, &vec![0; 1620 - own], &parity].concat();
    assert_eq!(check(&record, 81, &filled), Ok(true));
}

#[test]
fn octets_010203_in_each_edition() {
    // Worked out beforehand.
    let record = twenty().octets();
    for (ed, hex) in (1..).zip(TWENTY_SENT) {
        let asked = Asked {
            ed,
            ..asked(1, 2, 138)
        };
        let bits = sent(&record, &[1, 2, 3], asked);
        assert_eq!(bits, Ok(bits_of_hex(hex, 138)), "{ed}");
    }
}

#[test]
fn each_block_sends_its_own_bits_and_their_checksum() {
    // The same by hand: 16 bits of the block with its checksum, their 24B, and six parity bits.
    let record = twenty().octets();
    let bits = sent(&record, &[1, 2, 3], second(asked(1, 2, 138))).unwrap();
    let word = with_checksum(&unpacked(&[1, 2, 3]));
    for (stretch, own) in bits.chunks(46).zip(word.chunks(16)) {
        assert_eq!(stretch[..40], with_block_checksum(own));
        assert_eq!(check(&record, 2, stretch), Ok(true));
    }
}

#[test]
fn the_checksum_stands_before_the_filler() {
    // Kb 1, m 3, z 60, 5 octets: two blocks of 32 bits and 24, and 4 places of filler, which are not sent.
    let record = plain(1, 3, &[60]).octets();
    let block = [0xde, 0xad, 0xbe, 0xef, 0x5a];
    let bits = sent(&record, &block, second(asked(1, 2, 2 * 240))).unwrap();
    let word = with_checksum(&unpacked(&block));
    for (stretch, own) in bits.chunks(240).zip(word.chunks(32)) {
        assert_eq!(stretch[..56], with_block_checksum(own));
        let filled = [&stretch[..56], &[0; 4], &stretch[56..236]].concat();
        assert_eq!(check(&record, 60, &filled), Ok(true));
        // N is 236: the first four again.
        assert_eq!(stretch[236..], stretch[..4]);
    }
}

#[test]
fn one_block_is_sent_alike_in_either_edition() {
    let record = half().octets();
    let mut random = Random::new(6);
    for count in [1, 37, 118] {
        let block = octets(count, &mut random);
        let first = sent(&record, &block, asked(1, 2, 4000));
        assert_eq!(sent(&record, &block, second(asked(1, 2, 4000))), first);
    }
    let block = octets(119, &mut random);
    let first = sent(&record, &block, asked(1, 2, 4000));
    assert_ne!(sent(&record, &block, second(asked(1, 2, 4000))), first);
}

#[test]
fn the_longest_block_in_edition_2() {
    // Rate 1/2: 18 blocks, ten of 912 bits and eight of 911. 16,384 symbol places are 18 · 910 and 4.
    let record = half().octets();
    let mut random = Random::new(7);
    let block = octets(2048, &mut random);
    let bits = sent(&record, &block, second(asked(2, 2, 65_536))).unwrap();
    let mut rest = &bits[..];
    let mut all = Vec::new();
    for r in 0..18 {
        let own = if r < 10 { 912 } else { 911 };
        let (coded, after) = rest.split_at(if r < 4 { 3644 } else { 3640 });
        rest = after;
        all.extend_from_slice(&coded[..own]);
        assert_eq!(coded[..own + 24], with_block_checksum(&coded[..own]));
        let (carried, parity) = coded[..own + 24 + 972].split_at(own + 24);
        let word = [carried, &vec![0; 972 - own - 24], parity].concat();
        assert_eq!(check(&record, 81, &word), Ok(true));
    }
    assert_eq!(rest, []);
    assert_eq!(all, with_checksum(&unpacked(&block)));
}

#[test]
fn a_version_counts_the_checksum_too() {
    // Kb 1, m 3, x 1, z 28: one octet is cut into 8 blocks of 4 bits and 24, D 140. Rv 1, 2 and 3 start at
    // places 35, 70 and 105, which are parity.
    let record = plain_extended(1, 3, 1, &[28]).octets();
    let first = sent(&record, &[0x5a], second(asked(1, 2, 8 * 140))).unwrap();
    for (rv, turned) in [(1, 35), (2, 70), (3, 105)] {
        let asked = with_version(rv, second(asked(1, 2, 8 * 140)));
        let bits = sent(&record, &[0x5a], asked).unwrap();
        for (word, other) in first.chunks(140).zip(bits.chunks(140)) {
            assert_eq!([&word[turned..], &word[..turned]].concat(), other);
        }
    }
}

#[test]
fn blocks_without_room_for_a_bit_are_too_many() {
    let one = |z| {
        sent(
            &plain(1, 3, &[z]).octets(),
            &[1],
            second(asked(1, 2, 65_536)),
        )
    };
    assert!(one(32).is_ok() && one(25).is_ok());
    assert_eq!(one(24), Err(MANY_BLOCKS));
    assert_eq!(
        sent(&TOY, &[1], second(asked(1, 2, 65_536))),
        Err(MANY_BLOCKS)
    );
    // 125 octets are 64 blocks, 126 are 65; with as many symbol places, and with one fewer.
    let record = twenty().octets();
    let zeros = |count, g| sent(&record, &vec![0; count], second(asked(1, 2, g)));
    assert_eq!(zeros(125, 128), Ok(vec![0; 128]));
    assert_eq!(zeros(125, 126), Err(FEW_PLACES));
    assert_eq!(zeros(126, 126), Err(MANY_BLOCKS));
}

#[test]
fn the_edition_is_tested_before_7() {
    let send = |record: &[u8], count: usize, asked| send(record, &vec![0; count], asked, &mut []);
    for ed in [0, 3, 257, 1 << 32 | 2, u64::MAX] {
        // No block, an rv over 3, and no layer.
        let bad = Asked {
            ed,
            ..with_version(4, asked(0, 2, 2))
        };
        assert_eq!(send(&not_well_formed(), 0, bad), Err(RECORD));
        assert_eq!(send(&no_staircase(), 0, bad), Err(STAIRCASE));
        for count in [0, 1, 2048, 2049] {
            assert_eq!(send(&EXTENDED, count, bad), Err(EDITION));
        }
    }
    let bad = second(with_version(4, asked(0, 2, 2)));
    assert_eq!(send(&EXTENDED, 0, bad), Err(BLOCK_LENGTH));
    assert_eq!(send(&EXTENDED, 1, bad), Err(VERSION));
    assert_eq!(send(&EXTENDED, 1, second(asked(0, 2, 2))), Err(PARAMETER));
    assert_eq!(send(&EXTENDED, 1, second(asked(1, 2, 2))), Err(MANY_BLOCKS));
    let record = twenty().octets();
    assert_eq!(send(&record, 3, second(asked(1, 2, 4))), Err(FEW_PLACES));
    assert_eq!(send(&record, 3, second(asked(1, 2, 6))), Err(OUTPUT));
}
