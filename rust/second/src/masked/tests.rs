use super::{append, checksum_under, digits, is_appended};
use crate::checksum::{checksum, with_checksum};
use crate::numbers::{NO_BIT, OUTPUT, PARAMETER};
use crate::octets::unpacked;
use crate::random::Random;
use crate::samples::{binary, bits, bits_of_hex};

const WIDTHS: [u64; 3] = [8, 16, 24];

/// The places of a checksum.
fn places(width: u64) -> usize {
    usize::try_from(width).unwrap()
}

/// The bits and their checksum, with just room enough.
fn appended(width: u64, mask: u64, bits: &[u8]) -> Vec<u8> {
    let mut output = vec![7; bits.len() + places(width)];
    let count = append(width, mask, bits, &mut output);
    assert_eq!(count, Ok(output.len()));
    output
}

fn turned(word: &[u8], place: usize) -> Vec<u8> {
    let mut word = word.to_vec();
    word[place] = 1 - word[place];
    word
}

/// Masks below the width, at its edge, past it, and any.
fn masks(width: u64, random: &mut Random) -> Vec<u64> {
    let over = 1 << width;
    let small = 0..5;
    let known = [0x5555, 0xaaaa, 0xffff, 1 << 63, u64::MAX];
    let edge = [over / 2, over - 1, over, over + 1, 2 * over + 1];
    let any: Vec<u64> = (0..5).map(|_| random.next()).collect();
    let below = any.iter().map(|any| any % over);
    small
        .chain(known)
        .chain(edge)
        .chain(below)
        .chain(any.clone())
        .collect()
}

#[test]
fn worked_numbers() {
    // P4 and P5 of document 01, 1021 and 9B, with every bit changed (document 02, CR 9).
    assert_eq!(checksum_under(16, 0xffff, &[1]), Ok(0xefde));
    assert_eq!(checksum_under(8, 0x1ff, &[1]), Ok(0x64));
    let word = bits_of_hex("f7ef00", 17);
    assert_eq!(appended(16, 0xffff, &[1]), word);
    assert_eq!(is_appended(16, 0xffff, &word), Ok(true));
    assert_eq!(is_appended(16, 0, &word), Ok(false));
}

#[test]
fn the_masks_of_the_broadcast_words() {
    // Table 5.3.1.1-1, for 1, 2, 4 and 8 antenna ports: x_{ant,0} stands first.
    assert_eq!(digits(0x0000, 16), [0; 16]);
    assert_eq!(digits(0xffff, 16), [1; 16]);
    assert_eq!(digits(0x5555, 16), [0, 1].repeat(8));
    assert_eq!(digits(0xaaaa, 16), [1, 0].repeat(8));
    // 1021 is 0001 0000 0010 0001.
    assert_eq!(checksum_under(16, 0x5555, &[1]), Ok(0x4574));
    assert_eq!(checksum_under(16, 0xaaaa, &[1]), Ok(0xba8b));
}

#[test]
fn the_highest_bit_of_the_mask_goes_to_the_first_of_the_checksum() {
    let first = [vec![1], vec![0; 15]].concat();
    let last = [vec![0; 15], vec![1]].concat();
    assert_eq!(appended(16, 0x8000, &[]), first);
    assert_eq!(appended(16, 0x0001, &[]), last);
    assert_eq!(checksum_under(16, 0x8000, &[1]), Ok(0x9021));
    assert_eq!(checksum_under(16, 0x0001, &[1]), Ok(0x1020));
    assert_eq!(checksum_under(8, 0x80, &[1]), Ok(0x1b));
    assert_eq!(checksum_under(8, 0x01, &[1]), Ok(0x9a));
    let octet = unpacked(&[0x01]);
    assert_eq!(checksum_under(24, 0x80_0000, &octet), Ok(0x06_4cfb));
    assert_eq!(checksum_under(24, 0x00_0001, &octet), Ok(0x86_4cfa));
}

#[test]
fn a_mask_turned_round_is_another_one() {
    let mut random = Random::new(1);
    for (mask, round) in [(0x0001, 0x8000), (0x5555, 0xaaaa), (0x1021, 0x8408)] {
        for length in 0..40 {
            let message = bits(length, &mut random);
            let word = appended(16, mask, &message);
            assert_ne!(appended(16, round, &message), word);
            assert_eq!(is_appended(16, mask, &word), Ok(true));
            assert_eq!(is_appended(16, round, &word), Ok(false));
        }
    }
}

#[test]
fn a_zero_mask_gives_the_plain_checksum() {
    let mut random = Random::new(2);
    for width in WIDTHS {
        for length in 0..100 {
            let message = bits(length, &mut random);
            let plain = checksum(width, &message).unwrap();
            assert_eq!(checksum_under(width, 0, &message), Ok(plain));
            let word = [message.clone(), binary(plain, places(width))].concat();
            assert_eq!(appended(width, 0, &message), word);
            assert_eq!(is_appended(width, 0, &word), Ok(true));
        }
    }
    let message = bits(100, &mut random);
    assert_eq!(appended(24, 0, &message), with_checksum(&message));
}

#[test]
fn the_mask_is_added_without_carry() {
    let mut random = Random::new(3);
    for width in WIDTHS {
        for mask in masks(width, &mut random) {
            for length in [0, 1, 7, 8, 30] {
                let message = bits(length, &mut random);
                let plain = u64::from(checksum(width, &message).unwrap());
                let sum = u32::try_from((plain ^ mask) % (1 << width)).unwrap();
                assert_eq!(checksum_under(width, mask, &message), Ok(sum));
                let word = [message.clone(), binary(sum, places(width))].concat();
                assert_eq!(appended(width, mask, &message), word);
            }
        }
    }
}

#[test]
fn bits_past_the_width_are_ignored() {
    let mut random = Random::new(4);
    for width in WIDTHS {
        let message = bits(20, &mut random);
        for mask in [0, 1, 0x5a, (1 << width) - 1] {
            let word = appended(width, mask, &message);
            let sum = checksum_under(width, mask, &message);
            for place in width..64 {
                let more = mask + (1 << place);
                assert_eq!(checksum_under(width, more, &message), sum);
                assert_eq!(appended(width, more, &message), word);
                assert_eq!(is_appended(width, more, &word), Ok(true));
            }
        }
        assert_eq!(
            appended(width, u64::MAX, &message),
            appended(width, (1 << width) - 1, &message)
        );
    }
}

#[test]
fn a_word_tests_under_the_masks_that_agree_with_its_own_and_no_other() {
    let mut random = Random::new(5);
    for width in WIDTHS {
        let masks = masks(width, &mut random);
        let agree = |left: u64, right: u64| left % (1 << width) == right % (1 << width);
        for &mask in &masks {
            let message = bits(random.below(50), &mut random);
            let word = appended(width, mask, &message);
            for &other in &masks {
                let tests = is_appended(width, other, &word);
                assert_eq!(tests, Ok(agree(mask, other)), "{width} {mask:x} {other:x}");
            }
        }
    }
}

#[test]
fn every_small_mask_is_told_from_every_other() {
    let message = [1, 0, 0, 1, 1, 0, 1];
    for mask in 0..256 {
        let word = appended(8, mask, &message);
        let fitting: Vec<u64> = (0..256)
            .filter(|&other| is_appended(8, other, &word).unwrap())
            .collect();
        assert_eq!(fitting, [mask]);
    }
}

#[test]
fn no_other_word_tests_than_an_appended_one() {
    for mask in [0, 1, 0x55, 0x80, 0xff, 0x1ff] {
        for number in 0..2048 {
            let word = binary(number, 11);
            let own = appended(8, mask, &word[..3]);
            assert_eq!(is_appended(8, mask, &word), Ok(word == own));
        }
    }
}

#[test]
fn every_changed_bit_is_noticed() {
    let mut random = Random::new(6);
    for width in WIDTHS {
        for mask in masks(width, &mut random) {
            let message = bits(50, &mut random);
            let word = appended(width, mask, &message);
            for place in 0..word.len() {
                let changed = turned(&word, place);
                assert_eq!(is_appended(width, mask, &changed), Ok(false));
            }
        }
    }
}

#[test]
fn a_word_shorter_than_its_checksum_is_no_appended_word() {
    let mut random = Random::new(7);
    for width in WIDTHS {
        for mask in masks(width, &mut random) {
            let own = digits(mask, places(width));
            for length in 0..places(width) {
                // The mask's own digits, cut short on either side, are none either.
                let any = bits(length, &mut random);
                for word in [
                    &any[..],
                    &vec![0; length],
                    &own[..length],
                    &own[own.len() - length..],
                ] {
                    assert_eq!(is_appended(width, mask, word), Ok(false));
                }
            }
        }
    }
}

#[test]
fn nothing_but_a_checksum_is_the_digits_of_the_mask() {
    // "the checksum of an empty input is 0".
    let mut random = Random::new(8);
    for width in WIDTHS {
        for mask in masks(width, &mut random) {
            let own = u32::try_from(mask % (1 << width)).unwrap();
            let word = binary(own, places(width));
            assert_eq!(checksum_under(width, mask, &[]), Ok(own));
            assert_eq!(appended(width, mask, &[]), word);
            assert_eq!(is_appended(width, mask, &word), Ok(true));
            for place in 0..word.len() {
                let changed = turned(&word, place);
                assert_eq!(is_appended(width, mask, &changed), Ok(false));
            }
        }
    }
}

#[test]
fn the_output_has_room_for_the_bits_and_the_checksum() {
    for width in WIDTHS {
        let message = [1, 0, 1];
        let count = message.len() + places(width);
        for length in 0..count {
            let mut output = vec![7; length];
            assert_eq!(append(width, 1, &message, &mut output), Err(OUTPUT));
            assert_eq!(output, vec![7; length]);
        }
        let mut output = vec![7; count + 2];
        assert_eq!(append(width, 1, &message, &mut output), Ok(count));
        let expected = [appended(width, 1, &message), vec![7, 7]].concat();
        assert_eq!(output, expected);
    }
}

#[test]
fn other_widths_are_refused() {
    let near = (0..=300).filter(|width| !WIDTHS.contains(width));
    // Widths that are 8, 16 or 24 again in fewer places.
    let tops = [1 << 8, 1 << 16, 1 << 32, 1 << 63];
    let wrapped = tops.iter().flat_map(|top| WIDTHS.map(|width| top + width));
    for width in near.chain(wrapped).chain([u64::MAX]) {
        for bits in [&[][..], &[1], &[1; 400]] {
            let mut output = [7; 1000];
            assert_eq!(checksum_under(width, 1, bits), Err(PARAMETER));
            assert_eq!(append(width, 1, bits, &mut output), Err(PARAMETER));
            assert_eq!(is_appended(width, 1, bits), Err(PARAMETER));
            assert_eq!(output, [7; 1000]);
        }
    }
}

#[test]
fn octets_over_1_are_refused_wherever_they_stand() {
    for width in WIDTHS {
        for octet in 2..=255 {
            for place in [0, 1, 15, 38, 39] {
                let mut bits = vec![1; 40];
                bits[place] = octet;
                let mut output = [7; 100];
                assert_eq!(checksum_under(width, 0xff, &bits), Err(NO_BIT));
                assert_eq!(append(width, 0xff, &bits, &mut output), Err(NO_BIT));
                assert_eq!(is_appended(width, 0xff, &bits), Err(NO_BIT));
                assert_eq!(output, [7; 100]);
            }
        }
        // In a word that is shorter than its checksum too.
        assert_eq!(is_appended(width, 0, &[2]), Err(NO_BIT));
    }
}

#[test]
fn the_lowest_number_is_answered() {
    assert_eq!(checksum_under(7, 1, &[2]), Err(PARAMETER));
    assert_eq!(is_appended(25, 1, &[2]), Err(PARAMETER));
    for width in [0, 7, 9, 25, u64::MAX] {
        assert_eq!(append(width, 1, &[2], &mut []), Err(PARAMETER));
        assert_eq!(append(width, 1, &[1], &mut []), Err(PARAMETER));
        assert_eq!(append(width, 1, &[2], &mut [7; 100]), Err(PARAMETER));
    }
    for width in WIDTHS {
        let mut output = vec![7; places(width)];
        assert_eq!(append(width, 1, &[2], &mut output), Err(OUTPUT));
        output.push(7);
        assert_eq!(append(width, 1, &[2], &mut output), Err(NO_BIT));
    }
}
