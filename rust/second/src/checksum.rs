//! The checksums of 5G.212 v2.3 section 5.1.1, and 24B of source document 000 (document 02, CR 8), as the
//! remainder of a long division.

use crate::numbers::{Number, NO_BIT, PARAMETER};
use crate::octets::unpacked;

/// The generators as 5.1.1 writes them: the exponents of D that are there, highest first.
const CRC24A: &[usize] = &[24, 23, 18, 17, 14, 11, 10, 7, 6, 5, 4, 3, 1, 0];
const CRC16: &[usize] = &[16, 12, 5, 0];
const CRC8: &[usize] = &[8, 7, 4, 3, 1, 0];

/// The generator that source document 000, section 5.1.1, writes beside these: gCRC24B(D) = D^24 + D^23 + D^6 +
/// D^5 + D + 1.
const CRC24B: &[usize] = &[24, 23, 6, 5, 1, 0];

/// The checksum of single bits, or the number that refuses them (document 01).
pub fn checksum(width: u64, bits: &[u8]) -> Result<u32, Number> {
    let generator = generator(width)?;
    single_bits(bits)?;
    Ok(value(&parity_bits(bits, &generator)))
}

/// The checksum of packed octets, the highest bit of each first, or the number that refuses them.
pub fn checksum_of_octets(width: u64, octets: &[u8]) -> Result<u32, Number> {
    checksum(width, &unpacked(octets))
}

/// "Append the 24 checksum bits of gCRC24A" (document 01, step 1).
pub fn with_checksum(bits: &[u8]) -> Vec<u8> {
    [bits, &parity_bits(bits, &coefficients(CRC24A))].concat()
}

/// The 24B checksum of single bits, or 12. It is that of no width: 24 stays 24A.
pub fn block_checksum(bits: &[u8]) -> Result<u32, Number> {
    single_bits(bits)?;
    Ok(value(&parity_bits(bits, &coefficients(CRC24B))))
}

/// "each block's own bits are followed by their 24B checksum" (document 02, CR 8).
pub fn with_block_checksum(own: &[u8]) -> Vec<u8> {
    [own, &parity_bits(own, &coefficients(CRC24B))].concat()
}

/// The generator of a width as its coefficients, or the number for "a checksum width other than 8, 16
/// or 24".
pub fn generator(width: u64) -> Result<Vec<u8>, Number> {
    exponents(width).map(coefficients).ok_or(PARAMETER)
}

/// The number for "any octet over 1 where single bits are taken", if there is one.
pub fn single_bits(octets: &[u8]) -> Result<(), Number> {
    if octets.iter().any(|&octet| octet > 1) {
        return Err(NO_BIT);
    }
    Ok(())
}

fn exponents(width: u64) -> Option<&'static [usize]> {
    match width {
        24 => Some(CRC24A),
        16 => Some(CRC16),
        8 => Some(CRC8),
        _ => None,
    }
}

/// A polynomial's coefficients, that of the highest power first, as 5.1.1 orders the bits.
fn coefficients(exponents: &[usize]) -> Vec<u8> {
    let degree = exponents[0];
    (0..=degree)
        .map(|place| u8::from(exponents.contains(&(degree - place))))
        .collect()
}

/// The parity bits of 5.1.1. With zeros in their places the division leaves just what has to be
/// taken away there for it to leave nothing, and modulo two taking away is adding.
pub fn parity_bits(bits: &[u8], generator: &[u8]) -> Vec<u8> {
    let degree = generator.len() - 1;
    let mut dividend = bits.to_vec();
    dividend.resize(bits.len() + degree, 0);
    remainder(dividend, generator)
}

/// The last places of the dividend, as many as the generator's degree, after division on paper.
/// The dividend has at least that many places, and the generator begins with a 1.
pub fn remainder(mut dividend: Vec<u8>, generator: &[u8]) -> Vec<u8> {
    let degree = generator.len() - 1;
    let quotient_places = dividend.len() - degree;
    for place in 0..quotient_places {
        if dividend[place] == 1 {
            subtract(&mut dividend[place..], generator);
        }
    }
    dividend.split_off(quotient_places)
}

/// Takes the generator away from the coefficients above it, each modulo two.
fn subtract(coefficients: &mut [u8], generator: &[u8]) {
    for (upper, lower) in coefficients.iter_mut().zip(generator) {
        *upper = (2 + *upper - lower) % 2;
    }
}

/// The number whose binary digits are these bits, the highest first.
pub fn value(bits: &[u8]) -> u32 {
    bits.iter()
        .fold(0, |value, &bit| 2 * value + u32::from(bit))
}

#[cfg(test)]
mod tests {
    use super::{
        block_checksum, checksum, checksum_of_octets, coefficients, parity_bits, remainder, value,
        with_block_checksum, with_checksum, CRC24B,
    };
    use crate::numbers::{NO_BIT, PARAMETER};
    use crate::octets::unpacked;
    use crate::random::Random;
    use crate::samples::{binary, bits};

    const WIDTHS: [u64; 3] = [8, 16, 24];

    fn generator(width: u64) -> Vec<u8> {
        super::generator(width).unwrap()
    }

    fn parity(width: u64, message: &[u8]) -> Vec<u8> {
        parity_bits(message, &generator(width))
    }

    fn remainder_of(width: u64, word: &[u8]) -> Vec<u8> {
        remainder(word.to_vec(), &generator(width))
    }

    fn zeros(width: u64) -> Vec<u8> {
        vec![0; generator(width).len() - 1]
    }

    fn sum(left: &[u8], right: &[u8]) -> Vec<u8> {
        left.iter().zip(right).map(|(l, r)| (l + r) % 2).collect()
    }

    #[test]
    fn generators_without_their_top_bit() {
        // Document 01, step 1.
        assert_eq!(value(&generator(24)[1..]), 0x86_4cfb);
        assert_eq!(value(&generator(16)[1..]), 0x1021);
        assert_eq!(value(&generator(8)[1..]), 0x9b);
        for width in WIDTHS {
            assert_eq!(generator(width)[0], 1);
            assert_eq!(generator(width).len() as u64, width + 1);
        }
    }

    #[test]
    fn worked_numbers() {
        // Document 01, P1 to P5.
        assert_eq!(checksum_of_octets(24, &[0x01]), Ok(0x86_4cfb));
        assert_eq!(checksum_of_octets(24, &[0x02]), Ok(0x8a_d50d));
        assert_eq!(checksum_of_octets(24, &[0x00]), Ok(0));
        assert_eq!(checksum(16, &[1]), Ok(0x1021));
        assert_eq!(checksum(8, &[1]), Ok(0x9b));
    }

    #[test]
    fn published_check_values() {
        // CRC-24/LTE-A, CRC-16/XMODEM and CRC-8/LTE: start zero, no reversal, no final change.
        let digits = b"123456789";
        assert_eq!(checksum_of_octets(24, digits), Ok(0xcd_e703));
        assert_eq!(checksum_of_octets(16, digits), Ok(0x31c3));
        assert_eq!(checksum_of_octets(8, digits), Ok(0xea));
    }

    #[test]
    fn division_by_hand() {
        // 11 times D^8 by g8: 1100000000 less 1100110110 (g8 one place up) leaves 00110110.
        assert_eq!(checksum(8, &[1, 1]), Ok(0b0011_0110));
        // 10 times D^8: less g8 one place up leaves 100110110, less g8 leaves 10101101.
        assert_eq!(checksum(8, &[1, 0]), Ok(0b1010_1101));
    }

    #[test]
    fn no_bits_have_checksum_0() {
        for width in WIDTHS {
            assert_eq!(checksum(width, &[]), Ok(0));
            assert_eq!(checksum_of_octets(width, &[]), Ok(0));
        }
    }

    #[test]
    fn the_transport_checksum_stands_behind_the_bits() {
        // Document 01, P1.
        let word = with_checksum(&unpacked(&[0x01]));
        assert_eq!(word, unpacked(&[0x01, 0x86, 0x4c, 0xfb]));
    }

    #[test]
    fn the_generator_of_code_blocks() {
        // Document 02, CR 8: "gCRC24B, low bits 800063".
        let generator = coefficients(CRC24B);
        assert_eq!((generator.len(), generator[0]), (25, 1));
        assert_eq!(value(&generator[1..]), 0x80_0063);
        assert_eq!(block_checksum(&generator), Ok(0));
        assert_eq!(block_checksum(&[1]), Ok(0x80_0063));
    }

    #[test]
    fn the_checksum_of_code_blocks_has_its_published_check_value() {
        // CRC-24/LTE-B, worked out beforehand.
        let digits = unpacked(b"123456789");
        assert_eq!(block_checksum(&digits), Ok(0x23_ef52));
        assert_eq!(block_checksum(&[]), Ok(0));
        assert_eq!(block_checksum(&[0; 40]), Ok(0));
        // 1 behind the 1: 10 times D^24 leaves 800063 doubled without carry and less the generator, 8000a5.
        assert_eq!(block_checksum(&[1, 0]), Ok(0x80_00a5));
    }

    #[test]
    fn a_code_block_and_its_checksum_leave_nothing_by_24b_alone() {
        let mut random = Random::new(4);
        for length in 0..200 {
            let own = bits(length, &mut random);
            let word = with_block_checksum(&own);
            assert_eq!(word[..length], own);
            let left = |word: &[u8]| remainder(word.to_vec(), &coefficients(CRC24B));
            assert_eq!(left(&word), [0; 24]);
            let zeros = own.iter().all(|&bit| bit == 0);
            // 24A is another one.
            assert_eq!(word == with_checksum(&own), zeros);
            for place in 0..word.len() {
                let mut changed = word.clone();
                changed[place] = 1 - changed[place];
                assert_ne!(left(&changed), [0; 24]);
            }
        }
    }

    #[test]
    fn a_code_blocks_checksum_takes_single_bits() {
        for octet in 2..=255 {
            for place in [0, 1, 50, 99] {
                let mut bits = vec![1; 100];
                bits[place] = octet;
                assert_eq!(block_checksum(&bits), Err(NO_BIT));
            }
        }
    }

    #[test]
    fn zeros_in_front_change_nothing() {
        for width in WIDTHS {
            for count in 0..40 {
                assert_eq!(checksum(width, &vec![0; count]), Ok(0));
                let message = [vec![0; count], vec![1, 0, 1, 1]].concat();
                assert_eq!(checksum(width, &message), checksum(width, &[1, 0, 1, 1]));
            }
        }
    }

    #[test]
    fn a_message_and_its_checksum_leave_nothing() {
        // The sentence of 5.1.1 that defines the parity bits.
        let mut random = Random::new(1);
        for width in WIDTHS {
            for length in 0..200 {
                let message = bits(length, &mut random);
                let word = [message.clone(), parity(width, &message)].concat();
                assert_eq!(remainder_of(width, &word), zeros(width));
            }
        }
    }

    #[test]
    fn every_short_message_and_its_checksum_leave_nothing() {
        for width in WIDTHS {
            for number in 0..1024 {
                let message = binary(number, 10);
                let word = [message.clone(), parity(width, &message)].concat();
                assert_eq!(remainder_of(width, &word), zeros(width));
            }
        }
    }

    #[test]
    fn no_other_bits_after_a_message_leave_nothing() {
        let message = [1, 0, 0, 1, 1, 0, 1];
        let fitting: Vec<u32> = (0..256)
            .filter(|&end| {
                let word = [&message[..], &binary(end, 8)].concat();
                remainder_of(8, &word) == zeros(8)
            })
            .collect();
        assert_eq!(fitting, [checksum(8, &message).unwrap()]);
    }

    #[test]
    fn every_changed_bit_is_seen() {
        let mut random = Random::new(2);
        for width in WIDTHS {
            let message = bits(100, &mut random);
            let word = [message.clone(), parity(width, &message)].concat();
            for place in 0..word.len() {
                let mut changed = word.clone();
                changed[place] = 1 - changed[place];
                assert_ne!(remainder_of(width, &changed), zeros(width));
            }
        }
    }

    #[test]
    fn the_checksum_of_a_sum_is_the_sum_of_the_checksums() {
        let mut random = Random::new(3);
        for width in WIDTHS {
            for length in 0..100 {
                let left = bits(length, &mut random);
                let right = bits(length, &mut random);
                assert_eq!(
                    parity(width, &sum(&left, &right)),
                    sum(&parity(width, &left), &parity(width, &right))
                );
            }
        }
    }

    #[test]
    fn a_multiple_of_the_generator_has_checksum_0() {
        for width in WIDTHS {
            assert_eq!(checksum(width, &generator(width)), Ok(0));
            let multiple = [generator(width), vec![0; 5]].concat();
            assert_eq!(checksum(width, &multiple), Ok(0));
        }
    }

    #[test]
    fn other_widths_are_refused() {
        for width in (0..=300).filter(|width| !WIDTHS.contains(width)) {
            assert_eq!(checksum(width, &[1]), Err(PARAMETER));
            assert_eq!(checksum(width, &[]), Err(PARAMETER));
            assert_eq!(checksum_of_octets(width, &[0xff]), Err(PARAMETER));
        }
        // Widths that are 8, 16 or 24 again in fewer places.
        for top in [1 << 8, 1 << 16, 1 << 32, 1 << 63] {
            for width in WIDTHS {
                assert_eq!(checksum(top + width, &[1]), Err(PARAMETER));
            }
        }
        assert_eq!(checksum(u64::MAX, &[1]), Err(PARAMETER));
    }

    #[test]
    fn octets_over_1_are_refused_wherever_they_stand() {
        for width in WIDTHS {
            for octet in 2..=255 {
                for place in [0, 1, 49, 98, 99] {
                    let mut bits = vec![1; 100];
                    bits[place] = octet;
                    assert_eq!(checksum(width, &bits), Err(NO_BIT));
                }
            }
        }
    }

    #[test]
    fn the_width_is_judged_before_the_octets() {
        assert_eq!(checksum(7, &[2]), Err(PARAMETER));
        assert_eq!(checksum(25, &[255]), Err(PARAMETER));
    }
}
