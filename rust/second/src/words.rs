//! Reads the single words of a request (docs/REQUESTS.md, "Words").

use crate::errors::Fault;

/// The most octets that a word of bits or of places stands for.
pub const BITS_ROOM: usize = 140_000;

/// The most octets of a shelf or a record.
pub const SHELF_ROOM: usize = 70_000;

/// The most octets of a transport block.
pub const BLOCK_ROOM: usize = 4_096;

/// The longest output that is lent.
pub const OUTPUT_ROOM: usize = 140_000;

/// The most digits of a mask, its zeros in front among them: those of a number of 64 bits.
pub const MASK_ROOM: usize = 16;

/// A decimal number. Zeros in front change no value, so any count of them is taken.
pub fn number(word: &[u8]) -> Result<u64, Fault> {
    if word.is_empty() {
        return Err(Fault::Number);
    }
    let mut value: u64 = 0;
    for &character in word {
        let digit = decimal(character).ok_or(Fault::Number)?;
        value = value
            .checked_mul(10)
            .and_then(|tens| tens.checked_add(u64::from(digit)))
            .ok_or(Fault::Number)?;
    }
    Ok(value)
}

/// A number that fits into two octets.
pub fn short(word: &[u8]) -> Result<u16, Fault> {
    u16::try_from(number(word)?).map_err(|_| Fault::Number)
}

/// The length of an output.
pub fn length(word: &[u8]) -> Result<usize, Fault> {
    match usize::try_from(number(word)?) {
        Ok(length) if length <= OUTPUT_ROOM => Ok(length),
        _ => Err(Fault::Long),
    }
}

/// A mask, in hexadecimal. What is over its room is no number, and has no error of its own.
pub fn mask(word: &[u8]) -> Result<u64, Fault> {
    if word.is_empty() || word.len() > MASK_ROOM {
        return Err(Fault::Number);
    }
    let mut value = 0;
    for &character in word {
        let digit = hexadecimal(character).ok_or(Fault::Number)?;
        value = 16 * value + u64::from(digit);
    }
    Ok(value)
}

/// The octets of a word of bits or of places. They may be over 1, or over 2: the call that takes
/// them judges that.
pub fn bits(word: &[u8]) -> Result<Vec<u8>, Fault> {
    if word == b"-" {
        return Ok(Vec::new());
    }
    match word.strip_prefix(b"x:") {
        Some(digits) => octets_of_pairs(digits, BITS_ROOM, Fault::Bits),
        None => octets_of_digits(word),
    }
}

/// Packed octets, as shelves, records and transport blocks are written.
pub fn hex(word: &[u8], room: usize) -> Result<Vec<u8>, Fault> {
    if word == b"-" {
        return Ok(Vec::new());
    }
    octets_of_pairs(word, room, Fault::Hex)
}

fn octets_of_digits(digits: &[u8]) -> Result<Vec<u8>, Fault> {
    if digits.len() > BITS_ROOM {
        return Err(Fault::Long);
    }
    digits
        .iter()
        .map(|&digit| decimal(digit).ok_or(Fault::Bits))
        .collect()
}

fn octets_of_pairs(digits: &[u8], room: usize, broken: Fault) -> Result<Vec<u8>, Fault> {
    // Half an octet at the end would need the room of a whole one.
    if digits.len().div_ceil(2) > room {
        return Err(Fault::Long);
    }
    digits
        .chunks(2)
        .map(|pair| octet_of_pair(pair).ok_or(broken))
        .collect()
}

fn octet_of_pair(pair: &[u8]) -> Option<u8> {
    match *pair {
        [high, low] => Some(16 * hexadecimal(high)? + hexadecimal(low)?),
        _ => None,
    }
}

fn decimal(character: u8) -> Option<u8> {
    match character {
        b'0'..=b'9' => Some(character - b'0'),
        _ => None,
    }
}

fn hexadecimal(character: u8) -> Option<u8> {
    match character {
        b'a'..=b'f' => Some(character - b'a' + 10),
        b'A'..=b'F' => Some(character - b'A' + 10),
        _ => decimal(character),
    }
}

#[cfg(test)]
mod tests {
    use super::{bits, hex, length, mask, number, short, BITS_ROOM, OUTPUT_ROOM, SHELF_ROOM};
    use crate::errors::Fault;

    #[test]
    fn numbers_reach_two_to_the_64_less_1() {
        assert_eq!(number(b"0"), Ok(0));
        assert_eq!(number(b"24"), Ok(24));
        assert_eq!(number(b"18446744073709551615"), Ok(u64::MAX));
        assert_eq!(number(b"18446744073709551616"), Err(Fault::Number));
        assert_eq!(number(b"18446744073709551620"), Err(Fault::Number));
        assert_eq!(number(b"99999999999999999999"), Err(Fault::Number));
        assert_eq!(number(&[b'9'; 1000]), Err(Fault::Number));
    }

    #[test]
    fn zeros_in_front_change_no_number() {
        assert_eq!(number(b"00024"), Ok(24));
        let mut word = vec![b'0'; 1000];
        word.extend_from_slice(b"18446744073709551615");
        assert_eq!(number(&word), Ok(u64::MAX));
    }

    #[test]
    fn a_number_has_digits_and_nothing_else() {
        for word in [
            &b""[..],
            b"-",
            b"+8",
            b"-8",
            b"8.",
            b"0x8",
            b"a",
            b"8\r",
            b"\xb2",
            b"8\0",
        ] {
            assert_eq!(number(word), Err(Fault::Number));
        }
    }

    #[test]
    fn short_numbers_reach_65_535() {
        assert_eq!(short(b"0"), Ok(0));
        assert_eq!(short(b"65535"), Ok(65_535));
        assert_eq!(short(b"00065535"), Ok(65_535));
        for word in [
            &b"65536"[..],
            b"65537",
            b"131071",
            b"4294967296",
            b"18446744073709551615",
            b"18446744073709551616",
            b"-",
            b"q",
        ] {
            assert_eq!(short(word), Err(Fault::Number));
        }
    }

    #[test]
    fn an_output_is_not_longer_than_may_be_lent() {
        assert_eq!(length(b"0"), Ok(0));
        assert_eq!(length(b"140000"), Ok(OUTPUT_ROOM));
        assert_eq!(length(b"000140000"), Ok(OUTPUT_ROOM));
        for word in [&b"140001"[..], b"1400000", b"18446744073709551615"] {
            assert_eq!(length(word), Err(Fault::Long));
        }
        for word in [&b"18446744073709551616"[..], b"-", b"q", b"-1"] {
            assert_eq!(length(word), Err(Fault::Number));
        }
    }

    #[test]
    fn a_mask_is_hexadecimal() {
        assert_eq!(mask(b"0"), Ok(0));
        assert_eq!(mask(b"10"), Ok(16));
        assert_eq!(mask(b"24"), Ok(36));
        assert_eq!(mask(b"1fF"), Ok(511));
        assert_eq!(mask(b"9aBcDeF"), Ok(0x09ab_cdef));
        assert_eq!(mask(b"8000000000000000"), Ok(1 << 63));
        for word in [
            b"ffffffffffffffff",
            b"FFFFFFFFFFFFFFFF",
            b"FFFFffffFFFFffff",
        ] {
            assert_eq!(mask(word), Ok(u64::MAX));
        }
    }

    #[test]
    fn a_mask_has_at_most_16_digits() {
        for zeros in 0..15 {
            let word = [&vec![b'0'; zeros][..], b"f"].concat();
            assert_eq!(mask(&word), Ok(15));
        }
        for count in 17..40 {
            assert_eq!(mask(&vec![b'0'; count]), Err(Fault::Number));
            assert_eq!(mask(&vec![b'1'; count]), Err(Fault::Number));
            assert_eq!(mask(&vec![b'z'; count]), Err(Fault::Number));
        }
        assert_eq!(mask(&vec![b'0'; BITS_ROOM + 1]), Err(Fault::Number));
        assert_eq!(mask(b"00000000000000001"), Err(Fault::Number));
        assert_eq!(mask(b"10000000000000000"), Err(Fault::Number));
    }

    #[test]
    fn a_mask_has_hexadecimal_digits_and_nothing_else() {
        for character in 0..=255u8 {
            let known = character.is_ascii_hexdigit();
            for word in [&[character][..], &[b'1', character], &[character, b'1']] {
                let expected = if known { None } else { Some(Fault::Number) };
                assert_eq!(mask(word).err(), expected);
            }
        }
        for word in [
            &b""[..],
            b"-",
            b"--",
            b"x:",
            b"x:01",
            b"0x1",
            b"0X1",
            b"+1",
            b"-1",
            b"1h",
            b"1_0",
            b"1.0",
            b"f\r",
            b"\xef\xbc\x91",
        ] {
            assert_eq!(mask(word), Err(Fault::Number));
        }
    }

    #[test]
    fn bits_are_digits_or_pairs_or_none() {
        assert_eq!(bits(b"-"), Ok(vec![]));
        assert_eq!(bits(b"0"), Ok(vec![0]));
        assert_eq!(bits(b"0123456789"), Ok((0..10).collect()));
        assert_eq!(bits(b"x:0001ff"), Ok(vec![0, 1, 255]));
        assert_eq!(bits(b"x:09aAfF"), Ok(vec![0x09, 0xaa, 0xff]));
        assert_eq!(bits(b"x:"), Ok(vec![]));
    }

    #[test]
    fn every_octet_can_be_written_as_a_pair() {
        for octet in 0..=255u8 {
            assert_eq!(bits(format!("x:{octet:02x}").as_bytes()), Ok(vec![octet]));
            assert_eq!(bits(format!("x:{octet:02X}").as_bytes()), Ok(vec![octet]));
        }
    }

    #[test]
    fn every_other_character_is_refused_as_a_digit() {
        for character in 0..=255u8 {
            let known = character.is_ascii_digit();
            assert_eq!(bits(&[b'1', character, b'1']).is_ok(), known);
            let known = character.is_ascii_hexdigit();
            assert_eq!(bits(&[b'x', b':', character, b'1']).is_ok(), known);
            assert_eq!(bits(&[b'x', b':', b'1', character]).is_ok(), known);
        }
    }

    #[test]
    fn broken_bits_are_refused() {
        for word in [
            &b"--"[..],
            b"-1",
            b"1-",
            b"x",
            b"x1",
            b"X:01",
            b"x:0",
            b"x:010",
            b"x:x:",
            b"x:-",
            b"0x:01",
            b"1a",
            b"x:0g",
            b"x:+1",
            b"1\r",
        ] {
            assert_eq!(bits(word), Err(Fault::Bits));
        }
    }

    #[test]
    fn bits_have_room_for_their_octets() {
        let digits = |count: usize| vec![b'1'; count];
        let pairs = |digits: usize| [&b"x:"[..], &vec![b'0'; digits]].concat();
        assert_eq!(bits(&digits(BITS_ROOM)).unwrap().len(), BITS_ROOM);
        assert_eq!(bits(&digits(BITS_ROOM + 1)), Err(Fault::Long));
        assert_eq!(bits(&pairs(2 * BITS_ROOM)).unwrap().len(), BITS_ROOM);
        assert_eq!(bits(&pairs(2 * BITS_ROOM - 1)), Err(Fault::Bits));
        assert_eq!(bits(&pairs(2 * BITS_ROOM + 1)), Err(Fault::Long));
        assert_eq!(bits(&pairs(2 * BITS_ROOM + 2)), Err(Fault::Long));
        assert_eq!(bits(&pairs(2 * BITS_ROOM + 3)), Err(Fault::Long));
    }

    #[test]
    fn too_many_octets_go_before_another_character() {
        assert_eq!(bits(&vec![b'z'; BITS_ROOM]), Err(Fault::Bits));
        assert_eq!(bits(&vec![b'z'; BITS_ROOM + 1]), Err(Fault::Long));
    }

    #[test]
    fn packed_octets_are_pairs_or_none() {
        assert_eq!(hex(b"-", 8), Ok(vec![]));
        assert_eq!(hex(b"00", 8), Ok(vec![0]));
        assert_eq!(hex(b"0a1BfF", 8), Ok(vec![0x0a, 0x1b, 0xff]));
        for octet in 0..=255u8 {
            assert_eq!(hex(format!("{octet:02x}").as_bytes(), 8), Ok(vec![octet]));
            assert_eq!(hex(format!("{octet:02X}").as_bytes(), 8), Ok(vec![octet]));
        }
    }

    #[test]
    fn every_other_character_is_refused_in_packed_octets() {
        for character in 0..=255u8 {
            let known = character.is_ascii_hexdigit();
            assert_eq!(hex(&[character, b'1'], 8).is_ok(), known);
            assert_eq!(hex(&[b'1', character], 8).is_ok(), known);
        }
    }

    #[test]
    fn broken_packed_octets_are_refused() {
        for word in [
            &b"--"[..],
            b"-0",
            b"0",
            b"000",
            b"x:00",
            b"0x00",
            b"00-",
            b"0g",
            b"00\r",
            b"\xef\xbc\x90",
        ] {
            assert_eq!(hex(word, 8), Err(Fault::Hex));
        }
    }

    #[test]
    fn packed_octets_have_room() {
        let digits = |count: usize| vec![b'0'; count];
        for room in [1, 7, SHELF_ROOM] {
            assert_eq!(hex(&digits(2 * room), room).unwrap().len(), room);
            assert_eq!(hex(&digits(2 * room - 1), room), Err(Fault::Hex));
            assert_eq!(hex(&digits(2 * room + 1), room), Err(Fault::Long));
            assert_eq!(hex(&digits(2 * room + 2), room), Err(Fault::Long));
            assert_eq!(hex(&vec![b'z'; 2 * room], room), Err(Fault::Hex));
            assert_eq!(hex(&vec![b'z'; 2 * room + 2], room), Err(Fault::Long));
        }
    }
}
