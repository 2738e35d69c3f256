//! Writes the words of requests: numbers, masks, bits and packed octets in each of their forms, and the
//! optional words.

use crate::random::Random;
use crate::words::MASK_ROOM;

/// The words of a request, its name first.
pub type Words = Vec<Vec<u8>>;

/// A request of a name and the words after it.
pub fn request(name: &str, words: impl IntoIterator<Item = Vec<u8>>) -> Words {
    let name = name.as_bytes().to_vec();
    std::iter::once(name).chain(words).collect()
}

pub fn line(words: &Words) -> Vec<u8> {
    words.join(&b' ')
}

/// A number, now and then with zeros in front.
pub fn number(number: u64, random: &mut Random) -> Vec<u8> {
    let zeros = if random.one_in(20) { "000" } else { "" };
    format!("{zeros}{number}").into_bytes()
}

/// A length.
pub fn count(count: usize, random: &mut Random) -> Vec<u8> {
    number(count as u64, random)
}

/// A mask, now and then with zeros in front, and its letters in one case or in both.
pub fn mask(mask: u64, random: &mut Random) -> Vec<u8> {
    let any = 1 + random.below(MASK_ROOM);
    let places = random.pick(&[1, 1, 1, 1, any, MASK_ROOM]);
    let uppers = random.pick(&[&[false][..], &[true], &[false, true]]);
    let mut digits = format!("{mask:0places$x}").into_bytes();
    for digit in &mut digits {
        if random.pick(uppers) {
            digit.make_ascii_uppercase();
        }
    }
    digits
}

/// The bits as digits where no octet is over 9, else as pairs; now and then as pairs anyway.
pub fn bits(bits: &[u8], random: &mut Random) -> Vec<u8> {
    if bits.is_empty() {
        return random.pick(&[&b"-"[..], b"x:"]).to_vec();
    }
    if bits.iter().all(|&octet| octet <= 9) && !random.one_in(8) {
        return bits.iter().map(|octet| b'0' + octet).collect();
    }
    bits_as_pairs(bits, random)
}

/// `x:` and two digits for each octet.
pub fn bits_as_pairs(bits: &[u8], random: &mut Random) -> Vec<u8> {
    [b"x:", &pairs(bits, random)[..]].concat()
}

/// Packed octets.
pub fn hex(octets: &[u8], random: &mut Random) -> Vec<u8> {
    if octets.is_empty() {
        return b"-".to_vec();
    }
    pairs(octets, random)
}

/// The optional word for the checker that is asked for, or none.
pub fn checker(random: &mut Random) -> Option<Vec<u8>> {
    let words: [Option<&[u8]>; 3] = [None, Some(b"by=quick"), Some(b"by=plain")];
    random.pick(&words).map(<[u8]>::to_vec)
}

/// An optional word that holds a number.
pub fn optional(name: &str, held: u64, random: &mut Random) -> Vec<u8> {
    [name.as_bytes(), b"=", &number(held, random)].concat()
}

/// The optional word for the redundancy version, which may be left out where it is 0.
pub fn version(rv: u64, random: &mut Random) -> Option<Vec<u8>> {
    if rv == 0 && random.one_in(2) {
        return None;
    }
    Some(optional("rv", rv, random))
}

/// The optional word for the edition, which may be left out where it is 1.
pub fn edition(ed: u64, random: &mut Random) -> Option<Vec<u8>> {
    if ed == 1 && random.one_in(2) {
        return None;
    }
    Some(optional("ed", ed, random))
}

/// Optional words in any order, as far as they are there.
pub fn in_any_order<const COUNT: usize>(
    words: [Option<Vec<u8>>; COUNT],
    random: &mut Random,
) -> Vec<Vec<u8>> {
    let mut words: Vec<Vec<u8>> = words.into_iter().flatten().collect();
    for place in 1..words.len() {
        words.swap(place, random.below(place + 1));
    }
    words
}

/// Two digits for each octet, the letters in either case.
fn pairs(octets: &[u8], random: &mut Random) -> Vec<u8> {
    let digits = random.pick(&[b"0123456789abcdef", b"0123456789ABCDEF"]);
    octets
        .iter()
        .flat_map(|octet| [octet / 16, octet % 16])
        .map(|digit| digits[usize::from(digit)])
        .collect()
}

#[cfg(test)]
mod tests {
    use super::mask;
    use crate::random::Random;
    use crate::words;

    #[test]
    fn a_mask_is_written_in_each_of_its_forms() {
        let mut random = Random::new(1);
        for number in [0, 0xab, 0xffff, 0x1234_5678, u64::MAX] {
            let written: Vec<Vec<u8>> = (0..300).map(|_| mask(number, &mut random)).collect();
            assert!(written.iter().all(|word| words::mask(word) == Ok(number)));
            let shortest = format!("{number:x}");
            let longest = format!("{number:016x}");
            for form in [&shortest, &shortest.to_uppercase(), &longest] {
                assert!(written.contains(&form.clone().into_bytes()), "{form}");
            }
        }
        let both = (0..300).any(|_| mask(0xab, &mut random) == b"aB");
        assert!(both);
    }
}
