//! Edits of octets, which can be made to the octets or to their hexadecimal digits, so that all that is not
//! edited stays as it is written.

/// Octets put before a place, or over what stands there.
#[derive(Clone, Debug, PartialEq, Eq)]
pub enum Edit {
    Insert(usize, Vec<u8>),
    /// A number of two octets.
    Replace(usize, u16),
}

impl Edit {
    fn place(&self) -> usize {
        match self {
            Edit::Insert(place, _) | Edit::Replace(place, _) => *place,
        }
    }
}

/// The edits of one record or one shelf.
#[derive(Debug, Default)]
pub struct Edits {
    pub list: Vec<Edit>,
    /// How many records are rewritten by them.
    pub records: usize,
    /// What could not be rewritten, and why.
    pub left: Vec<String>,
}

/// The octets with the edits made. None of them stands inside what another one replaces.
pub fn apply(octets: &[u8], edits: &[Edit]) -> Vec<u8> {
    // One character for an octet.
    edited(octets, edits, 1, <[u8]>::to_vec)
}

/// The same on hexadecimal digits, the new ones in the case of the others.
pub fn apply_to_digits(digits: &[u8], edits: &[Edit]) -> Vec<u8> {
    let upper = digits.iter().any(u8::is_ascii_uppercase);
    let written = |octets: &[u8]| {
        let digits = octets.iter().flat_map(|octet| {
            if upper {
                format!("{octet:02X}").into_bytes()
            } else {
                format!("{octet:02x}").into_bytes()
            }
        });
        digits.collect()
    };
    edited(digits, edits, 2, written)
}

/// The text in which so many characters stand for an octet, with the edits made from its end on.
fn edited(
    text: &[u8],
    edits: &[Edit],
    characters: usize,
    written: impl Fn(&[u8]) -> Vec<u8>,
) -> Vec<u8> {
    let mut edits: Vec<&Edit> = edits.iter().collect();
    edits.sort_by_key(|edit| edit.place());
    let mut text = text.to_vec();
    for edit in edits.into_iter().rev() {
        let place = characters * edit.place();
        match edit {
            Edit::Insert(_, octets) => drop(text.splice(place..place, written(octets))),
            Edit::Replace(_, number) => {
                let over = place..place + 2 * characters;
                drop(text.splice(over, written(&number.to_be_bytes())));
            }
        }
    }
    text
}

#[cfg(test)]
mod tests {
    use super::{apply, apply_to_digits, Edit};

    fn edits() -> Vec<Edit> {
        vec![Edit::Replace(4, 0xabcd), Edit::Insert(2, vec![0, 0x1f])]
    }

    #[test]
    fn places_are_those_of_the_old_octets() {
        let new = apply(&[1, 2, 3, 4, 5, 6, 7], &edits());
        assert_eq!(new, [1, 2, 0, 0x1f, 3, 4, 0xab, 0xcd, 7]);
        assert_eq!(apply(&[1, 2], &[Edit::Insert(2, vec![9])]), [1, 2, 9]);
        assert_eq!(apply(&[1, 2], &[]), [1, 2]);
    }

    #[test]
    fn digits_keep_their_case() {
        assert_eq!(
            apply_to_digits(b"01020304050607", &edits()),
            b"0102001f0304abcd07"
        );
        assert_eq!(
            apply_to_digits(b"0A020304050607", &edits()),
            b"0A02001F0304ABCD07"
        );
        assert_eq!(
            apply_to_digits(b"0a02F304050607", &edits()),
            b"0a02001FF304ABCD07"
        );
    }
}
