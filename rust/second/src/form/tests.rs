use super::{Form, Given, Optional, Word};
use crate::errors::Fault;

/// A form made for these tests: two words and three optional words.
const FORM: Form = Form {
    words: &[Word::Number, Word::Bits],
    options: &[
        Optional::number("rv", 3),
        Optional::number("ed", 1),
        Optional::one_of("by", &["quick", "plain"]),
    ],
};

/// A form with a mask.
const MASKED: Form = Form {
    words: &[Word::Number, Word::Mask, Word::Bits],
    options: &[],
};

/// What the words after the name give.
fn read(text: &str) -> Result<Given, Fault> {
    let words: Vec<&[u8]> = text.split(' ').map(str::as_bytes).collect();
    FORM.read(&words)
}

/// What `rv`, `ed` and `by` hold.
fn options(text: &str) -> Result<(u64, u64, &str), Fault> {
    let given = read(text)?;
    let (rv, ed) = (given.number_of("rv"), given.number_of("ed"));
    Ok((rv, ed, given.alternative_of("by")))
}

#[test]
fn words_are_taken_from_left_to_right() {
    let mut given = read("8 101").unwrap();
    assert_eq!(given.number(), 8);
    assert_eq!(given.octets(), [1, 0, 1]);
}

#[test]
fn a_mask_is_a_number_in_hexadecimal() {
    let mut given = MASKED.read(&[b"10", b"10", b"10"]).unwrap();
    assert_eq!((given.number(), given.number()), (10, 16));
    assert_eq!(given.octets(), [1, 0]);
}

#[test]
fn what_is_no_mask_is_no_number() {
    for mask in [&b"g"[..], b"-", b"x:01", b"00000000000000001"] {
        for bits in [&b"1"[..], b"q"] {
            let given = MASKED.read(&[b"8", mask, bits]);
            assert_eq!(given.err(), Some(Fault::Number));
        }
    }
    let empty = MASKED.read(&[b"8", b"", b"1"]);
    assert_eq!(empty.err(), Some(Fault::Words));
}

#[test]
fn what_a_line_has_not_is_the_default() {
    assert_eq!(options("8 1"), Ok((3, 1, "quick")));
    assert_eq!(options("8 1 ed=7"), Ok((3, 7, "quick")));
    assert_eq!(options("8 1 by=plain"), Ok((3, 1, "plain")));
}

#[test]
fn what_a_line_has_is_given() {
    assert_eq!(options("8 1 rv=0 ed=0 by=quick"), Ok((0, 0, "quick")));
    assert_eq!(
        options("8 1 rv=18446744073709551615"),
        Ok((u64::MAX, 1, "quick"))
    );
    let mut given = read("8 101 rv=0").unwrap();
    assert_eq!((given.number(), given.octets()), (8, vec![1, 0, 1]));
}

#[test]
fn optional_words_stand_in_any_order() {
    for text in [
        "8 1 rv=2 ed=5 by=plain",
        "8 1 by=plain ed=5 rv=2",
        "8 1 ed=5 by=plain rv=2",
    ] {
        assert_eq!(options(text), Ok((2, 5, "plain")), "{text}");
    }
}

#[test]
fn a_name_stands_once() {
    for text in [
        "8 1 rv=2 rv=2",
        "8 1 rv=2 ed=1 rv=3",
        "8 1 by=q by=q",
        "q q rv=q rv=q",
    ] {
        assert_eq!(options(text), Err(Fault::Words), "{text}");
    }
}

#[test]
fn a_name_is_one_of_the_form() {
    for text in [
        "8 1 q=2",
        "8 1 =2",
        "8 1 =",
        "8 1 RV=2",
        "8 1 r=2",
        "8 1 rvv=2",
        "8 1 rv=2 q=2",
        "8 1 q=2 rv=2",
        "q q q=2 rv=q",
    ] {
        assert_eq!(options(text), Err(Fault::Words), "{text}");
    }
}

#[test]
fn an_optional_word_stands_behind_all_others() {
    for text in ["rv=2 8 1", "8 rv=2 1", "8 1 rv=2 1", "8 1 rv=2 - ed=1"] {
        assert_eq!(options(text), Err(Fault::Words), "{text}");
    }
    // As many words as the form has: the first of them is then no number, or these are no bits.
    assert_eq!(options("rv=2 1"), Err(Fault::Number));
    assert_eq!(options("rv=2 1 rv=2"), Err(Fault::Number));
    // Both are optional words, and then too few are left.
    assert_eq!(options("8 rv=2"), Err(Fault::Words));
    assert_eq!(options("rv=2 ed=2"), Err(Fault::Words));
}

#[test]
fn the_other_words_are_as_many_as_the_form_has() {
    for text in [
        "rv=2",
        "8 1 1 rv=2",
        "8 1  rv=2",
        " 8 1 rv=2",
        "8  rv=2",
        "8 1 rv=2  ed=1",
    ] {
        assert_eq!(options(text), Err(Fault::Words), "{text}");
    }
}

#[test]
fn a_number_is_held_where_the_form_has_one() {
    for held in ["", "q", "-", "+1", "1=1", "=", "18446744073709551616"] {
        let text = format!("8 1 rv={held}");
        assert_eq!(options(&text), Err(Fault::Number), "{text}");
    }
    assert_eq!(options("8 1 rv=0002"), Ok((2, 1, "quick")));
}

#[test]
fn an_alternative_is_one_of_those_there_are() {
    for held in ["", "q", "Quick", "quick=", "quickly", "plai", "0"] {
        let text = format!("8 1 by={held}");
        assert_eq!(options(&text), Err(Fault::Words), "{text}");
    }
}

#[test]
fn the_first_error_from_left_to_right_is_given() {
    assert_eq!(options("q q rv=q"), Err(Fault::Number));
    assert_eq!(options("8 q rv=q"), Err(Fault::Bits));
    assert_eq!(options("8 q by=q"), Err(Fault::Bits));
    assert_eq!(options("8 1 rv=q by=q"), Err(Fault::Number));
    // As they stand on the line, not as the form lists them.
    assert_eq!(options("8 1 by=q rv=q"), Err(Fault::Words));
    assert_eq!(options("8 1 ed=1 by=q rv=q"), Err(Fault::Words));
}
