//! `tbenc BITS OUTLEN`: the three streams of a control word.

use super::parts::{hex_of_bits, written};
use super::Kind;
use crate::control::code;
use crate::errors::Fault;
use crate::form::{Form, Given, Word};
use crate::generate::control::TBENC;

pub const KIND: Kind = Kind {
    name: "tbenc",
    form: Form {
        words: &[Word::Bits, Word::Length],
        options: &[],
    },
    answer,
    makers: TBENC,
};

fn answer(mut given: Given) -> Result<String, Fault> {
    let word = given.octets();
    written(given.length(), hex_of_bits, |output| code(&word, output))
}
