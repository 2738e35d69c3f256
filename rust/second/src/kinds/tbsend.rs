//! `tbsend BITS E OUTLEN`: the radio bits of a control word.

use super::parts::{hex_of_bits, written};
use super::Kind;
use crate::control::send;
use crate::errors::Fault;
use crate::form::{Form, Given, Word};
use crate::generate::control::TBSEND;

pub const KIND: Kind = Kind {
    name: "tbsend",
    form: Form {
        words: &[Word::Bits, Word::Number, Word::Length],
        options: &[],
    },
    answer,
    makers: TBSEND,
};

fn answer(mut given: Given) -> Result<String, Fault> {
    let (word, e) = (given.octets(), given.number());
    written(given.length(), hex_of_bits, |output| send(&word, e, output))
}
