//! `tbback D BITS OUTLEN`: the three streams that radio bits were sent of.

use super::parts::{hex_of_bits, written};
use super::Kind;
use crate::control::back;
use crate::errors::Fault;
use crate::form::{Form, Given, Word};
use crate::generate::control::TBBACK;

pub const KIND: Kind = Kind {
    name: "tbback",
    form: Form {
        words: &[Word::Number, Word::Bits, Word::Length],
        options: &[],
    },
    answer,
    makers: TBBACK,
};

fn answer(mut given: Given) -> Result<String, Fault> {
    let (d, bits) = (given.number(), given.octets());
    written(given.length(), hex_of_bits, |output| back(d, &bits, output))
}
