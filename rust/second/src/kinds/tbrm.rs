//! `tbrm D STREAMS E OUTLEN`: the radio bits of three streams.

use super::parts::{hex_of_bits, written};
use super::Kind;
use crate::control::rate;
use crate::errors::Fault;
use crate::form::{Form, Given, Word};
use crate::generate::control::TBRM;

pub const KIND: Kind = Kind {
    name: "tbrm",
    form: Form {
        words: &[Word::Number, Word::Bits, Word::Number, Word::Length],
        options: &[],
    },
    answer,
    makers: TBRM,
};

fn answer(mut given: Given) -> Result<String, Fault> {
    let (d, streams, e) = (given.number(), given.octets(), given.number());
    written(given.length(), hex_of_bits, |output| {
        rate(d, &streams, e, output)
    })
}
