//! `rate E PLACES OUTLEN type=1 rv=0`: the radio bits of one coded block.

use super::parts::{hex_of_bits, written, VERSION};
use super::Kind;
use crate::errors::Fault;
use crate::form::{Form, Given, Optional, Word};
use crate::generate::rate::RATE;
use crate::rate::rate;

pub const KIND: Kind = Kind {
    name: "rate",
    form: Form {
        words: &[Word::Number, Word::Bits, Word::Length],
        options: &[Optional::number("type", 1), VERSION],
    },
    answer,
    makers: RATE,
};

fn answer(mut given: Given) -> Result<String, Fault> {
    let (e, places, length) = (given.number(), given.octets(), given.length());
    let (coding, rv) = (given.number_of("type"), given.number_of("rv"));
    written(length, hex_of_bits, |output| {
        rate(e, &places, coding, rv, output)
    })
}
