//! `sums RECORD Z BITS OUTLEN`: what each row of the spread-out matrix sums to over a coded word.

use super::parts::{digits, written};
use super::Kind;
use crate::errors::Fault;
use crate::form::{Form, Given, Word};
use crate::generate::parity::SUMS;
use crate::parity::sums;
use crate::words::SHELF_ROOM;

pub const KIND: Kind = Kind {
    name: "sums",
    form: Form {
        words: &[
            Word::Hex(SHELF_ROOM),
            Word::Number,
            Word::Bits,
            Word::Length,
        ],
        options: &[],
    },
    answer,
    makers: SUMS,
};

fn answer(mut given: Given) -> Result<String, Fault> {
    let (record, z, word) = (given.octets(), given.number(), given.octets());
    written(given.length(), digits, |output| {
        sums(&record, z, &word, output)
    })
}
