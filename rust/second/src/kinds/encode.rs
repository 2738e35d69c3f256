//! `encode RECORD Z PLACES OUTLEN`: one code block with its parity.

use super::parts::{digits, written};
use super::Kind;
use crate::errors::Fault;
use crate::form::{Form, Given, Word};
use crate::generate::parity::ENCODE;
use crate::parity::encode;
use crate::words::SHELF_ROOM;

pub const KIND: Kind = Kind {
    name: "encode",
    form: Form {
        words: &[
            Word::Hex(SHELF_ROOM),
            Word::Number,
            Word::Bits,
            Word::Length,
        ],
        options: &[],
    },
    answer,
    makers: ENCODE,
};

fn answer(mut given: Given) -> Result<String, Fault> {
    let (record, z, places) = (given.octets(), given.number(), given.octets());
    written(given.length(), digits, |output| {
        encode(&record, z, &places, output)
    })
}
