//! `hrecv PRIVATE PUBLIC TENANT PROFILE A NL QM BITS OUTLEN rv=0 ed=1 by=quick|plain`: a lookup, and then `recv`.

use super::parts::{hex, receiving, shelves, written, CHECKER, EDITION, VERSION};
use super::Kind;
use crate::errors::Fault;
use crate::form::{Form, Given, Word};
use crate::generate::hosted::HRECV;
use crate::hosted::hosted_receive;
use crate::words::SHELF_ROOM;

pub const KIND: Kind = Kind {
    name: "hrecv",
    form: Form {
        words: &[
            Word::Hex(SHELF_ROOM),
            Word::Hex(SHELF_ROOM),
            Word::Short,
            Word::Short,
            Word::Number,
            Word::Number,
            Word::Number,
            Word::Bits,
            Word::Length,
        ],
        options: &[VERSION, EDITION, CHECKER],
    },
    answer,
    makers: HRECV,
};

fn answer(mut given: Given) -> Result<String, Fault> {
    let shelves = shelves(&mut given);
    let got = receiving(&mut given);
    written(got.length, hex, |output| {
        hosted_receive(&shelves, got.received(), output)
    })
}
