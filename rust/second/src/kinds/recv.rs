//! `recv RECORD A NL QM BITS OUTLEN rv=0 ed=1 by=quick|plain`: the transport block of received bits.

use super::parts::{hex, receiving, written, CHECKER, EDITION, VERSION};
use super::Kind;
use crate::errors::Fault;
use crate::form::{Form, Given, Word};
use crate::generate::recv::RECV;
use crate::receive::receive;
use crate::words::SHELF_ROOM;

pub const KIND: Kind = Kind {
    name: "recv",
    form: Form {
        words: &[
            Word::Hex(SHELF_ROOM),
            Word::Number,
            Word::Number,
            Word::Number,
            Word::Bits,
            Word::Length,
        ],
        options: &[VERSION, EDITION, CHECKER],
    },
    answer,
    makers: RECV,
};

fn answer(mut given: Given) -> Result<String, Fault> {
    let record = given.octets();
    let got = receiving(&mut given);
    written(got.length, hex, |output| {
        receive(&record, got.received(), output)
    })
}
