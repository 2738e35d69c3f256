//! `hsend PRIVATE PUBLIC TENANT PROFILE BLOCK NL QM G OUTLEN rv=0 ed=1`: a lookup, and then `send`.

use super::parts::{hex_of_bits, sending, shelves, written, EDITION, VERSION};
use super::Kind;
use crate::errors::Fault;
use crate::form::{Form, Given, Word};
use crate::generate::hosted::HSEND;
use crate::hosted::hosted_send;
use crate::words::{BLOCK_ROOM, SHELF_ROOM};

pub const KIND: Kind = Kind {
    name: "hsend",
    form: Form {
        words: &[
            Word::Hex(SHELF_ROOM),
            Word::Hex(SHELF_ROOM),
            Word::Short,
            Word::Short,
            Word::Hex(BLOCK_ROOM),
            Word::Number,
            Word::Number,
            Word::Number,
            Word::Length,
        ],
        options: &[VERSION, EDITION],
    },
    answer,
    makers: HSEND,
};

fn answer(mut given: Given) -> Result<String, Fault> {
    let shelves = shelves(&mut given);
    let sending = sending(&mut given);
    written(sending.length, hex_of_bits, |output| {
        hosted_send(&shelves, &sending.block, sending.asked, output)
    })
}
