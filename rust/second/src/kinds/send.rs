//! `send RECORD BLOCK NL QM G OUTLEN rv=0 ed=1`: the radio bits of a transport block.

use super::parts::{hex_of_bits, sending, written, EDITION, VERSION};
use super::Kind;
use crate::errors::Fault;
use crate::form::{Form, Given, Word};
use crate::generate::send::SEND;
use crate::send::send;
use crate::words::{BLOCK_ROOM, SHELF_ROOM};

pub const KIND: Kind = Kind {
    name: "send",
    form: Form {
        words: &[
            Word::Hex(SHELF_ROOM),
            Word::Hex(BLOCK_ROOM),
            Word::Number,
            Word::Number,
            Word::Number,
            Word::Length,
        ],
        options: &[VERSION, EDITION],
    },
    answer,
    makers: SEND,
};

fn answer(mut given: Given) -> Result<String, Fault> {
    let record = given.octets();
    let sending = sending(&mut given);
    written(sending.length, hex_of_bits, |output| {
        send(&record, &sending.block, sending.asked, output)
    })
}
