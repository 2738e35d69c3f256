//! `put PRIVATE TENANT PROFILE RECORD OUTLEN`: the private shelf with a record put on it.

use super::parts::{hex, place, written};
use super::Kind;
use crate::errors::Fault;
use crate::form::{Form, Given, Word};
use crate::generate::keep::PUT;
use crate::keep::put;
use crate::words::SHELF_ROOM;

pub const KIND: Kind = Kind {
    name: "put",
    form: Form {
        words: &[
            Word::Hex(SHELF_ROOM),
            Word::Short,
            Word::Short,
            Word::Hex(SHELF_ROOM),
            Word::Length,
        ],
        options: &[],
    },
    answer,
    makers: PUT,
};

fn answer(mut given: Given) -> Result<String, Fault> {
    let place = place(&mut given);
    let record = given.octets();
    written(given.length(), hex, |output| put(&place, &record, output))
}
