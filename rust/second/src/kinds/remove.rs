//! `remove PRIVATE TENANT PROFILE OUTLEN`: the private shelf without one of its records.

use super::parts::{hex, place, written};
use super::Kind;
use crate::errors::Fault;
use crate::form::{Form, Given, Word};
use crate::generate::keep::REMOVE;
use crate::keep::remove;
use crate::words::SHELF_ROOM;

pub const KIND: Kind = Kind {
    name: "remove",
    form: Form {
        words: &[
            Word::Hex(SHELF_ROOM),
            Word::Short,
            Word::Short,
            Word::Length,
        ],
        options: &[],
    },
    answer,
    makers: REMOVE,
};

fn answer(mut given: Given) -> Result<String, Fault> {
    let place = place(&mut given);
    written(given.length(), hex, |output| remove(&place, output))
}
