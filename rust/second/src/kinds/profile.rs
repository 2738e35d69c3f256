//! `profile RECORD`: whether a record is accepted.

use super::Kind;
use crate::errors::Fault;
use crate::form::{Form, Given, Word};
use crate::generate::profile::PROFILE;
use crate::numbers::DONE;
use crate::record::profile;
use crate::words::SHELF_ROOM;

pub const KIND: Kind = Kind {
    name: "profile",
    form: Form {
        words: &[Word::Hex(SHELF_ROOM)],
        options: &[],
    },
    answer,
    makers: PROFILE,
};

fn answer(mut given: Given) -> Result<String, Fault> {
    let number = profile(&given.octets()).err().unwrap_or(DONE);
    Ok(number.to_string())
}
