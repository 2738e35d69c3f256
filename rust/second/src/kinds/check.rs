//! `check RECORD Z BITS by=quick|plain`: whether a coded word checks.

use super::parts::{tested, CHECKER};
use super::Kind;
use crate::errors::Fault;
use crate::form::{Form, Given, Word};
use crate::generate::parity::CHECK;
use crate::parity::check;
use crate::words::SHELF_ROOM;

pub const KIND: Kind = Kind {
    name: "check",
    form: Form {
        words: &[Word::Hex(SHELF_ROOM), Word::Number, Word::Bits],
        options: &[CHECKER],
    },
    answer,
    makers: CHECK,
};

fn answer(mut given: Given) -> Result<String, Fault> {
    let (record, z) = (given.octets(), given.number());
    Ok(tested(check(&record, z, &given.octets())))
}
