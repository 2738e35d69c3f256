//! `hcheck PRIVATE PUBLIC TENANT PROFILE Z BITS by=quick|plain`: a lookup, and then `check`.

use super::parts::{shelves, tested, CHECKER};
use super::Kind;
use crate::errors::Fault;
use crate::form::{Form, Given, Word};
use crate::generate::hosted::HCHECK;
use crate::hosted::hosted_check;
use crate::words::SHELF_ROOM;

pub const KIND: Kind = Kind {
    name: "hcheck",
    form: Form {
        words: &[
            Word::Hex(SHELF_ROOM),
            Word::Hex(SHELF_ROOM),
            Word::Short,
            Word::Short,
            Word::Number,
            Word::Bits,
        ],
        options: &[CHECKER],
    },
    answer,
    makers: HCHECK,
};

fn answer(mut given: Given) -> Result<String, Fault> {
    let (shelves, z) = (shelves(&mut given), given.number());
    Ok(tested(hosted_check(&shelves, z, &given.octets())))
}
