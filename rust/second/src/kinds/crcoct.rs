//! `crcoct WIDTH PACKED`: the checksum of the bits of packed octets.

use super::parts::sum;
use super::Kind;
use crate::checksum::checksum_of_octets;
use crate::errors::Fault;
use crate::form::{Form, Given, Word};
use crate::generate::crcoct::CRCOCT;
use crate::words::SHELF_ROOM;

pub const KIND: Kind = Kind {
    name: "crcoct",
    form: Form {
        words: &[Word::Number, Word::Hex(SHELF_ROOM)],
        options: &[],
    },
    answer,
    makers: CRCOCT,
};

fn answer(mut given: Given) -> Result<String, Fault> {
    let width = given.number();
    Ok(sum(checksum_of_octets(width, &given.octets())))
}
