//! `crctest WIDTH MASK BITS`: whether a word ends in its checksum under a mask.

use super::parts::tested;
use super::Kind;
use crate::errors::Fault;
use crate::form::{Form, Given, Word};
use crate::generate::masked::CRCTEST;
use crate::masked::is_appended;

pub const KIND: Kind = Kind {
    name: "crctest",
    form: Form {
        words: &[Word::Number, Word::Mask, Word::Bits],
        options: &[],
    },
    answer,
    makers: CRCTEST,
};

fn answer(mut given: Given) -> Result<String, Fault> {
    let (width, mask) = (given.number(), given.number());
    Ok(tested(is_appended(width, mask, &given.octets())))
}
