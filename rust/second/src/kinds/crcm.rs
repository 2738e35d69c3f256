//! `crcm WIDTH MASK BITS`: the checksum of single bits under a mask.

use super::parts::sum;
use super::Kind;
use crate::errors::Fault;
use crate::form::{Form, Given, Word};
use crate::generate::masked::CRCM;
use crate::masked::checksum_under;

pub const KIND: Kind = Kind {
    name: "crcm",
    form: Form {
        words: &[Word::Number, Word::Mask, Word::Bits],
        options: &[],
    },
    answer,
    makers: CRCM,
};

fn answer(mut given: Given) -> Result<String, Fault> {
    let (width, mask) = (given.number(), given.number());
    Ok(sum(checksum_under(width, mask, &given.octets())))
}
