//! `crc WIDTH BITS`: the checksum of single bits.

use super::parts::sum;
use super::Kind;
use crate::checksum::checksum;
use crate::errors::Fault;
use crate::form::{Form, Given, Word};
use crate::generate::crc::CRC;

pub const KIND: Kind = Kind {
    name: "crc",
    form: Form {
        words: &[Word::Number, Word::Bits],
        options: &[],
    },
    answer,
    makers: CRC,
};

fn answer(mut given: Given) -> Result<String, Fault> {
    let width = given.number();
    Ok(sum(checksum(width, &given.octets())))
}
