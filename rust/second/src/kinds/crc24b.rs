//! `crc24b BITS`: the checksum that a code block carries in edition 2.

use super::parts::sum;
use super::Kind;
use crate::checksum::block_checksum;
use crate::errors::Fault;
use crate::form::{Form, Given, Word};
use crate::generate::crc24b::CRC24B;

pub const KIND: Kind = Kind {
    name: "crc24b",
    form: Form {
        words: &[Word::Bits],
        options: &[],
    },
    answer,
    makers: CRC24B,
};

fn answer(mut given: Given) -> Result<String, Fault> {
    Ok(sum(block_checksum(&given.octets())))
}
