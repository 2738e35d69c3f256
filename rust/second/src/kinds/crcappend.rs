//! `crcappend WIDTH MASK BITS OUTLEN`: single bits and behind them their checksum under a mask.

use super::parts::{hex_of_bits, written};
use super::Kind;
use crate::errors::Fault;
use crate::form::{Form, Given, Word};
use crate::generate::masked::CRCAPPEND;
use crate::masked::append;

pub const KIND: Kind = Kind {
    name: "crcappend",
    form: Form {
        words: &[Word::Number, Word::Mask, Word::Bits, Word::Length],
        options: &[],
    },
    answer,
    makers: CRCAPPEND,
};

fn answer(mut given: Given) -> Result<String, Fault> {
    let (width, mask, bits) = (given.number(), given.number(), given.octets());
    written(given.length(), hex_of_bits, |output| {
        append(width, mask, &bits, output)
    })
}
