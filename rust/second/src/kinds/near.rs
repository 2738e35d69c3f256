//! `near D STREAMS OUTLEN`: the control word that is nearest to three received streams, and how near it is.

use super::parts::{hex_of_bits, written};
use super::Kind;
use crate::control::nearest;
use crate::errors::Fault;
use crate::form::{Form, Given, Word};
use crate::generate::nearest::NEAR;

pub const KIND: Kind = Kind {
    name: "near",
    form: Form {
        words: &[Word::Number, Word::Bits, Word::Length],
        options: &[],
    },
    answer,
    makers: NEAR,
};

/// The differences stand behind what is written; they are 0 with a refusal.
fn answer(mut given: Given) -> Result<String, Fault> {
    let (d, received) = (given.number(), given.octets());
    let mut differences = 0;
    let text = written(given.length(), hex_of_bits, |output| {
        let word = nearest(d, &received, output)?;
        differences = word.differences;
        Ok(word.count)
    })?;
    Ok(format!("{text} {differences}"))
}
