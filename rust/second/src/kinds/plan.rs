//! `plan RECORD OCTETS ed=1`: how a transport block is cut into code blocks.

use super::parts::EDITION;
use super::Kind;
use crate::errors::Fault;
use crate::form::{Form, Given, Word};
use crate::generate::profile::PLAN;
use crate::numbers::DONE;
use crate::plan::{plan, Plan};
use crate::words::SHELF_ROOM;

pub const KIND: Kind = Kind {
    name: "plan",
    form: Form {
        words: &[Word::Hex(SHELF_ROOM), Word::Number],
        options: &[EDITION],
    },
    answer,
    makers: PLAN,
};

fn answer(mut given: Given) -> Result<String, Fault> {
    let (record, octets, ed) = (given.octets(), given.number(), given.number_of("ed"));
    Ok(match plan(&record, octets, ed) {
        Ok(Plan { b, c, k, z, l }) => format!("{DONE} {b} {c} {k} {z} {l}"),
        Err(number) => format!("{number} 0 0 0 0 0"),
    })
}
