//! `lookup PRIVATE PUBLIC TENANT PROFILE`: where a tenant's record stands.

use super::parts::shelves;
use super::Kind;
use crate::errors::Fault;
use crate::form::{Form, Given, Word};
use crate::generate::hosted::LOOKUP;
use crate::numbers::DONE;
use crate::shelf::{lookup, Found, Side};
use crate::words::SHELF_ROOM;

pub const KIND: Kind = Kind {
    name: "lookup",
    form: Form {
        words: &[
            Word::Hex(SHELF_ROOM),
            Word::Hex(SHELF_ROOM),
            Word::Short,
            Word::Short,
        ],
        options: &[],
    },
    answer,
    makers: LOOKUP,
};

fn answer(mut given: Given) -> Result<String, Fault> {
    Ok(match lookup(&shelves(&mut given)) {
        Ok(found) => place(&found),
        // "With a refusal it is the empty stretch at the start of the public shelf."
        Err(number) => format!("{number} public 0 0"),
    })
}

fn place(Found { side, stretch }: &Found) -> String {
    let name = match side {
        Side::Private => "private",
        Side::Public => "public",
    };
    format!("{DONE} {name} {} {}", stretch.start, stretch.len())
}
