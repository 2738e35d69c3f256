//! The kinds of requests (docs/REQUESTS.md, "Requests"): each is one line in the list and one module.

mod check;
mod crc;
mod crc24b;
mod crcappend;
mod crcm;
mod crcoct;
mod crctest;
mod encode;
mod hcheck;
mod hrecv;
mod hsend;
mod lookup;
mod near;
pub mod parts;
mod plan;
mod profile;
mod put;
mod rate;
mod recv;
mod remove;
mod send;
mod sums;
mod tbback;
mod tbenc;
mod tbrm;
mod tbsend;

use crate::errors::Fault;
use crate::form::{Form, Given};
use crate::generate::Makers;

pub const KINDS: &[Kind] = &[
    crc::KIND,
    crc24b::KIND,
    crcoct::KIND,
    crcm::KIND,
    crcappend::KIND,
    crctest::KIND,
    profile::KIND,
    plan::KIND,
    encode::KIND,
    check::KIND,
    sums::KIND,
    rate::KIND,
    send::KIND,
    recv::KIND,
    lookup::KIND,
    hsend::KIND,
    hrecv::KIND,
    hcheck::KIND,
    put::KIND,
    remove::KIND,
    tbenc::KIND,
    tbrm::KIND,
    tbsend::KIND,
    tbback::KIND,
    near::KIND,
];

/// One kind of request.
pub struct Kind {
    /// The first word of the line.
    pub name: &'static str,
    pub form: Form,
    /// The answer to what the line gives, without the newline.
    pub answer: fn(Given) -> Result<String, Fault>,
    pub makers: Makers,
}

/// The kind of a name.
pub fn named(name: &[u8]) -> Option<&'static Kind> {
    KINDS.iter().find(|kind| kind.name.as_bytes() == name)
}
