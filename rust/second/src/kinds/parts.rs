//! Words and answers that several kinds of requests have in common.

use crate::errors::Fault;
use crate::form::{Given, Optional};
use crate::keep::Place;
use crate::numbers::{Number, DONE};
use crate::octets::packed;
use crate::output::lend;
use crate::receive::Received;
use crate::shelf;
use crate::transfer::Asked;

/// The checker that is asked for. No answer reads it: "For every profile, z and word it is to say the
/// same as the one in use" (document 02, CR 4), and here there is one way for both, the spread-out
/// matrix. What the word holds is judged where the line is read.
pub const CHECKER: Optional = Optional::one_of("by", &["quick", "plain"]);

/// The redundancy version.
pub const VERSION: Optional = Optional::number("rv", 0);

/// The edition.
pub const EDITION: Optional = Optional::number("ed", 1);

/// PRIVATE PUBLIC TENANT PROFILE.
pub fn shelves(given: &mut Given) -> shelf::Asked {
    shelf::Asked {
        private: given.octets(),
        public: given.octets(),
        tenant: given.short(),
        profile: given.short(),
    }
}

/// PRIVATE TENANT PROFILE.
pub fn place(given: &mut Given) -> Place {
    Place {
        private: given.octets(),
        tenant: given.short(),
        profile: given.short(),
    }
}

/// What is sent, and the length of the output.
pub struct Sending {
    pub block: Vec<u8>,
    pub asked: Asked,
    pub length: usize,
}

/// BLOCK NL QM G OUTLEN rv=0 ed=1.
pub fn sending(given: &mut Given) -> Sending {
    Sending {
        block: given.octets(),
        asked: Asked {
            layers: given.number(),
            order: given.number(),
            g: given.number(),
            rv: given.number_of("rv"),
            ed: given.number_of("ed"),
        },
        length: given.length(),
    }
}

/// What is received, and the length of the output.
pub struct Receiving {
    pub a: u64,
    pub layers: u64,
    pub order: u64,
    pub bits: Vec<u8>,
    pub length: usize,
    pub rv: u64,
    pub ed: u64,
}

impl Receiving {
    pub fn received(&self) -> Received<'_> {
        Received {
            a: self.a,
            layers: self.layers,
            order: self.order,
            rv: self.rv,
            ed: self.ed,
            bits: &self.bits,
        }
    }
}

/// A NL QM BITS OUTLEN rv=0 ed=1.
pub fn receiving(given: &mut Given) -> Receiving {
    Receiving {
        a: given.number(),
        layers: given.number(),
        order: given.number(),
        bits: given.octets(),
        length: given.length(),
        rv: given.number_of("rv"),
        ed: given.number_of("ed"),
    }
}

/// A checksum's value in hexadecimal.
pub fn sum(checksum: Result<u32, Number>) -> String {
    match checksum {
        Ok(value) => format!("{DONE} {value:x}"),
        Err(number) => format!("{number} 0"),
    }
}

/// A test's 1 for yes, and 0 for no.
pub fn tested(holds: Result<bool, Number>) -> String {
    match holds {
        Ok(holds) => format!("{DONE} {}", u8::from(holds)),
        Err(number) => format!("{number} 0"),
    }
}

/// The number and the count of a call, and what it wrote, in the form of the request.
pub fn written(
    length: usize,
    form: fn(&[u8]) -> String,
    call: impl FnOnce(&mut [u8]) -> Result<usize, Number>,
) -> Result<String, Fault> {
    Ok(match lend(length, call)? {
        Ok(octets) => format!("{DONE} {} {}", octets.len(), form(&octets)),
        Err(number) => format!("{number} 0 -"),
    })
}

/// One digit for each place.
pub fn digits(places: &[u8]) -> String {
    places.iter().map(u8::to_string).collect()
}

/// Two digits for each octet, or `-` for none.
pub fn hex(octets: &[u8]) -> String {
    if octets.is_empty() {
        return "-".to_string();
    }
    let digit = |value: u8| char::from(b"0123456789abcdef"[usize::from(value)]);
    octets
        .iter()
        .flat_map(|octet| [digit(octet / 16), digit(octet % 16)])
        .collect()
}

/// Single bits packed into octets.
pub fn hex_of_bits(bits: &[u8]) -> String {
    hex(&packed(bits))
}
