//! The functions of include/kuambyte.h, one declaration each, and the structs that they answer; nothing here is visible outside.
//!
//! Each function takes any octets, lengths and numbers, reads what it is lent for reading, and writes at most `out`: that is
//! proved. So a call is sound where pointers and lengths come from slices, and `out` from one that nothing else borrows.

use std::fmt::Display;

use crate::refusal::Refusal;

#[derive(Clone, Copy)]
#[repr(C)]
pub struct Written {
    pub number: u32,
    pub count: usize,
}

#[derive(Clone, Copy)]
#[repr(C)]
pub struct Sum {
    pub number: u32,
    pub value: u32,
}

/// `kuambyte_tested` and `kuambyte_verdict`.
#[derive(Clone, Copy)]
#[repr(C)]
pub struct Tested {
    pub number: u32,
    pub holds: bool,
}

#[repr(C)]
pub struct Plan {
    pub number: u32,
    pub bits: usize,
    pub kmax: usize,
    pub blocks: usize,
    pub places: usize,
    pub z: usize,
    pub index: usize,
    pub sums: usize,
}

#[repr(C)]
pub struct Least {
    pub number: u32,
    pub g: usize,
    pub blocks: usize,
    pub larger: usize,
    pub first: usize,
    pub last: usize,
}

#[repr(C)]
pub struct Closest {
    pub number: u32,
    pub count: usize,
    pub differences: usize,
}

#[repr(C)]
pub struct Stretch {
    pub number: u32,
    pub shelf: u32,
    pub start: usize,
    pub octets: usize,
}

#[repr(C)]
pub struct Broken {
    pub rule: usize,
    pub entry: usize,
    pub at: usize,
}

#[repr(C)]
pub struct Wrong {
    pub rule: usize,
    pub table: usize,
    pub row: usize,
    pub column: usize,
    pub at: usize,
}

#[repr(C)]
pub struct Terms {
    pub layers: usize,
    pub order: usize,
    pub rv: usize,
    pub edition: usize,
}

/// `KUAMBYTE_PUBLIC` and `KUAMBYTE_PRIVATE`.
pub const PUBLIC: u32 = 0;
pub const PRIVATE: u32 = 1;

/// `KUAMBYTE_QUICK` and `KUAMBYTE_PLAIN`.
pub const QUICK: u32 = 0;
pub const PLAIN: u32 = 1;

type In = *const u8;
type Out = *mut u8;

extern "C" {
    pub fn kuambyte_lookup(
        private: In,
        n: usize,
        public: In,
        m: usize,
        tenant: usize,
        profile: usize,
    ) -> Stretch;
    pub fn kuambyte_put_record(
        private: In,
        n: usize,
        tenant: usize,
        profile: usize,
        record: In,
        m: usize,
        out: Out,
        lent: usize,
    ) -> Written;
    pub fn kuambyte_remove_record(
        private: In,
        n: usize,
        tenant: usize,
        profile: usize,
        out: Out,
        lent: usize,
    ) -> Written;
    pub fn kuambyte_rule_of_shelf(shelf: u32, octets: In, n: usize) -> Broken;

    pub fn kuambyte_judge(record: In, n: usize) -> u32;
    pub fn kuambyte_rule_of_record(record: In, n: usize) -> Wrong;
    pub fn kuambyte_plan_block(record: In, n: usize, edition: usize, block: usize) -> Plan;
    pub fn kuambyte_least_bits(record: In, n: usize, block: usize, terms: Terms) -> Least;

    pub fn kuambyte_send(
        record: In,
        n: usize,
        block: In,
        m: usize,
        terms: Terms,
        g: usize,
        out: Out,
        lent: usize,
    ) -> Written;
    pub fn kuambyte_receive(
        record: In,
        n: usize,
        a: usize,
        terms: Terms,
        bits: In,
        g: usize,
        checker: u32,
        out: Out,
        lent: usize,
    ) -> Written;
    pub fn kuambyte_hosted_send(
        private: In,
        n: usize,
        public: In,
        m: usize,
        tenant: usize,
        profile: usize,
        block: In,
        octets: usize,
        terms: Terms,
        g: usize,
        out: Out,
        lent: usize,
    ) -> Written;
    pub fn kuambyte_hosted_receive(
        private: In,
        n: usize,
        public: In,
        m: usize,
        tenant: usize,
        profile: usize,
        a: usize,
        terms: Terms,
        bits: In,
        g: usize,
        checker: u32,
        out: Out,
        lent: usize,
    ) -> Written;

    pub fn kuambyte_code_block(
        record: In,
        n: usize,
        z: usize,
        places: In,
        m: usize,
        out: Out,
        lent: usize,
    ) -> Written;
    pub fn kuambyte_check_word(
        record: In,
        n: usize,
        z: usize,
        word: In,
        m: usize,
        checker: u32,
    ) -> Tested;
    pub fn kuambyte_row_sums(
        record: In,
        n: usize,
        z: usize,
        word: In,
        m: usize,
        out: Out,
        lent: usize,
    ) -> Written;
    pub fn kuambyte_hosted_check(
        private: In,
        n: usize,
        public: In,
        m: usize,
        tenant: usize,
        profile: usize,
        z: usize,
        word: In,
        bits: usize,
        checker: u32,
    ) -> Tested;
    pub fn kuambyte_rate_match(
        places: In,
        n: usize,
        kind: usize,
        rv: usize,
        e: usize,
        out: Out,
        lent: usize,
    ) -> Written;

    pub fn kuambyte_checksum_of_bits(width: usize, bits: In, n: usize) -> Sum;
    pub fn kuambyte_checksum_of_octets(width: usize, octets: In, n: usize) -> Sum;
    pub fn kuambyte_checksum_of_block_bits(bits: In, n: usize) -> Sum;
    pub fn kuambyte_sum_under(width: usize, mask: u64, bits: In, n: usize) -> Sum;
    pub fn kuambyte_append_under(
        width: usize,
        mask: u64,
        bits: In,
        n: usize,
        out: Out,
        lent: usize,
    ) -> Written;
    pub fn kuambyte_test_under(width: usize, mask: u64, word: In, n: usize) -> Tested;

    pub fn kuambyte_code_word(word: In, n: usize, out: Out, lent: usize) -> Written;
    pub fn kuambyte_match_streams(
        d: usize,
        streams: In,
        n: usize,
        e: usize,
        out: Out,
        lent: usize,
    ) -> Written;
    pub fn kuambyte_send_word(word: In, n: usize, e: usize, out: Out, lent: usize) -> Written;
    pub fn kuambyte_streams_of(d: usize, bits: In, n: usize, out: Out, lent: usize) -> Written;
    pub fn kuambyte_nearest_word(d: usize, streams: In, n: usize, out: Out, lent: usize)
        -> Closest;
}

/// Calls a function of C: `read` lends a slice for reading and `write` one for writing, as a pointer
/// and a length; what stands in parentheses is handed over as it is. The one unsafe place of the crate.
macro_rules! call {
    ($name:ident: $($words:tt)*) => { $crate::raw::call!(@ $name [] $($words)*) };
    (@ $name:ident [$($given:expr,)*] read $slice:ident $($rest:tt)*) => {
        $crate::raw::call!(@ $name [$($given,)* $slice.as_ptr(), $slice.len(),] $($rest)*)
    };
    (@ $name:ident [$($given:expr,)*] write $slice:ident $($rest:tt)*) => {
        $crate::raw::call!(@ $name [$($given,)* $slice.as_mut_ptr(), $slice.len(),] $($rest)*)
    };
    (@ $name:ident [$($given:expr,)*] ($value:expr) $($rest:tt)*) => {
        $crate::raw::call!(@ $name [$($given,)* $value,] $($rest)*)
    };
    // SAFETY: pointers and lengths are those of slices, and what is written is borrowed by nobody
    // else, since only a `&mut [u8]` has `as_mut_ptr`.
    (@ $name:ident [$($given:expr,)*]) => { unsafe { $crate::raw::$name($($given),*) } };
}
pub(crate) use call;

/// The part of an output that a call wrote, or its refusal.
pub fn written(answer: Written, out: &mut [u8]) -> Result<&mut [u8], Refusal> {
    done(answer.number, &mut out[..answer.count])
}

/// Whether a word holds, or its refusal.
pub fn tested(answer: Tested) -> Result<bool, Refusal> {
    done(answer.number, answer.holds)
}

/// What a call that is done gives, or its refusal.
pub fn done<T>(number: u32, given: T) -> Result<T, Refusal> {
    if number == 0 {
        return Ok(given);
    }
    Err(Refusal::from_number(number).unwrap_or_else(|| unknown(number)))
}

/// The library that this crate was written for answers no other number; that is proved.
pub fn unknown(number: impl Display) -> ! {
    panic!("libkuambyte answered {number}, which this crate does not know: is the library newer?")
}
