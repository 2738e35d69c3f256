//! The baselines of the bench: the product's calls in plain Rust, `plain` as a good programmer writes them and `limit` in
//! the best shape we know, both on the product's layout, for C to call.
#![no_std]

mod bit_by_bit;
mod limit;
mod plain;
mod record;

use record::Terms;

#[panic_handler]
fn panic(_: &core::panic::PanicInfo) -> ! {
    loop {}
}

unsafe fn read<'a>(start: *const u8, length: usize) -> &'a [u8] {
    core::slice::from_raw_parts(start, length)
}

unsafe fn write<'a>(start: *mut u8, length: usize) -> &'a mut [u8] {
    core::slice::from_raw_parts_mut(start, length)
}

/// The number of an answer, 0 where the call is done.
fn number(answer: Result<(), u32>) -> u32 {
    answer.err().unwrap_or(0)
}

/// What a word that does not check is answered with here: no number of the product.
const DOES_NOT_CHECK: u32 = 99;

/// The name that C calls, then the call; a slice comes as its start and its length.
macro_rules! checksums {
    ($($name:ident $call:path;)*) => { $(
        #[no_mangle]
        pub unsafe extern "C" fn $name(width: usize, octets: *const u8, count: usize) -> u32 {
            $call(width, read(octets, count))
        }
    )* };
}

checksums! {
    plain_crc_of_bits plain::checksum::of_bits;
    limit_crc_of_bits limit::checksum::of_bits;
    plain_crc plain::checksum::by_octets;
    plain_crc_bitwise bit_by_bit::summed;
    limit_crc limit::checksum::by_eight_octets;
}

#[no_mangle]
pub unsafe extern "C" fn plain_crc_of_block(bits: *const u8, count: usize) -> u32 {
    plain::checksum::of_block_bits(read(bits, count))
}

#[no_mangle]
pub unsafe extern "C" fn limit_crc_of_block(bits: *const u8, count: usize) -> u32 {
    limit::checksum::of_block_bits(read(bits, count))
}

#[no_mangle]
pub unsafe extern "C" fn plain_judge(record: *const u8, octets: usize) -> u32 {
    number(plain::judge::judge(read(record, octets)))
}

/// There is no faster shape of it worth the name, nor of planning.
#[no_mangle]
pub unsafe extern "C" fn limit_judge(record: *const u8, octets: usize) -> u32 {
    plain_judge(record, octets)
}

/// The code blocks of a plan, 0 where it is refused.
#[no_mangle]
pub unsafe extern "C" fn plain_plan(record: *const u8, octets: usize, edition: usize, length: usize) -> usize {
    let record = read(record, octets);
    let plan =
        plain::judge::judge(record).and_then(|()| record::planned(&record::Profile::of(record), edition, length));
    plan.map_or(0, |plan| plan.blocks)
}

#[no_mangle]
pub unsafe extern "C" fn limit_plan(record: *const u8, octets: usize, edition: usize, length: usize) -> usize {
    plain_plan(record, octets, edition, length)
}

macro_rules! matches {
    ($($name:ident $call:path;)*) => { $(
        #[no_mangle]
        pub unsafe extern "C" fn $name(
            coded: *const u8, count: usize, kind: usize, rv: usize, e: usize, out: *mut u8, room: usize,
        ) -> u32 {
            number($call(read(coded, count), kind, rv, e, write(out, room)))
        }
    )* };
}

matches! {
    plain_match plain::matching::by_place;
    limit_match limit::matching::by_run;
}

macro_rules! codings {
    ($($name:ident $call:path;)*) => { $(
        #[no_mangle]
        pub unsafe extern "C" fn $name(
            record: *const u8, octets: usize, z: usize, places: *const u8, count: usize, out: *mut u8, room: usize,
        ) -> u32 {
            number($call(read(record, octets), z, read(places, count), write(out, room)))
        }
    )* };
}

codings! {
    plain_code plain::parity::code;
    limit_code limit::parity::code;
}

macro_rules! checks {
    ($($name:ident $call:path;)*) => { $(
        #[no_mangle]
        pub unsafe extern "C" fn $name(record: *const u8, octets: usize, z: usize, word: *const u8, count: usize) -> u32 {
            match $call(read(record, octets), z, read(word, count)) {
                Ok(true) => 0,
                Ok(false) => DOES_NOT_CHECK,
                Err(number) => number,
            }
        }
    )* };
}

checks! {
    plain_check plain::parity::check;
    limit_check limit::parity::check;
}

macro_rules! sends {
    ($($name:ident $call:path;)*) => { $(
        #[no_mangle]
        pub unsafe extern "C" fn $name(
            record: *const u8, octets: usize, block: *const u8, length: usize,
            nl: usize, qm: usize, rv: usize, edition: usize, g: usize, out: *mut u8, room: usize,
        ) -> u32 {
            let terms = Terms { nl, qm, rv, edition, g };
            number($call(read(record, octets), read(block, length), terms, write(out, room)))
        }
    )* };
}

sends! {
    plain_send plain::send::send;
    limit_send limit::send::send;
}

macro_rules! receives {
    ($($name:ident $call:path;)*) => { $(
        #[no_mangle]
        pub unsafe extern "C" fn $name(
            record: *const u8, octets: usize, a: usize, nl: usize, qm: usize, rv: usize, edition: usize,
            bits: *const u8, g: usize, out: *mut u8, room: usize,
        ) -> u32 {
            let terms = Terms { nl, qm, rv, edition, g };
            number($call(read(record, octets), a, terms, read(bits, g), write(out, room)))
        }
    )* };
}

receives! {
    plain_receive plain::receive::receive;
    limit_receive limit::receive::receive;
}

macro_rules! control_words {
    ($($code:ident $match_streams:ident $send:ident $streams_of:ident
       $coded:path, $matched:path, $sent:path, $back:path;)*) => { $(
        #[no_mangle]
        pub unsafe extern "C" fn $code(word: *const u8, count: usize, out: *mut u8, room: usize) -> u32 {
            number($coded(read(word, count), write(out, room)))
        }

        #[no_mangle]
        pub unsafe extern "C" fn $match_streams(
            d: usize, streams: *const u8, count: usize, e: usize, out: *mut u8, room: usize,
        ) -> u32 {
            number($matched(d, read(streams, count), e, write(out, room)))
        }

        #[no_mangle]
        pub unsafe extern "C" fn $send(word: *const u8, count: usize, e: usize, out: *mut u8, room: usize) -> u32 {
            number($sent(read(word, count), e, write(out, room)))
        }

        #[no_mangle]
        pub unsafe extern "C" fn $streams_of(
            d: usize, bits: *const u8, count: usize, out: *mut u8, room: usize,
        ) -> u32 {
            number($back(d, read(bits, count), write(out, room)))
        }
    )* };
}

control_words! {
    plain_code_word plain_match_streams plain_send_word plain_streams_of
        plain::control::code_word, plain::control::match_streams, plain::control::send_word, plain::control::streams_of;
    limit_code_word limit_match_streams limit_send_word limit_streams_of
        limit::control::code_word, limit::control::match_streams, limit::control::send_word, limit::control::streams_of;
}

macro_rules! nearest_words {
    ($($name:ident $call:path;)*) => { $(
        #[no_mangle]
        pub unsafe extern "C" fn $name(d: usize, heard: *const u8, count: usize, out: *mut u8, room: usize) -> u64 {
            match $call(d, read(heard, count), write(out, room)) {
                Ok(differences) => (differences as u64) << 32 | (d as u64) << 48,
                Err(number) => number.into(),
            }
        }
    )* };
}

nearest_words! {
    plain_nearest_word plain::nearest::nearest_word;
    limit_nearest_word limit::nearest::nearest_word;
}

macro_rules! hosted {
    ($($lookup:ident $send:ident $receive:ident $found:path, $sent:path, $received:path;)*) => { $(
        #[no_mangle]
        pub unsafe extern "C" fn $lookup(
            private: *const u8, own: usize, public: *const u8, others: usize, tenant: u16, profile: u16,
        ) -> usize {
            $found(read(private, own), read(public, others), tenant, profile).map_or(0, |record| record.len())
        }

        #[no_mangle]
        pub unsafe extern "C" fn $send(
            private: *const u8, own: usize, public: *const u8, others: usize, tenant: u16, profile: u16,
            block: *const u8, length: usize, nl: usize, qm: usize, rv: usize, edition: usize, g: usize,
            out: *mut u8, room: usize,
        ) -> u32 {
            let found = $found(read(private, own), read(public, others), tenant, profile);
            let terms = Terms { nl, qm, rv, edition, g };
            number(found.and_then(|record| $sent(record, read(block, length), terms, write(out, room))))
        }

        #[no_mangle]
        pub unsafe extern "C" fn $receive(
            private: *const u8, own: usize, public: *const u8, others: usize, tenant: u16, profile: u16,
            a: usize, nl: usize, qm: usize, rv: usize, edition: usize, bits: *const u8, g: usize,
            out: *mut u8, room: usize,
        ) -> u32 {
            let found = $found(read(private, own), read(public, others), tenant, profile);
            let terms = Terms { nl, qm, rv, edition, g };
            number(found.and_then(|record| $received(record, a, terms, read(bits, g), write(out, room))))
        }
    )* };
}

hosted! {
    plain_lookup plain_hosted_send plain_hosted_receive
        plain::shelf::lookup, plain::send::send, plain::receive::receive;
    limit_lookup limit_hosted_send limit_hosted_receive
        limit::shelf::lookup, limit::send::send, limit::receive::receive;
}
