//! The second implementation as a library: the program `second` is a thin start over it, and the tests of
//! `rust/kuambyte` read its generated requests and its answers.

mod allocation;
pub mod answer;
mod checksum;
mod control;
mod draft;
mod edition;
pub mod errors;
pub mod form;
pub mod generate;
mod hosted;
mod keep;
pub mod kinds;
pub mod lines;
mod masked;
mod matrix;
pub mod numbers;
mod octets;
pub mod output;
mod parity;
mod plan;
mod random;
mod rate;
mod receive;
mod record;
pub mod replay;
pub mod requests;
pub mod rewrite;
mod samples;
mod send;
pub mod shelf;
pub mod shelves;
pub mod tables;
mod transfer;
mod version;
pub mod words;
