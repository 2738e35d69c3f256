//! The best shape we know for the same answers: eight checksum tables, a group of bits in one u128, copies by memcpy.
//! The gates are the plain ones; only what streams are taken back from is tested at one go where nothing is refused.

mod bits;
pub mod checksum;
pub mod control;
pub mod matching;
pub mod nearest;
pub mod parity;
pub mod receive;
pub mod send;
pub mod shelf;
