//! Fast plain Rust on the product's layout: an octet for a bit, slices and iterators, and every refusal of the product.

pub mod checksum;
pub mod control;
pub mod judge;
pub mod matching;
pub mod nearest;
pub mod octets;
pub mod parity;
pub mod receive;
pub mod send;
pub mod shelf;
