//! Safe calls of Kuambyte's proved coding library.
//!
//! A tenant's profile is looked up on two shelves, and a transport block is sent with it as bits and received again:
//!
//! ```
//! use kuambyte::{Layers, Octets, Order, ProfileNumber, Refusal, Shelf, Shelves, Tenant, Terms};
//!
//! # let toy = [0, 1, 0, 3, 0, 0, 0, 1, 0, 1, 0, 2, 0, 14, 0, 1, 0, 255, 1, 0, 0, 0, 255, 1, 255, 0];
//! # let mut private = vec![0, 1, 0, 1, 0, 7, 0, 10, 0, 26];
//! # private.extend_from_slice(&toy);
//! # let public = [0, 0];
//! let shelves = Shelves {
//!     private: Shelf::private(&private),
//!     public: Shelf::public(&public),
//! };
//! let profile = shelves.profile(Tenant(1), ProfileNumber(7))?;
//!
//! let terms = Terms::new(Layers(1), Order(2));
//! let least = profile.least_bits(Octets(2), terms)?;
//! let mut bits = vec![0; least.g.0];
//! let sent = profile.send(b"Hi", terms, least.g, &mut bits)?;
//!
//! let mut block = [0; 2];
//! assert_eq!(profile.receive(Octets(2), terms, sent, &mut block)?, b"Hi");
//!
//! sent[0] ^= 1;
//! assert_eq!(profile.receive(Octets(2), terms, sent, &mut block), Err(Refusal::Unsent));
//! # Ok::<(), Refusal>(())
//! ```
//!
//! Every call ends with one answer, `Ok` or the [`Refusal`] whose condition comes first in the call's list. A call that writes is
//! lent an output and hands back the part that it wrote; what lies behind that part stays as it was, and a refusal changes
//! nothing. That it is so for every input is proved; `docs/PROMISES.md` of the project says what exactly, and
//! `docs/LIBRARY.md` which function of C stands behind each call.
//!
//! Single bits stand one to an octet, 0 or 1; places are bits or 2, the mark of filler. A transport block, a record and a shelf
//! are packed octets.
//!
//! What a call reads and what it writes are different buffers, and the borrow checker sees to it:
//!
//! ```compile_fail,E0502
//! # use kuambyte::{checksum, Mask, Width};
//! let mut word = [0u8; 24];
//! let (width, mask) = (Width::Sixteen, Mask(0xffff));
//! let appended = checksum::append_under(width, mask, &word[..8], &mut word);
//! ```
//!
//! The library is compiled for x86-64 Linux. Nothing is kept between calls, so any thread may call at any time.

#[cfg(not(all(target_arch = "x86_64", target_os = "linux")))]
compile_error!(
    "kuambyte links libkuambyte.a, which is compiled for x86-64 Linux only: build with --target x86_64-unknown-linux-gnu \
     (README.md of the project says what that needs on another machine)"
);

pub mod checksum;
pub mod control;
mod counts;
mod profile;
mod raw;
mod refusal;
pub mod rules;
mod shelf;

pub use counts::{
    Checksum, CodedBits, Edition, Layers, Mask, Octets, Order, ProfileNumber, RedundancyVersion,
    Size, Tenant, Terms, Type, Width, WordLength,
};
pub use profile::{rate_match, Checker, Least, Plan, Profile};
pub use refusal::Refusal;
pub use shelf::{Found, Private, Public, Shelf, Shelves, Side};
