//! Shelves: a tenant's record looked up, sent and received with, put on a private shelf and removed.

use std::marker::PhantomData;

use crate::counts::{CodedBits, Octets, ProfileNumber, Size, Tenant, Terms};
use crate::profile::{Checker, Profile};
use crate::raw::{self, call};
use crate::refusal::Refusal;
use crate::rules::BrokenShelf;

/// Says of a shelf that it is private: its records are tenants' own.
#[derive(Clone, Copy, Debug, PartialEq, Eq)]
pub enum Private {}

/// Says of a shelf that it is public: its records are everybody's.
#[derive(Clone, Copy, Debug, PartialEq, Eq)]
pub enum Public {}

/// Which of the two shelves.
#[derive(Clone, Copy, Debug, PartialEq, Eq)]
pub enum Side {
    /// The private one.
    Private,
    /// The public one.
    Public,
}

/// The octets of a shelf, private or public. Nothing is tested when it is made: a call refuses a
/// shelf that is not well formed. `&[0, 0]` is a shelf with nothing on it.
///
/// A public shelf does not stand in for a private one:
///
/// ```compile_fail,E0308
/// use kuambyte::{Shelf, Shelves};
/// let octets = [0, 0];
/// let shelves = Shelves { private: Shelf::public(&octets), public: Shelf::public(&octets) };
/// ```
#[derive(Clone, Copy, Debug, PartialEq, Eq)]
pub struct Shelf<'a, S> {
    octets: &'a [u8],
    side: PhantomData<S>,
}

/// Both shelves, as a lookup takes them.
#[derive(Clone, Copy, Debug, PartialEq, Eq)]
pub struct Shelves<'a> {
    /// The one with tenants' own records.
    pub private: Shelf<'a, Private>,
    /// The one with everybody's.
    pub public: Shelf<'a, Public>,
}

/// The record that a tenant is given: where it lies, and its octets, which are no copy.
#[derive(Clone, Copy, Debug, PartialEq, Eq)]
pub struct Found<'a> {
    /// The shelf that has it.
    pub side: Side,
    /// The octet of that shelf with which it begins.
    pub start: usize,
    /// The record.
    pub record: &'a [u8],
}

impl<'a, S> Shelf<'a, S> {
    fn of(octets: &'a [u8]) -> Shelf<'a, S> {
        let side = PhantomData;
        Shelf { octets, side }
    }

    /// The octets.
    #[must_use]
    pub fn octets(&self) -> &'a [u8] {
        self.octets
    }
}

impl<'a> Shelf<'a, Public> {
    /// These octets as a public shelf.
    #[must_use]
    pub fn public(octets: &'a [u8]) -> Shelf<'a, Public> {
        Shelf::of(octets)
    }

    /// The first rule of a shelf that it breaks, or none where it is well formed.
    #[must_use]
    pub fn broken(&self) -> Option<BrokenShelf> {
        BrokenShelf::of(raw::PUBLIC, self.octets)
    }
}

impl<'a> Shelf<'a, Private> {
    /// These octets as a private shelf.
    #[must_use]
    pub fn private(octets: &'a [u8]) -> Shelf<'a, Private> {
        Shelf::of(octets)
    }

    /// The first rule of a shelf that it breaks, or none where it is well formed.
    #[must_use]
    pub fn broken(&self) -> Option<BrokenShelf> {
        BrokenShelf::of(raw::PRIVATE, self.octets)
    }

    /// Writes the shelf on which `record` is the tenant's of this profile number, in the place of
    /// the one that is; all other records are as they were. 65,535 octets are always enough.
    ///
    /// # Errors
    /// 1, 2, 5, 6, 26, 11.
    pub fn put<'o>(
        &self,
        tenant: Tenant,
        profile: ProfileNumber,
        record: &[u8],
        out: &'o mut [u8],
    ) -> Result<&'o mut [u8], Refusal> {
        let private = self.octets;
        let answer = call!(kuambyte_put_record: read private (tenant.0.into()) (profile.0.into()) read record write out);
        raw::written(answer, out)
    }

    /// Writes the shelf without the tenant's record of this profile number, which is shorter than
    /// this one.
    ///
    /// # Errors
    /// 1, 2, 4, 11.
    pub fn remove<'o>(
        &self,
        tenant: Tenant,
        profile: ProfileNumber,
        out: &'o mut [u8],
    ) -> Result<&'o mut [u8], Refusal> {
        let private = self.octets;
        let answer = call!(kuambyte_remove_record: read private (tenant.0.into()) (profile.0.into()) write out);
        raw::written(answer, out)
    }
}

impl<'a> Shelves<'a> {
    /// The record of a profile number that a tenant is given: its own, else the public one.
    ///
    /// # Errors
    /// 1, 2, 3, 4.
    pub fn lookup(&self, tenant: Tenant, profile: ProfileNumber) -> Result<Found<'a>, Refusal> {
        let (private, public) = (self.private.octets, self.public.octets);
        let stretch =
            call!(kuambyte_lookup: read private read public (tenant.0.into()) (profile.0.into()));
        let (side, octets) = match stretch.shelf {
            raw::PRIVATE => (Side::Private, private),
            _ => (Side::Public, public),
        };
        let start = stretch.start;
        let record = &octets[start..start + stretch.octets];
        raw::done(
            stretch.number,
            Found {
                side,
                start,
                record,
            },
        )
    }

    /// The profile of that record, judged once. To look at a record that is refused, look it up and
    /// ask [`broken_record`](crate::rules::broken_record).
    ///
    /// # Errors
    /// 1, 2, 3, 4 as [`Shelves::lookup`], then 5, 6 as [`Profile::new`].
    pub fn profile(&self, tenant: Tenant, profile: ProfileNumber) -> Result<Profile<'a>, Refusal> {
        Profile::new(self.lookup(tenant, profile)?.record)
    }

    /// Looks the record up and sends a block with it, as [`Profile::send`] does.
    ///
    /// # Errors
    /// 1, 2, 3, 4 as [`Shelves::lookup`], then 5, 6, 19, 7, 16, 8, 9, 10, 11.
    pub fn send<'o>(
        &self,
        tenant: Tenant,
        profile: ProfileNumber,
        block: &[u8],
        terms: Terms,
        g: CodedBits,
        out: &'o mut [u8],
    ) -> Result<&'o mut [u8], Refusal> {
        let (private, public) = (self.private.octets, self.public.octets);
        let answer = call!(kuambyte_hosted_send: read private read public (tenant.0.into()) (profile.0.into()) read block (terms.raw()) (g.0) write out);
        raw::written(answer, out)
    }

    /// Looks the record up and receives bits with it, as [`Profile::receive`] does.
    ///
    /// # Errors
    /// 1, 2, 3, 4 as [`Shelves::lookup`], then 5, 6, 19, 7, 16, 8, 9, 10, 11, 12, 13, 14.
    pub fn receive<'o>(
        &self,
        tenant: Tenant,
        profile: ProfileNumber,
        block: Octets,
        terms: Terms,
        bits: &[u8],
        out: &'o mut [u8],
    ) -> Result<&'o mut [u8], Refusal> {
        self.receive_by(tenant, profile, block, terms, bits, Checker::Quick, out)
    }

    /// The same by the checker that is asked for.
    ///
    /// # Errors
    /// As [`Shelves::receive`].
    #[allow(clippy::too_many_arguments)] // Two shelves, who asks for what, and a block.
    pub fn receive_by<'o>(
        &self,
        tenant: Tenant,
        profile: ProfileNumber,
        block: Octets,
        terms: Terms,
        bits: &[u8],
        checker: Checker,
        out: &'o mut [u8],
    ) -> Result<&'o mut [u8], Refusal> {
        let (private, public) = (self.private.octets, self.public.octets);
        let answer = call!(kuambyte_hosted_receive: read private read public (tenant.0.into()) (profile.0.into()) (block.bits()) (terms.raw()) read bits (checker.number()) write out);
        raw::written(answer, out)
    }

    /// Looks the record up and says whether a word checks, as [`Profile::check_word`] does.
    ///
    /// # Errors
    /// 1, 2, 3, 4 as [`Shelves::lookup`], then 5, 6, 8, 12.
    pub fn check_word(
        &self,
        tenant: Tenant,
        profile: ProfileNumber,
        z: Size,
        word: &[u8],
    ) -> Result<bool, Refusal> {
        self.check_word_by(tenant, profile, z, word, Checker::Quick)
    }

    /// The same by the checker that is asked for.
    ///
    /// # Errors
    /// As [`Shelves::check_word`].
    pub fn check_word_by(
        &self,
        tenant: Tenant,
        profile: ProfileNumber,
        z: Size,
        word: &[u8],
        checker: Checker,
    ) -> Result<bool, Refusal> {
        let (private, public) = (self.private.octets, self.public.octets);
        let answer = call!(kuambyte_hosted_check: read private read public (tenant.0.into()) (profile.0.into()) (z.0) read word (checker.number()));
        raw::tested(answer)
    }
}
