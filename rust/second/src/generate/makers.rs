//! What the generator knows of a kind of request beside its form: how good and bad ones are made.

use super::write::{self, Words};
use crate::kinds::Kind;
use crate::random::Random;

/// Makers of the words after the name.
pub struct Makers {
    /// Makes a request that is done.
    pub done: Maker,
    /// Makes a request that is refused with a number, or only just not.
    pub refused: Maker,
    /// Make very long requests that are no faults of the format.
    pub large: &'static [Maker],
}

pub type Maker = fn(&mut Random) -> Words;

impl Kind {
    /// A request that is done, its name first.
    pub fn done(&self, random: &mut Random) -> Words {
        self.request(self.makers.done, random)
    }

    /// A request that is refused with a number, or only just not.
    pub fn refused(&self, random: &mut Random) -> Words {
        self.request(self.makers.refused, random)
    }

    /// The request that a maker makes.
    pub fn request(&self, make: Maker, random: &mut Random) -> Words {
        write::request(self.name, make(random))
    }
}
