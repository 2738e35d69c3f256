//! What is counted, each with a type of its own, so that a count of layers is never taken for one of bits.

use std::fmt;

use crate::raw;

macro_rules! counts {
    ($($(#[$doc:meta])* $name:ident($inner:ty);)*) => {$(
        $(#[$doc])*
        #[derive(Clone, Copy, Debug, PartialEq, Eq, PartialOrd, Ord, Hash)]
        pub struct $name(pub $inner);

        impl fmt::Display for $name {
            fn fmt(&self, f: &mut fmt::Formatter<'_>) -> fmt::Result {
                self.0.fmt(f)
            }
        }
    )*};
}

counts! {
    /// A tenant of the service, 1 to 65,535.
    Tenant(u16);
    /// The number under which a profile stands on a shelf.
    ProfileNumber(u16);
    /// N_L, the layers that a block is sent over, 1 to 4.
    Layers(usize);
    /// Q_m, the bits to a symbol: 2, 4 or 6.
    Order(usize);
    /// From where a coded block is sent, 0 to 3; 0 with a profile of Type 1.
    RedundancyVersion(usize);
    /// A count of coded bits: G of a transport block, E of a code block or a control word.
    CodedBits(usize);
    /// The octets of a transport block, 1 to 2,048.
    Octets(usize);
    /// z, by which the matrix of a profile is spread out.
    Size(usize);
    /// D, the bits of a control word, 6 to 128.
    WordLength(usize);
    /// A checksum; its highest bit, of as many as the width says, comes first.
    Checksum(u32);
    /// What is added to a checksum, bit by bit: its lowest bits, as many as the checksum has.
    Mask(u64);
}

/// Whether each code block of a transport block that is cut carries a checksum of its own.
///
/// The number is open, since the library refuses another edition itself; [`Edition::ONE`] and [`Edition::TWO`] are there.
#[derive(Clone, Copy, Debug, PartialEq, Eq, Hash)]
pub struct Edition(pub usize);

impl Edition {
    /// Code blocks carry no checksum.
    pub const ONE: Edition = Edition(1);
    /// Code blocks of a block that is cut carry one each.
    pub const TWO: Edition = Edition(2);
}

/// The type of a profile, by which a coded block is rate-matched; [`Type::ONE`] and [`Type::TWO`] are there.
#[derive(Clone, Copy, Debug, PartialEq, Eq, Hash)]
pub struct Type(pub usize);

impl Type {
    /// Sent from its first place.
    pub const ONE: Type = Type(1);
    /// Sent from where the redundancy version says.
    pub const TWO: Type = Type(2);
}

/// The bits of a checksum: no other width has one.
#[derive(Clone, Copy, Debug, PartialEq, Eq, Hash)]
pub enum Width {
    /// 8 bits, generator 9B.
    Eight = 8,
    /// 16 bits, generator 1021.
    Sixteen = 16,
    /// 24 bits, generator 24A.
    TwentyFour = 24,
}

impl Width {
    /// How many bits these are.
    #[must_use]
    pub fn bits(self) -> usize {
        self as usize
    }
}

/// What travels with every block that is sent or received. What was sent with some terms is received with the same.
#[derive(Clone, Copy, Debug, PartialEq, Eq, Hash)]
pub struct Terms {
    /// N_L.
    pub layers: Layers,
    /// Q_m.
    pub order: Order,
    /// The redundancy version.
    pub rv: RedundancyVersion,
    /// The edition.
    pub edition: Edition,
}

/// ```
/// use kuambyte::{Edition, Layers, Order, RedundancyVersion, Terms};
///
/// let terms = Terms::new(Layers(2), Order(4)).edition(Edition::TWO);
/// assert_eq!((terms.rv, terms.edition), (RedundancyVersion(0), Edition(2)));
/// ```
impl Terms {
    /// Terms of redundancy version 0 and edition 1.
    #[must_use]
    pub fn new(layers: Layers, order: Order) -> Terms {
        Terms {
            layers,
            order,
            rv: RedundancyVersion(0),
            edition: Edition::ONE,
        }
    }

    /// The same with this redundancy version.
    #[must_use]
    pub fn rv(self, rv: RedundancyVersion) -> Terms {
        Terms { rv, ..self }
    }

    /// The same in this edition.
    #[must_use]
    pub fn edition(self, edition: Edition) -> Terms {
        Terms { edition, ..self }
    }
}

impl Terms {
    pub(crate) fn raw(self) -> raw::Terms {
        raw::Terms {
            layers: self.layers.0,
            order: self.order.0,
            rv: self.rv.0,
            edition: self.edition.0,
        }
    }
}

impl Octets {
    /// A, the bits of so many octets. Where there are more than can be counted, the largest number
    /// stands for them, which is refused as every length over 2,048 octets is.
    pub(crate) fn bits(self) -> usize {
        self.0.saturating_mul(8)
    }
}
