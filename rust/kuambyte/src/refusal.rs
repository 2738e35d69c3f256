//! The refusals: each number that is answered but 0, what it means and what to do next.

use std::error::Error;
use std::fmt;
use std::process::ExitCode;

macro_rules! refusals {
    ($($name:ident = $number:literal, $meaning:literal, $next:literal;)*) => {
        /// Why a call was refused; each is one number of the service.
        ///
        /// ```
        /// use kuambyte::Refusal;
        ///
        /// assert_eq!(Refusal::NoRecord.number(), 4);
        /// assert_eq!(Refusal::from_number(4), Some(Refusal::NoRecord));
        /// assert_eq!(
        ///     Refusal::NoRecord.to_string(),
        ///     "refused 4: neither shelf has the record; look at what is on them with `kuambyte shelf`"
        /// );
        /// ```
        #[derive(Clone, Copy, Debug, PartialEq, Eq, PartialOrd, Ord, Hash)]
        #[non_exhaustive]
        pub enum Refusal {
            $(
                #[doc = concat!("Number ", stringify!($number), ": ", $meaning, ".")]
                $name = $number,
            )*
        }

        impl Refusal {
            /// All of them, in the order of their numbers.
            pub const ALL: &'static [Refusal] = &[$(Refusal::$name),*];

            /// What the number means.
            #[must_use]
            pub fn meaning(self) -> &'static str {
                match self {
                    $(Refusal::$name => $meaning,)*
                }
            }

            /// What to do next.
            #[must_use]
            pub fn next(self) -> &'static str {
                match self {
                    $(Refusal::$name => $next,)*
                }
            }
        }
    };
}

refusals! {
    TenantZero = 1, "the asking tenant is 0",
        "tenants are 1 to 65535";
    PrivateShelf = 2, "the private shelf is not well formed",
        "`Shelf::broken` says which rule it breaks";
    PublicShelf = 3, "the public shelf is not well formed",
        "`Shelf::broken` says which rule it breaks";
    NoRecord = 4, "neither shelf has the record",
        "look at what is on them with `kuambyte shelf`";
    Profile = 5, "the profile record is not well formed",
        "`rules::broken_record` says which rule it breaks";
    NoStaircase = 6, "a table of the profile is no staircase, or its extension is wrong",
        "`rules::broken_record` says which rule it breaks";
    BlockLength = 7, "the transport block is not 1 to 2048 octets",
        "split the block or pad it";
    Parameter = 8, "N_L, Q_m, G or E is not one that can be sent with, or a z, a width or a length is not one that the call takes",
        "N_L is 1 to 4, Q_m 2, 4 or 6, G and E are at most 65536, and G is a multiple of N_L times Q_m";
    TooManyBlocks = 9, "the block takes more than 64 code blocks, or in edition 2 a code block has no room beside its checksum",
        "send a shorter block, or take edition 1 or a profile with larger code blocks";
    TooFewPlaces = 10, "G has fewer symbol places than there are code blocks",
        "`Profile::least_bits` gives the least G with room";
    ShortOutput = 11, "the output is shorter than the result",
        "lend a longer one";
    NoBit = 12, "a received octet is over 1, or a place is over 2",
        "bits stand one to an octet, 0 or 1";
    NoRoom = 13, "there is no room for all coded bits",
        "`Profile::least_bits` gives the least G with room";
    Unsent = 14, "nothing is sent as these bits",
        "ask for it again";
    RedundancyVersion = 16, "the redundancy version is over 3, or is not 0 and the profile is of Type 1",
        "with Type 1 it is 0";
    ControlLength = 17, "the control word is not 6 to 128 bits",
        "split the word or pad it";
    Edition = 19, "the edition is not 1 or 2",
        "`Edition::ONE` and `Edition::TWO` are there";
    FullShelf = 26, "the shelf has no room: it would have over 64 entries or 65535 octets",
        "remove a record first, or take a second shelf";
}

impl Refusal {
    /// The number. `ExitCode::from` makes of a refusal the exit status that the program `kuambyte`
    /// ends with, which is the same number.
    #[must_use]
    pub fn number(self) -> u32 {
        self as u32
    }

    /// The refusal of a number, or none where it is no refusal's.
    #[must_use]
    pub fn from_number(number: u32) -> Option<Refusal> {
        let is = |refusal: &&Refusal| refusal.number() == number;
        Refusal::ALL.iter().find(is).copied()
    }
}

impl fmt::Display for Refusal {
    fn fmt(&self, f: &mut fmt::Formatter<'_>) -> fmt::Result {
        write!(
            f,
            "refused {}: {}; {}",
            self.number(),
            self.meaning(),
            self.next()
        )
    }
}

impl Error for Refusal {}

impl From<Refusal> for ExitCode {
    fn from(refusal: Refusal) -> ExitCode {
        ExitCode::from(refusal as u8)
    }
}
