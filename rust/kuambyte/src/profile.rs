//! A profile: how a block is cut with it, sent and received, and one code block coded and checked.

use crate::counts::{CodedBits, Edition, Octets, RedundancyVersion, Size, Terms, Type};
use crate::raw::{self, call};
use crate::refusal::Refusal;

/// A profile record that was judged good, so that no call with it is refused for the record.
///
/// ```
/// use kuambyte::{Profile, Refusal, Size};
///
/// let toy = [0, 1, 0, 3, 0, 0, 0, 1, 0, 1, 0, 2, 0, 14, 0, 1, 0, 255, 1, 0, 0, 0, 255, 1, 255, 0];
/// let profile = Profile::new(&toy)?;
/// assert!(profile.check_word(Size(2), &[0, 1, 1, 1, 1, 0, 1, 1])?);
///
/// assert_eq!(Profile::new(&toy[..25]), Err(Refusal::Profile));
/// # Ok::<(), Refusal>(())
/// ```
#[derive(Clone, Copy, Debug, PartialEq, Eq)]
pub struct Profile<'a> {
    record: &'a [u8],
}

/// How a transport block is cut.
#[derive(Clone, Copy, Debug, PartialEq, Eq)]
pub struct Plan {
    /// B, the bits of the block and its checksum.
    pub bits: usize,
    /// Kmax, the most that one code block holds.
    pub kmax: usize,
    /// C, the count of code blocks.
    pub blocks: usize,
    /// K, the systematic places of each.
    pub places: usize,
    /// The size that they are coded with.
    pub z: Size,
    /// Which of the record's sizes that is, from 0.
    pub index: usize,
    /// L, the bits of each block's own checksum: 24, or 0 where it has none.
    pub sums: usize,
}

/// The least G with which every code block has room for all its coded bits.
#[derive(Clone, Copy, Debug, PartialEq, Eq)]
pub struct Least {
    /// G, the bits to ask for.
    pub g: CodedBits,
    /// C, the count of code blocks.
    pub blocks: usize,
    /// How many of them, the first ones, have one symbol place more than the others.
    pub larger: usize,
    /// E of the first block.
    pub first: CodedBits,
    /// E of the last block.
    pub last: CodedBits,
}

/// Who checks a word. Both give the same answer, which is proved.
#[derive(Clone, Copy, Debug, PartialEq, Eq)]
pub enum Checker {
    /// Adds up shifted groups of places.
    Quick,
    /// Goes through the spread-out matrix element by element, as one would by hand.
    Plain,
}

impl Checker {
    pub(crate) fn number(self) -> u32 {
        match self {
            Checker::Quick => raw::QUICK,
            Checker::Plain => raw::PLAIN,
        }
    }
}

impl<'a> Profile<'a> {
    /// The profile of a record.
    ///
    /// # Errors
    /// 5, 6.
    pub fn new(record: &'a [u8]) -> Result<Profile<'a>, Refusal> {
        let number = call!(kuambyte_judge: read record);
        raw::done(number, Profile { record })
    }

    /// The record.
    #[must_use]
    pub fn record(&self) -> &'a [u8] {
        self.record
    }

    /// kb, the groups of systematic places.
    #[must_use]
    pub fn kb(&self) -> usize {
        self.number(0)
    }

    /// m, the groups of rows of the staircase.
    #[must_use]
    pub fn m(&self) -> usize {
        self.number(2)
    }

    /// x, the groups of rows of the extension.
    #[must_use]
    pub fn x(&self) -> usize {
        self.number(4)
    }

    /// The type.
    #[must_use]
    pub fn kind(&self) -> Type {
        Type(self.number(6))
    }

    /// The sizes, which rise; a code block is coded with one of them.
    pub fn sizes(&self) -> impl Iterator<Item = Size> + 'a {
        let profile = *self;
        (0..self.number(8)).map(move |k| Size(profile.number(10 + 4 * k)))
    }

    /// The number of two octets that stands so far into the record, which is long enough: it was
    /// judged.
    fn number(&self, at: usize) -> usize {
        usize::from(u16::from_be_bytes([self.record[at], self.record[at + 1]]))
    }

    /// How a transport block of so many octets is cut.
    ///
    /// # Errors
    /// 19, 7, 9.
    pub fn plan(&self, edition: Edition, block: Octets) -> Result<Plan, Refusal> {
        let record = self.record;
        let plan = call!(kuambyte_plan_block: read record (edition.0) (block.0));
        let given = Plan {
            bits: plan.bits,
            kmax: plan.kmax,
            blocks: plan.blocks,
            places: plan.places,
            z: Size(plan.z),
            index: plan.index,
            sums: plan.sums,
        };
        raw::done(plan.number, given)
    }

    /// The least G with which a transport block of so many octets can be received: what to ask for
    /// before sending.
    ///
    /// # Errors
    /// 19, 7, 16, 8 for layers or order, 9, and 13 where no G up to 65,536 has room.
    pub fn least_bits(&self, block: Octets, terms: Terms) -> Result<Least, Refusal> {
        let record = self.record;
        let least = call!(kuambyte_least_bits: read record (block.0) (terms.raw()));
        let given = Least {
            g: CodedBits(least.g),
            blocks: least.blocks,
            larger: least.larger,
            first: CodedBits(least.first),
            last: CodedBits(least.last),
        };
        raw::done(least.number, given)
    }

    /// Sends a transport block as `g` bits, a multiple of layers times order up to 65,536, which are
    /// handed back as the front of `out`. With fewer than [`Profile::least_bits`] gives it is sent as
    /// well, but cannot be received: that is refused with 13.
    ///
    /// # Errors
    /// 19, 7, 16, 8, 9, 10, 11.
    pub fn send<'o>(
        &self,
        block: &[u8],
        terms: Terms,
        g: CodedBits,
        out: &'o mut [u8],
    ) -> Result<&'o mut [u8], Refusal> {
        let record = self.record;
        let answer = call!(kuambyte_send: read record read block (terms.raw()) (g.0) write out);
        raw::written(answer, out)
    }

    /// Receives bits, whose count is G, as a transport block of so many octets, which are handed
    /// back as the front of `out`.
    ///
    /// # Errors
    /// 19, 7, 16, 8, 9, 10, 11, 12, 13, 14.
    pub fn receive<'o>(
        &self,
        block: Octets,
        terms: Terms,
        bits: &[u8],
        out: &'o mut [u8],
    ) -> Result<&'o mut [u8], Refusal> {
        self.receive_by(block, terms, bits, Checker::Quick, out)
    }

    /// The same by the checker that is asked for.
    ///
    /// # Errors
    /// As [`Profile::receive`].
    pub fn receive_by<'o>(
        &self,
        block: Octets,
        terms: Terms,
        bits: &[u8],
        checker: Checker,
        out: &'o mut [u8],
    ) -> Result<&'o mut [u8], Refusal> {
        let (record, a) = (self.record, block.bits());
        let answer = call!(kuambyte_receive:
            read record (a) (terms.raw()) read bits (checker.number()) write out);
        raw::written(answer, out)
    }

    /// Codes one block of kb·z places, 0, 1 and the filler mark 2, to (kb+m+x)·z places.
    ///
    /// # Errors
    /// 8 for a size or a count of places that the record does not give, 11, 12 for a place over 2.
    pub fn code_block<'o>(
        &self,
        z: Size,
        places: &[u8],
        out: &'o mut [u8],
    ) -> Result<&'o mut [u8], Refusal> {
        let record = self.record;
        let answer = call!(kuambyte_code_block: read record (z.0) read places write out);
        raw::written(answer, out)
    }

    /// Whether every row of the matrix sums to an even number over a word of (kb+m+x)·z bits.
    ///
    /// # Errors
    /// 8 for a size or a length that the record does not give, 12.
    pub fn check_word(&self, z: Size, word: &[u8]) -> Result<bool, Refusal> {
        self.check_word_by(z, word, Checker::Quick)
    }

    /// The same by the checker that is asked for.
    ///
    /// # Errors
    /// As [`Profile::check_word`].
    pub fn check_word_by(&self, z: Size, word: &[u8], checker: Checker) -> Result<bool, Refusal> {
        let record = self.record;
        let number = checker.number();
        raw::tested(call!(kuambyte_check_word: read record (z.0) read word (number)))
    }

    /// What each of the (m+x)·z rows sums to over a word, modulo two: 0 for an even row.
    ///
    /// # Errors
    /// 8 as [`Profile::check_word`], 11, 12.
    pub fn row_sums<'o>(
        &self,
        z: Size,
        word: &[u8],
        out: &'o mut [u8],
    ) -> Result<&'o mut [u8], Refusal> {
        let record = self.record;
        let answer = call!(kuambyte_row_sums: read record (z.0) read word write out);
        raw::written(answer, out)
    }
}

/// The `e` bits that are sent of a coded block, whose marks may stand anywhere, from the start that
/// the type of its profile and a redundancy version give.
///
/// ```
/// use kuambyte::{rate_match, CodedBits, RedundancyVersion, Type};
///
/// let mut out = [0; 9];
/// let sent = rate_match(&[1, 2, 0, 0], Type::ONE, RedundancyVersion(0), CodedBits(9), &mut out)?;
/// assert_eq!(sent, [1, 0, 0, 1, 0, 0, 1, 0, 0]);
/// # Ok::<(), kuambyte::Refusal>(())
/// ```
///
/// # Errors
/// 5 for a type other than 1 or 2, 16, 8 for E, 11, 12 for a place over 2.
pub fn rate_match<'o>(
    places: &[u8],
    kind: Type,
    rv: RedundancyVersion,
    e: CodedBits,
    out: &'o mut [u8],
) -> Result<&'o mut [u8], Refusal> {
    let answer = call!(kuambyte_rate_match: read places (kind.0) (rv.0) (e.0) write out);
    raw::written(answer, out)
}
