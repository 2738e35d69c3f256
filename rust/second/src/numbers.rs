//! The numbers that are answered, under names (document 01, "Numbers that are answered").

pub type Number = u8;

pub const DONE: Number = 0;

/// The asking tenant is 0.
pub const TENANT_0: Number = 1;

/// The private shelf is not well formed.
pub const PRIVATE_SHELF: Number = 2;

/// The public shelf is not well formed.
pub const PUBLIC_SHELF: Number = 3;

/// Neither shelf has the record.
pub const NO_RECORD: Number = 4;

/// The profile record is not well formed.
pub const RECORD: Number = 5;

/// A table is no staircase.
pub const STAIRCASE: Number = 6;

/// The transport block has not 1 to 2,048 octets.
pub const BLOCK_LENGTH: Number = 7;

/// A number that is asked for is none of those that there are: N_L, Q_m or G against step 5; in a
/// call for one part alone a z, a length, a width or an E.
pub const PARAMETER: Number = 8;

/// The transport block would be cut into more than 64 code blocks, or in edition 2 into blocks that have
/// no room but for their checksum.
pub const MANY_BLOCKS: Number = 9;

/// There are fewer symbol places than code blocks.
pub const FEW_PLACES: Number = 10;

/// The output is shorter than what would be written.
pub const OUTPUT: Number = 11;

/// An octet over 1 where single bits are taken, over 2 where filler marks are taken too.
pub const NO_BIT: Number = 12;

/// Some block's share has not room for all its coded places less its filler; or there are fewer bits than the
/// three streams of a control word have.
pub const SHORT_SHARE: Number = 13;

/// No block is sent as these bits, or no three streams are.
pub const UNSENT: Number = 14;

// 15 is unused: every block has parity bits with which it checks (document 02, CR 6).

/// The redundancy version is over 3, or against the type. It is tested between 7 and 8.
pub const VERSION: Number = 16;

/// The control word, or each of its streams, has not 6 to 128 bits. It is tested before 8.
pub const CONTROL_LENGTH: Number = 17;

/// The edition is neither 1 nor 2. It is tested before 7.
pub const EDITION: Number = 19;

/// The new shelf would have over 64 entries or over 65,535 octets. It is tested before 11.
pub const NO_ROOM: Number = 26;
