//! What sending and receiving have in common: numbers 5 to 10, 16 and 19, and the six steps of document 01.

use std::ops::Range;

use crate::allocation::Allocation;
use crate::checksum::{with_block_checksum, with_checksum};
use crate::edition::Edition;
use crate::numbers::Number;
use crate::octets::unpacked;
use crate::parity::{Code, FILLER};
use crate::plan::{block_octets, cut, Plan};
use crate::rate::matched;
use crate::record::{profile, Profile};
use crate::version::Version;

/// N_L, Q_m, G, the redundancy version and the edition as they are asked for: any numbers.
#[derive(Clone, Copy, Debug, PartialEq, Eq)]
pub struct Asked {
    pub layers: u64,
    pub order: u64,
    pub g: u64,
    pub rv: u64,
    pub ed: u64,
}

/// A profile, a block length and an allocation that go together.
#[derive(Debug)]
pub struct Transfer {
    pub profile: Profile,
    pub plan: Plan,
    /// The octets of the transport block, A/8.
    pub octets: usize,
    /// E_r, the bits of each code block.
    pub shares: Vec<usize>,
    /// G, the bits of them all.
    pub g: usize,
    pub version: Version,
}

impl Transfer {
    /// The transfer of a block of A bits, or the first of 5, 6, 19, 7, 16, 8, 9 and 10 that applies: 19 stands
    /// "before 7", and 16 "between 7 and 8".
    pub fn new(record: &[u8], a: u64, asked: Asked) -> Result<Transfer, Number> {
        let profile = profile(record)?;
        let edition = Edition::new(asked.ed)?;
        let octets = block_octets(a)?;
        let version = Version::new(profile.coding, asked.rv)?;
        let allocation = Allocation::new(asked.layers, asked.order, asked.g)?;
        let plan = cut(&profile, octets, edition)?;
        let shares = allocation.shares(plan.c)?;
        Ok(Transfer {
            profile,
            plan,
            octets,
            shares,
            g: allocation.g,
            version,
        })
    }

    /// Where block r's bits stand among the G: its stretch begins where the one before it ends.
    pub fn stretch(&self, r: usize) -> Range<usize> {
        let start = self.shares[..r].iter().sum();
        start..start + self.shares[r]
    }

    /// The G bits that a transport block is sent as. The block has the transfer's length.
    pub fn sent(&self, block: &[u8]) -> Vec<u8> {
        self.sent_with(block, |_, own| self.places(own))
    }

    /// The K systematic places of a code block with these own bits.
    pub fn places(&self, own: &[u8]) -> Vec<u8> {
        // Document 02, CR 8: "each block's own bits are followed by their 24B checksum and then filler".
        let mut places = match self.plan.l {
            0 => own.to_vec(),
            _ => with_block_checksum(own),
        };
        // Step 3: "Places past a block's own bits, at its end, are filler."
        places.resize(self.plan.k, FILLER);
        places
    }

    /// What a transport block is sent as where the K places of block r, with its own bits, are these.
    pub fn sent_with(&self, block: &[u8], places: impl Fn(usize, &[u8]) -> Vec<u8>) -> Vec<u8> {
        // Step 1.
        let bits = with_checksum(&unpacked(block));
        let code = Code::new(&self.profile, self.plan.z);
        let mut rest = &bits[..];
        // "the shares now add up to G".
        let mut sent = Vec::with_capacity(self.g);
        for r in 0..self.plan.c {
            // Step 2: "blocks carry ... bits in order".
            let (own, after) = rest.split_at(self.plan.own_bits(r));
            rest = after;
            // Steps 4 and 6, with block r's own share.
            let coded = code.coded(&places(r, own));
            sent.extend(matched(&coded, self.version, self.shares[r]));
        }
        sent
    }
}
