//! Receives a transport block by sending it again (document 01, "Receiving takes profile, A, N_L,
//! Q_m and the received bits").

use crate::numbers::{Number, NO_BIT, OUTPUT, SHORT_SHARE, UNSENT};
use crate::octets::packed;
use crate::parity::FILLER;
use crate::rate::sent_places;
use crate::transfer::{Asked, Transfer};

/// A, N_L, Q_m, the redundancy version and the edition as they are asked for, any numbers, and the received
/// bits.
#[derive(Clone, Copy, Debug)]
pub struct Received<'bits> {
    pub a: u64,
    pub layers: u64,
    pub order: u64,
    pub rv: u64,
    pub ed: u64,
    pub bits: &'bits [u8],
}

impl Received<'_> {
    /// What sending is asked for to give these bits.
    pub fn asked(&self) -> Asked {
        Asked {
            layers: self.layers,
            order: self.order,
            // "the received bits, whose number is G".
            g: self.bits.len() as u64,
            rv: self.rv,
            ed: self.ed,
        }
    }
}

/// The count of octets written, which is A/8, or 5 to 14, 16 or 19.
pub fn receive(record: &[u8], received: Received, output: &mut [u8]) -> Result<usize, Number> {
    let transfer = Transfer::new(record, received.a, received.asked())?;
    let bits = received.bits;
    if output.len() < transfer.octets {
        return Err(OUTPUT);
    }
    if bits.iter().any(|&bit| bit > 1) {
        return Err(NO_BIT);
    }
    if !has_room(&transfer) {
        return Err(SHORT_SHARE);
    }
    let block = candidate(&transfer, bits);
    // "it accepts exactly the bits that sending some transport block of that length gives". No
    // other block than the candidate has these own bits. "Receiving tests those checksums too": where a
    // code block's 24B is not that of its own bits, it is not sent so.
    if transfer.sent(&block) != bits {
        return Err(UNSENT);
    }
    output[..block.len()].copy_from_slice(&block);
    Ok(block.len())
}

/// Whether every block's share has room for its N, for "numbers 13 and 14 read E_r for each block"
/// (document 02, CR 1).
pub fn has_room(transfer: &Transfer) -> bool {
    let blocks = 0..transfer.plan.c;
    let mut pairs = blocks.map(|r| (transfer.shares[r], unmarked_places(transfer, r)));
    pairs.all(|(share, unmarked)| share >= unmarked)
}

/// "Let N be a block's coded places less its filler."
pub fn unmarked_places(transfer: &Transfer, r: usize) -> usize {
    let plan = &transfer.plan;
    let coded = transfer.profile.columns() * plan.z;
    coded - plan.filler(r)
}

/// The octets that the blocks' own bits give. There is room for each of them.
fn candidate(transfer: &Transfer, bits: &[u8]) -> Vec<u8> {
    let mut whole = Vec::new();
    for r in 0..transfer.plan.c {
        whole.extend(own_bits(transfer, r, &bits[transfer.stretch(r)]));
    }
    // The transport block's checksum follows the bits of the octets.
    packed(&whole[..8 * transfer.octets])
}

/// A block's own bits out of its share: each as the first copy of its place has it.
fn own_bits(transfer: &Transfer, r: usize, share: &[u8]) -> Vec<u8> {
    let mut own = vec![0; transfer.plan.own_bits(r)];
    // The copies backwards, so that the first stays.
    for (&place, &bit) in order(transfer, r).iter().zip(share).rev() {
        if let Some(to) = own.get_mut(place) {
            *to = bit;
        }
    }
    own
}

/// For each bit of a block's share the coded place that it is taken from. Which places are marked decides
/// it, and not what the others hold.
pub fn order(transfer: &Transfer, r: usize) -> Vec<usize> {
    let plan = &transfer.plan;
    let mut places = vec![0; transfer.profile.columns() * plan.z];
    places[plan.carried_bits(r)..plan.k].fill(FILLER);
    sent_places(&places, transfer.version, transfer.shares[r])
}

#[cfg(test)]
mod tests;
