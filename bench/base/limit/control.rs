//! Control words with the three bits of a place in one octet, so that the order, which comes out of a table, is followed
//! once for all three streams. What stands before and behind that goes by vectors.

use crate::plain::control::{back_accepted, code_accepted, match_accepted, repeat, send_accepted, COLUMNS, STREAMS};
use crate::plain::octets::some_over;
use core::array::from_fn;

/// The most bits of a stream.
const STREAM: usize = STREAMS / 3;

/// The places of a vector.
const STEP: usize = 16;

/// Three bits of each place of a stream.
type Places = [u8; STREAM];

pub fn code_word(word: &[u8], out: &mut [u8]) -> Result<(), u32> {
    code_accepted(word, out.len())?;
    split(word.len(), &coded(word), &mut out[..3 * word.len()]);
    Ok(())
}

pub fn match_streams(d: usize, streams: &[u8], e: usize, out: &mut [u8]) -> Result<(), u32> {
    match_accepted(d, streams, e, out.len())?;
    send(d, &joined(d, streams), &mut out[..e]);
    Ok(())
}

pub fn send_word(word: &[u8], e: usize, out: &mut [u8]) -> Result<(), u32> {
    send_accepted(word, e, out.len())?;
    send(word.len(), &coded(word), &mut out[..e]);
    Ok(())
}

pub fn streams_of(d: usize, bits: &[u8], out: &mut [u8]) -> Result<(), u32> {
    if !is_right(d, bits, out.len()) {
        return back_accepted(d, bits, out.len());
    }
    let (sent, mut places) = (joined(d, bits), [0; STREAM]);
    for (&from, &place) in sent[..d].iter().zip(&ORDERS[d]) {
        places[place as usize % STREAM] = from;
    }
    split(d, &places, &mut out[..3 * d]);
    Ok(())
}

/// Whether nothing is refused. Copies of bits are bits, so only the first are tested for that.
fn is_right(d: usize, bits: &[u8], room: usize) -> bool {
    let once = 3 * d.min(STREAM);
    (6..=STREAM).contains(&d)
        && (once..=65536).contains(&bits.len())
        && once <= room
        && !some_over(1, &bits[..once])
        && bits[once..] == bits[..bits.len() - once]
}

/// Of each length the places of a stream, in the order in which they are sent.
const fn orders() -> [Places; STREAM + 1] {
    let mut orders = [[0; STREAM]; STREAM + 1];
    let mut d = 0;
    while d <= STREAM {
        let (mut n, mut j) = (0, 0);
        while j < 32 {
            let mut place = (COLUMNS[j] + d) % 32;
            while place < d {
                orders[d][n] = place as u8;
                n += 1;
                place += 32;
            }
            j += 1;
        }
        d += 1;
    }
    orders
}

static ORDERS: [Places; STREAM + 1] = orders();

/// The word's last six bits stand in front of it, and each output is the sum over its taps.
fn coded(word: &[u8]) -> Places {
    let mut room = [0; 6 + STREAM];
    let (last, own) = room.split_at_mut(6);
    last.copy_from_slice(&word[word.len() - 6..]);
    own[..word.len()].copy_from_slice(word);
    let mut places = [0; STREAM];
    for (step, to) in places[..word.len().next_multiple_of(STEP)].chunks_exact_mut(STEP).enumerate() {
        let [c6, c5, c4, c3, c2, c1, c0] = from_fn(|k| &room[STEP * step + k..][..STEP]);
        for k in 0..STEP {
            let all = c0[k] ^ c2[k] ^ c6[k];
            to[k] = (all ^ c3[k] ^ c5[k]) | (all ^ c1[k] ^ c3[k]) << 1 | (all ^ c1[k] ^ c4[k]) << 2;
        }
    }
    places
}

/// The bits of three streams that lie one after the other.
fn joined(d: usize, streams: &[u8]) -> Places {
    let mut places = [0; STREAM];
    let (first, rest) = streams.split_at(d);
    for (((place, &x), &y), &z) in places.iter_mut().zip(first).zip(rest).zip(&rest[d..]) {
        *place = x | y << 1 | z << 2;
    }
    places
}

/// Lays the three streams one after the other.
fn split(d: usize, places: &Places, out: &mut [u8]) {
    for k in 0..3 {
        for (bit, place) in out[k * d..][..d].iter_mut().zip(places) {
            *bit = place >> k & 1;
        }
    }
}

/// Fills the output with what the streams are sent as.
fn send(d: usize, places: &Places, out: &mut [u8]) {
    let mut sent = [0; STREAM];
    for (to, &place) in sent[..d].iter_mut().zip(&ORDERS[d]) {
        *to = places[place as usize % STREAM];
    }
    if out.len() < 3 * d {
        let mut room = [0; STREAMS];
        split(d, &sent, &mut room[..3 * d]);
        out.copy_from_slice(&room[..out.len()]);
    } else {
        split(d, &sent, &mut out[..3 * d]);
        repeat(out, 3 * d);
    }
}
