//! Control words: a register codes three streams in one pass, and their places are walked column by column, both ways.

use super::octets::some_over;

/// The most bits of three streams.
pub const STREAMS: usize = 3 * 128;

pub const GENERATORS: [u8; 3] = [0o133, 0o171, 0o165];

pub const COLUMNS: [usize; 32] = [
    1, 17, 9, 25, 5, 21, 13, 29, 3, 19, 11, 27, 7, 23, 15, 31, 0, 16, 8, 24, 4, 20, 12, 28, 2, 18, 10, 26, 6, 22, 14,
    30,
];

pub fn code_word(word: &[u8], out: &mut [u8]) -> Result<(), u32> {
    code_accepted(word, out.len())?;
    code(word, &mut out[..3 * word.len()]);
    Ok(())
}

pub fn match_streams(d: usize, streams: &[u8], e: usize, out: &mut [u8]) -> Result<(), u32> {
    match_accepted(d, streams, e, out.len())?;
    matched(d, streams, &mut out[..e]);
    Ok(())
}

pub fn send_word(word: &[u8], e: usize, out: &mut [u8]) -> Result<(), u32> {
    send_accepted(word, e, out.len())?;
    let mut room = [0; STREAMS];
    let streams = &mut room[..3 * word.len()];
    code(word, streams);
    matched(word.len(), streams, &mut out[..e]);
    Ok(())
}

pub fn streams_of(d: usize, bits: &[u8], out: &mut [u8]) -> Result<(), u32> {
    back_accepted(d, bits, out.len())?;
    let (sent, mut streams) = (thirds(d, bits), thirds_mut(d, out));
    let mut n = 0;
    for column in COLUMNS {
        for place in in_column(d, column) {
            for (stream, bits) in streams.iter_mut().zip(&sent) {
                stream[place] = bits[n];
            }
            n += 1;
        }
    }
    Ok(())
}

/// 17, 11 and 12.
pub fn code_accepted(word: &[u8], room: usize) -> Result<(), u32> {
    length_accepted(word.len())?;
    output_accepted(3 * word.len(), room)?;
    bits_accepted(word)
}

/// 17, 8, 11 and 12.
pub fn match_accepted(d: usize, streams: &[u8], e: usize, room: usize) -> Result<(), u32> {
    length_accepted(d)?;
    count_accepted(e)?;
    if streams.len() != 3 * d {
        return Err(8);
    }
    output_accepted(e, room)?;
    bits_accepted(streams)
}

/// 17, 8, 11 and 12.
pub fn send_accepted(word: &[u8], e: usize, room: usize) -> Result<(), u32> {
    length_accepted(word.len())?;
    count_accepted(e)?;
    output_accepted(e, room)?;
    bits_accepted(word)
}

/// 17, 8 and 11 to 14.
pub fn back_accepted(d: usize, bits: &[u8], room: usize) -> Result<(), u32> {
    length_accepted(d)?;
    count_accepted(bits.len())?;
    output_accepted(3 * d, room)?;
    bits_accepted(bits)?;
    if bits.len() < 3 * d {
        return Err(13);
    }
    if bits[3 * d..] != bits[..bits.len() - 3 * d] {
        return Err(14);
    }
    Ok(())
}

pub fn length_accepted(d: usize) -> Result<(), u32> {
    if (6..=128).contains(&d) {
        Ok(())
    } else {
        Err(17)
    }
}

fn count_accepted(e: usize) -> Result<(), u32> {
    if (1..=65536).contains(&e) {
        Ok(())
    } else {
        Err(8)
    }
}

pub fn output_accepted(due: usize, room: usize) -> Result<(), u32> {
    if room < due {
        Err(11)
    } else {
        Ok(())
    }
}

pub fn bits_accepted(bits: &[u8]) -> Result<(), u32> {
    if some_over(1, bits) {
        Err(12)
    } else {
        Ok(())
    }
}

/// Codes the word to its three streams. The state is the six bits before a bit, the newest of them highest; before the
/// first bit they are the word's last.
fn code(word: &[u8], streams: &mut [u8]) {
    let d = word.len();
    let mut state = word[d - 6..].iter().fold(0, |state, &bit| (bit << 6 | state) >> 1);
    let [x, y, z] = thirds_mut(d, streams);
    for (((&bit, x), y), z) in word.iter().zip(x).zip(y).zip(z) {
        let register = bit << 6 | state;
        [*x, *y, *z] = GENERATORS.map(|generator| (register & generator).count_ones() as u8 & 1);
        state = register >> 1;
    }
}

/// Fills the output with what the streams are sent as.
fn matched(d: usize, streams: &[u8], out: &mut [u8]) {
    if out.len() < 3 * d {
        let mut room = [0; STREAMS];
        collect(d, streams, &mut room[..3 * d]);
        out.copy_from_slice(&room[..out.len()]);
    } else {
        collect(d, streams, out);
        repeat(out, 3 * d);
    }
}

/// The streams in the order in which they are sent.
fn collect(d: usize, streams: &[u8], out: &mut [u8]) {
    let (streams, mut sent) = (thirds(d, streams), thirds_mut(d, out));
    let mut n = 0;
    for column in COLUMNS {
        for place in in_column(d, column) {
            for (bits, stream) in sent.iter_mut().zip(&streams) {
                bits[n] = stream[place];
            }
            n += 1;
        }
    }
}

/// The places of a stream that stand in a column: the dummies are in front of the first row, and none is a place.
fn in_column(d: usize, column: usize) -> impl Iterator<Item = usize> {
    ((column + d) % 32..d).step_by(32)
}

fn thirds(d: usize, streams: &[u8]) -> [&[u8]; 3] {
    [&streams[..d], &streams[d..2 * d], &streams[2 * d..3 * d]]
}

fn thirds_mut(d: usize, streams: &mut [u8]) -> [&mut [u8]; 3] {
    let (first, rest) = streams.split_at_mut(d);
    let (second, rest) = rest.split_at_mut(d);
    [first, second, &mut rest[..d]]
}

/// Fills the output with its first places again and again, as many at a time as are there by then.
pub fn repeat(out: &mut [u8], period: usize) {
    let mut filled = period;
    while filled < out.len() {
        let more = filled.min(out.len() - filled);
        out.copy_within(..more, filled);
        filled += more;
    }
}
