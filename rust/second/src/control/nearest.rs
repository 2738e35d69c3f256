//! The word whose streams differ from three received ones in the fewest places, the smallest among equals (document
//! 02, CR 10): short words are all tried, longer ones are found along paths of the register.

use super::streams::{streams, STREAMS, TAPS};

/// Words of up to so many bits are all tried: they are 4,096 at most.
const ALL_TRIED: usize = 12;

/// "the 64 states": the last six bits, the newest lowest.
const STATES: usize = 64;

/// A state with the current bit behind it.
const REGISTERS: usize = 2 * STATES;

/// In how many places bits differ, and the bits as a number, "read as binary with the first bit highest". Of two
/// words the lesser pair is that of the nearer one, or of the smaller one where both are as near.
pub type Found = (usize, u128);

/// In how many places each register's outputs differ from what is received in one step.
type Step = [usize; REGISTERS];

/// The best path to each state, where there is one.
type Paths = [Option<Found>; STATES];

/// The least pair of all words of D bits, D being 6 to 128.
pub fn nearest(d: usize, received: &[u8]) -> Found {
    if d <= ALL_TRIED {
        of_all_words(d, received)
    } else {
        of_all_paths(d, received)
    }
}

/// The bits of a word that is given as a number.
pub fn digits(d: usize, number: u128) -> Vec<u8> {
    (0..d)
        .rev()
        .map(|place| u8::from(number >> place & 1 == 1))
        .collect()
}

/// The definition: "the input word whose tail-biting code differs in the fewest places".
pub fn of_all_words(d: usize, received: &[u8]) -> Found {
    let pair = |number| (differences(&streams(&digits(d, number)), received), number);
    (0..1 << d).map(pair).min().expect("there are words")
}

pub fn differences(streams: &[u8], received: &[u8]) -> usize {
    let pairs = streams.iter().zip(received);
    pairs.filter(|(sent, received)| sent != received).count()
}

/// "over every start state that is also the end state".
pub fn of_all_paths(d: usize, received: &[u8]) -> Found {
    let steps = steps(d, received);
    let round = |start: usize| best_paths(start, &steps)[start];
    let found = (0..STATES).filter_map(round).min();
    found.expect("a word of 6 bits or more comes round to each state")
}

/// The best path from a state to each state.
fn best_paths(start: usize, steps: &[Step]) -> Paths {
    let mut paths = [None; STATES];
    paths[start] = Some((0, 0));
    for step in steps {
        paths = extended(&paths, step);
    }
    paths
}

/// The paths with one bit more. Two that meet in a state go on alike, so that only the better one of them can become
/// the best.
fn extended(paths: &Paths, step: &Step) -> Paths {
    let mut longer: Paths = [None; STATES];
    for (register, cost) in step.iter().enumerate() {
        let Some((differences, bits)) = paths[register / 2] else {
            continue;
        };
        let path = (differences + cost, 2 * bits + (register % 2) as u128);
        let best = &mut longer[register % STATES];
        if best.is_none_or(|other| path < other) {
            *best = Some(path);
        }
    }
    longer
}

fn steps(d: usize, received: &[u8]) -> Vec<Step> {
    let outputs: Vec<[u8; STREAMS]> = (0..REGISTERS).map(outputs).collect();
    let step = |k| {
        let heard: [u8; STREAMS] = std::array::from_fn(|stream| received[stream * d + k]);
        std::array::from_fn(|register| differences(&outputs[register], &heard))
    };
    (0..d).map(step).collect()
}

/// A tap's bit lies so far behind the current one, which is the lowest.
fn outputs(register: usize) -> [u8; STREAMS] {
    let behind = |tap: &usize| u8::from(register >> tap & 1 == 1);
    TAPS.map(|taps| taps.iter().map(behind).sum::<u8>() % 2)
}

#[cfg(test)]
mod tests;
