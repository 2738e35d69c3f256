//! The nearest control word: for each start that is also the end, the costs of the 64 states from the last step to the
//! first, and then the word along them.

use super::control::{bits_accepted, length_accepted, output_accepted, GENERATORS};

/// The most bits of a word.
pub const WORD: usize = 128;

/// The six bits before a bit, the newest of them highest.
pub const STATES: usize = 64;

/// A state with the bit in front of it.
const REGISTERS: usize = 2 * STATES;

/// More than any word costs, and so little that nothing wraps.
pub const FAR: u16 = 1000;

/// What it costs to go on from each state to the end.
type Costs = [u16; STATES];

/// What the step of each register costs.
type Prices = [u16; REGISTERS];

/// Answers the differences.
pub fn nearest_word(d: usize, heard: &[u8], out: &mut [u8]) -> Result<usize, u32> {
    accepted(d, heard, out.len())?;
    let mut room = [0; WORD];
    let steps = &mut room[..d];
    join(heard, steps);
    let mut rows = [[0; STATES]; WORD + 1];
    // The nearest word has the least pair: its differences, and the word as a number, its first bit highest.
    let mut best = (u16::MAX, 0);
    for goal in 0..STATES {
        let cost = fill(steps, goal, &mut rows);
        if cost <= best.0 {
            best = best.min((cost, walked(steps, goal, &rows)));
        }
    }
    spell(best.1, &mut out[..d]);
    Ok(best.0.into())
}

/// 17, 8, 11 and 12.
pub fn accepted(d: usize, heard: &[u8], room: usize) -> Result<(), u32> {
    length_accepted(d)?;
    if heard.len() != 3 * d {
        return Err(8);
    }
    output_accepted(d, room)?;
    bits_accepted(heard)
}

/// The three bits that are heard at each step, as the outputs of a register lie.
pub fn join(heard: &[u8], steps: &mut [u8]) {
    let (first, rest) = heard.split_at(steps.len());
    let (second, third) = rest.split_at(steps.len());
    for (((step, &x), &y), &z) in steps.iter_mut().zip(first).zip(second).zip(third) {
        *step = x << 2 | y << 1 | z;
    }
}

/// The bits of a word.
pub fn spell(word: u128, out: &mut [u8]) {
    for (bit, place) in out.iter_mut().rev().zip(0..) {
        *bit = (word >> place & 1) as u8;
    }
}

/// The three outputs of each register, that of 133 highest.
const fn outputs() -> [u8; REGISTERS] {
    let mut outputs = [0; REGISTERS];
    let mut register = 0;
    while register < REGISTERS {
        let mut k = 0;
        while k < GENERATORS.len() {
            let output = (register as u8 & GENERATORS[k]).count_ones() as u8 & 1;
            outputs[register] = outputs[register] << 1 | output;
            k += 1;
        }
        register += 1;
    }
    outputs
}

/// For each three bits that can be heard, in how many of them the outputs of each register differ.
pub const fn prices() -> [Prices; 8] {
    let outputs = outputs();
    let mut prices = [[0; REGISTERS]; 8];
    let mut heard = 0;
    while heard < prices.len() {
        let mut register = 0;
        while register < REGISTERS {
            prices[heard][register] = (outputs[register] ^ heard as u8).count_ones() as u16;
            register += 1;
        }
        heard += 1;
    }
    prices
}

static PRICES: [Prices; 8] = prices();

/// Fills the costs for each number of steps left, where the goal is the only end, and answers what it costs to start there.
fn fill(steps: &[u8], goal: usize, rows: &mut [Costs; WORD + 1]) -> u16 {
    rows[0] = [FAR; STATES];
    rows[0][goal] = 0;
    for (left, &heard) in steps.iter().rev().enumerate() {
        rows[left + 1] = before(&rows[left], &PRICES[heard as usize % 8]);
    }
    rows[steps.len()][goal]
}

/// The costs one step before. The states 2j and 2j + 1 both go to j and to 32 + j.
fn before(after: &Costs, prices: &Prices) -> Costs {
    let mut costs = [0; STATES];
    for j in 0..STATES / 2 {
        for state in [2 * j, 2 * j + 1] {
            costs[state] = (prices[state] + after[j]).min(prices[STATES + state] + after[STATES / 2 + j]);
        }
    }
    costs
}

/// The word along the costs: 0 where it costs no more.
fn walked(steps: &[u8], start: usize, rows: &[Costs; WORD + 1]) -> u128 {
    let (mut state, mut word) = (start, 0);
    for (&heard, after) in steps.iter().zip(rows[..steps.len()].iter().rev()) {
        let prices = &PRICES[heard as usize % 8];
        let cost = |register: usize| prices[register] + after[register / 2];
        let bit = usize::from(cost(STATES + state) < cost(state));
        word = word << 1 | bit as u128;
        state = (bit * STATES + state) / 2;
    }
    word
}
