//! The nearest control word by butterflies: the states 2j and 2j + 1 both go to j and to 32 + j, and all that they cost is
//! known from one price. A start from where even an open end costs more than the best word so far is left out.

use crate::plain::nearest::{accepted, join, prices, spell, FAR, STATES, WORD};

const HALF: usize = STATES / 2;

/// Words of up to so many bits have a room of their own, since a room is cleared.
const SHORT: usize = 40;

/// Signed, since older processors have the lesser of two for signed vectors alone.
type Costs = [i16; STATES];

/// The differences, and the word as a number, its first bit highest: the nearest has the least pair.
type Found = (i16, u128);

/// Answers the differences.
pub fn nearest_word(d: usize, heard: &[u8], out: &mut [u8]) -> Result<usize, u32> {
    accepted(d, heard, out.len())?;
    let mut room = [0; WORD];
    let steps = &mut room[..d];
    join(heard, steps);
    let (differences, word) = if d <= SHORT {
        found(steps, &mut [[0; STATES]; SHORT + 1])
    } else {
        found(steps, &mut [[0; STATES]; WORD + 1])
    };
    spell(word, &mut out[..d]);
    Ok(differences as usize)
}

/// Of all starts, those first that cost least with an open end. The rows are clear.
fn found(steps: &[u8], rows: &mut [Costs]) -> Found {
    let least = fill(steps, rows);
    let (mut best, mut cost) = ((i16::MAX, 0), least.into_iter().fold(FAR as i16, i16::min));
    while cost <= best.0 {
        for (goal, &open) in least.iter().enumerate() {
            if open == cost && cost <= best.0 {
                best = best_with(goal, best, steps, rows);
            }
        }
        cost += 1;
    }
    best
}

/// The better of the best so far and the goal's word, which is looked for only where it costs no more.
fn best_with(goal: usize, best: Found, steps: &[u8], rows: &mut [Costs]) -> Found {
    rows[0] = [FAR as i16; STATES];
    rows[0][goal] = 0;
    let cost = fill(steps, rows)[goal];
    if cost > best.0 {
        return best;
    }
    best.min((cost, walked(steps, goal, rows)))
}

/// Fills the rows behind the first, one for each number of steps left, and answers the last.
fn fill(steps: &[u8], rows: &mut [Costs]) -> Costs {
    let rows = &mut rows[..=steps.len()];
    for (left, &heard) in steps.iter().rev().enumerate() {
        rows[left + 1] = before(&rows[left], heard);
    }
    rows[steps.len()]
}

/// What the even registers below 64 cost. All three generators have their first and their last tap, so another newest or
/// oldest bit turns all three outputs round, and the price is what is left of three.
const fn evens() -> [[i16; HALF]; 8] {
    let prices = prices();
    let mut evens = [[0; HALF]; 8];
    let mut heard = 0;
    while heard < evens.len() {
        let mut j = 0;
        while j < HALF {
            evens[heard][j] = prices[heard][2 * j] as i16;
            j += 1;
        }
        heard += 1;
    }
    evens
}

static EVENS: [[i16; HALF]; 8] = evens();

/// The costs one step before.
#[inline(always)]
fn before(after: &Costs, heard: u8) -> Costs {
    let prices = &EVENS[heard as usize % 8];
    let mut costs = [0; STATES];
    for j in 0..HALF {
        let (zero, one, price) = (after[j], after[HALF + j], prices[j]);
        costs[2 * j] = (price + zero).min(3 - price + one);
        costs[2 * j + 1] = (3 - price + zero).min(price + one);
    }
    costs
}

/// The word along the costs: 0 where it costs no more.
fn walked(steps: &[u8], start: usize, rows: &[Costs]) -> u128 {
    let (mut state, mut word) = (start, 0);
    for (&heard, after) in steps.iter().zip(rows[..steps.len()].iter().rev()) {
        let even = EVENS[heard as usize % 8][state / 2];
        let price = if state % 2 == 0 { even } else { 3 - even };
        let bit = usize::from(3 - price + after[HALF + state / 2] < price + after[state / 2]);
        word = word << 1 | bit as u128;
        state = (bit * STATES + state) / 2;
    }
    word
}
