//! The bytes: compares the answers of `zg_pair_bytes`, which takes a triangle as bytes, with those of
//! `zg_pair`, and times the two, on the same pairs as `verdicts` times `zg_pair`.

use crate::door;
use crate::inputs::{self, bytes_of, Pair, PairsInput};
use crate::ordinary::TRIANGLE_NUMBERS;
use crate::scaling::compare_scaled;
use crate::timing::{best_of, last_line, say};
use crate::verdicts::{time_for, FAULTY_PAIRS_SEED, PAIRS_SEEDS, ROUNDS};

/// The highest ratio to `zg_pair` that the door should have. A run may miss it by where its stack lies: a call whose
/// frames reach across the end of a page is slower for as long as the run lasts, and the other call need not be.
const GOAL: f64 = 1.1;
const TRIANGLE_BYTES: usize = 4 * TRIANGLE_NUMBERS;
/// Where the door refuses, its answer is this and the number of the refusal.
const REFUSED: u64 = 100;

type NumberPair = Pair<TRIANGLE_NUMBERS>;
type BytePair = Pair<TRIANGLE_BYTES, TRIANGLE_BYTES, u8>;

/// The last line to print. It is an error where two answers differ, or where each goal has to be
/// reached and one is not.
pub fn compare_and_time(goals: bool) -> Result<String, String> {
    let inputs = inputs::timed(PAIRS_SEEDS);
    compare_all(&inputs)?;
    let reached = inputs.iter().filter(|input| timed_ratio(input) <= GOAL).count();
    last_line("pairs as bytes", reached, inputs.len(), goals)
}

/// Compares the answers alone. The last line to print.
pub fn compare() -> Result<String, String> {
    compare_all(&inputs::timed(PAIRS_SEEDS))?;
    Ok("all pairs as bytes agree; nothing is timed".into())
}

// ---- The comparison ----

fn compare_all(inputs: &[PairsInput<TRIANGLE_NUMBERS>]) -> Result<(), String> {
    let agreed = inputs.iter().map(|input| agreed_answers(&input.content));
    let answers: Vec<Vec<u32>> = agreed.collect::<Result<_, _>>()?;
    for [first, second] in inputs::faulty::<TRIANGLE_NUMBERS>(FAULTY_PAIRS_SEED) {
        agreed_answer(&first, &second)?;
    }
    compare_scaled(inputs, &answers)
}

fn agreed_answers(pairs: &[NumberPair]) -> Result<Vec<u32>, String> {
    pairs
        .iter()
        .map(|pair| agreed_answer(&pair.first, &pair.second))
        .collect()
}

/// The door's answer, if it is that of `zg_pair`.
fn agreed_answer(first: &[i32], second: &[i32]) -> Result<u32, String> {
    let door = door::pair_bytes(&bytes_of(first), &bytes_of(second));
    let pair = door::pair(first, second);
    let wanted = match pair.number {
        0 => pair.value,
        number => REFUSED + number,
    };
    if u64::from(door) == wanted {
        Ok(door)
    } else {
        Err(format!(
            "the answers on bytes differ:\n  first {first:?}\n  second {second:?}\n  door {door}\n  zg_pair {pair:?}"
        ))
    }
}

// ---- The times ----

/// Times one input, prints its line and gives the door's ratio.
fn timed_ratio(input: &PairsInput<TRIANGLE_NUMBERS>) -> f64 {
    let byte_pairs: Vec<BytePair> = input.content.iter().map(as_bytes).collect();
    let [door, pair] = best_of(ROUNDS, || {
        [
            time_for(&byte_pairs, &door::pair_bytes),
            time_for(&input.content, &door::pair),
        ]
    });
    let ratio = door / pair;
    say(&format!(
        "{}, as bytes: door {door:.1} ns a pair, zg_pair {pair:.1} ns, ratio {ratio:.3}, goal {GOAL}",
        input.name,
    ));
    ratio
}

fn as_bytes(pair: &NumberPair) -> BytePair {
    let bytes = |triangle: &[i32]| bytes_of(triangle).try_into().expect("nine numbers have 36 bytes");
    Pair {
        first: bytes(&pair.first),
        second: bytes(&pair.second),
    }
}
