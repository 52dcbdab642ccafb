//! Compares the calls with every number an end of the grid, in all patterns of signs; the pairs of triangles in space
//! as bytes too.

use crate::byte_pairs::BytePairs;
use crate::call::Call;
use crate::door::{Door, Room, ANSWER_NUMBERS};
use crate::inputs::ends::{calls_at_ends, CallsAtEnds};
use crate::random::Random;
use crate::tally::Tally;
use crate::{compare_batch, BATCH};

/// The marks around what is lent are this stream of the seed, so that no other input depends on them.
const STREAM: u64 = 108;

/// Gives how many calls there were.
pub fn compare_all(door: &mut Door, seed: u64) -> Result<u64, String> {
    let (mut marks, mut byte_pairs) = (Random::new(seed, STREAM), BytePairs::new(seed));
    let mut compared = 0;
    for calls in calls_at_ends() {
        let tally = compare(door, calls, &mut marks, &mut byte_pairs);
        let tally = tally.map_err(|text| format!("at the ends of the grid: {text}"))?;
        compared += tally.compared;
    }
    Ok(compared + byte_pairs.tally.compared)
}

/// Each with just enough room for its answer.
fn compare(
    door: &mut Door,
    CallsAtEnds { cases, calls }: CallsAtEnds,
    marks: &mut Random,
    byte_pairs: &mut BytePairs,
) -> Result<Tally, String> {
    let (mut tally, mut calls) = (Tally::new(cases), calls.peekable());
    while calls.peek().is_some() {
        let with_room = |call: Call| {
            let room = Room::with_marks(marks, ANSWER_NUMBERS, call.buffer_length());
            (call, room)
        };
        let inputs: Vec<(Call, Room)> = calls.by_ref().take(BATCH as usize).map(with_room).collect();
        let as_bytes = compare_batch(door, &mut tally, &inputs)?;
        byte_pairs.compare(door, as_bytes)?;
    }
    Ok(tally)
}
