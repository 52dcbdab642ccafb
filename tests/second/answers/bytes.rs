//! Numbers as bytes, four to a number and the low byte first, and own answers to two triangles that come so.

use super::faults::{first_refusal, triangle_faults, ListFaults};
use super::{pair, Answer, Opinion, TRIANGLE_NUMBERS};

const NUMBER_BYTES: usize = 4;
pub const TRIANGLE_BYTES: usize = NUMBER_BYTES * TRIANGLE_NUMBERS;
/// The result of a refusal is its number and so much more.
const REFUSED: u64 = 100;

pub fn bytes_of(numbers: &[i32]) -> Vec<u8> {
    numbers.iter().flat_map(|number| number.to_le_bytes()).collect()
}

/// The number that so many others stand before.
pub fn number_at(bytes: &[u8], place: usize) -> i32 {
    i32::from_le_bytes(std::array::from_fn(|i| bytes[NUMBER_BYTES * place + i]))
}

/// What is left over at the end makes no number.
pub fn numbers_of(bytes: &[u8]) -> Vec<i32> {
    (0..bytes.len() / NUMBER_BYTES)
        .map(|place| number_at(bytes, place))
        .collect()
}

/// As the numbers are answered, but for the lengths, which count bytes.
pub fn pair_of_slices(first: &[u8], second: &[u8]) -> Opinion {
    let faults = vec![slice_faults(first), slice_faults(second)];
    if let Some(answer) = first_refusal(&faults) {
        return Opinion::refusing(answer, faults);
    }
    pair(&numbers_of(first), &numbers_of(second))
}

fn slice_faults(slice: &[u8]) -> ListFaults {
    ListFaults {
        length: (slice.len() != TRIANGLE_BYTES).then_some(slice.len() as u64),
        ..triangle_faults(&numbers_of(slice))
    }
}

/// The answer told as one number.
pub fn result_of(answer: &Answer) -> u64 {
    match answer.number {
        0 => answer.value,
        number => REFUSED + number,
    }
}
