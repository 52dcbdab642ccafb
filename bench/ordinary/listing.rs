//! The ordinary listing: checks each triangle once and then asks the pair test about every pair.
//! It looks at no boxes.

use super::{answered, checked_shape, refusal, shapes_meet, Answer, Shape, Whole, TRIANGLE_NUMBERS};

/// A list has at most so many triangles.
pub const MOST_TRIANGLES: usize = 1_024;

/// Writes the pairs with a point in common into the buffer from the start place on, or says why not.
/// Not inlined, so that it is called as a library's function is.
#[inline(never)]
pub fn list<W: Whole>(first: &[i32], second: &[i32], buffer: &mut [u32], start: usize) -> Answer {
    answered(checked_count::<W>(first, second, buffer, start).map(|count| count as u64))
}

fn checked_count<W: Whole>(first: &[i32], second: &[i32], buffer: &mut [u32], start: usize) -> Result<usize, Answer> {
    let length = buffer.len();
    let room = buffer.get_mut(start..).ok_or_else(|| refusal(4, 0, length))?;
    check_length(first, 0)?;
    check_length(second, 1)?;
    let first = checked_shapes::<W>(first, 0)?;
    let second = checked_shapes::<W>(second, 1)?;
    // A refusal leaves the buffer as it is, so nothing is written before the pairs are counted.
    let pairs = meeting_pairs::<W>(&first, &second);
    room.get_mut(..2 * pairs.len())
        .ok_or_else(|| refusal(5, 0, pairs.len()))?
        .copy_from_slice(pairs.as_flattened());
    Ok(pairs.len())
}

fn check_length(list: &[i32], side: u64) -> Result<(), Answer> {
    if list.len().is_multiple_of(TRIANGLE_NUMBERS) && list.len() <= MOST_TRIANGLES * TRIANGLE_NUMBERS {
        Ok(())
    } else {
        Err(refusal(3, side, list.len()))
    }
}

fn checked_shapes<W: Whole>(list: &[i32], side: u64) -> Result<Vec<Shape>, Answer> {
    let triangles = list.chunks_exact(TRIANGLE_NUMBERS).enumerate();
    triangles
        .map(|(index, numbers)| checked_shape::<W>(numbers, side, index))
        .collect()
}

fn meeting_pairs<W: Whole>(first: &[Shape], second: &[Shape]) -> Vec<[u32; 2]> {
    let mut pairs = Vec::new();
    for (i, &one) in first.iter().enumerate() {
        for (j, &other) in second.iter().enumerate() {
            if shapes_meet::<W>(one, other) {
                pairs.push([i as u32, j as u32]);
            }
        }
    }
    pairs
}
