//! Pairs of slices that are made of bytes: triangles as they are, triangles with a byte changed, numbers whose bytes
//! tell most, and any bytes; each of the right length or of a wrong one.

use super::faulty::off_grid_number;
use super::space::any_lists;
use super::traded;
use crate::answers::bytes::{bytes_of, TRIANGLE_BYTES};
use crate::answers::{GRID, TRIANGLE_NUMBERS};
use crate::byte_pair::BytePair;
use crate::random::Random;

/// The wrong lengths that tell most: no byte and one, a byte or a number off a triangle, a byte off two, two and three
/// whole ones, and what would be a triangle's if it were cut to its low byte or to its low two. The last one is rare,
/// since it costs.
pub const WRONG_LENGTHS: [usize; 11] = [0, 1, 32, 35, 37, 40, 71, 72, 108, 292, LONGEST];
const LONGEST: usize = 65_572;
/// Others are at most this.
const LONGEST_OTHER: usize = 160;

pub fn any_byte_pair(random: &mut Random) -> BytePair {
    let lists = any_lists(random);
    let (first, second) = traded(random, lists);
    let [first, second] = [first, second].map(|list| any_slice(random, bytes_of(&list)));
    BytePair { first, second }
}

/// The triangle itself, or other bytes for it.
fn any_slice(random: &mut Random, triangle: Vec<u8>) -> Vec<u8> {
    let slice = match random.below(12) {
        0..=6 => triangle,
        7..=8 => with_changed_byte(random, triangle),
        9..=10 => (0..TRIANGLE_NUMBERS).flat_map(|_| telling_number(random)).collect(),
        _ => (0..TRIANGLE_BYTES).map(|_| random.next() as u8).collect(),
    };
    if random.once_in(4) {
        of_wrong_length(random, &slice)
    } else {
        slice
    }
}

/// Of 1,073,741,824 and -1,073,741,824 the bytes are 0, 0, 0, 64 and 0, 0, 0, 192.
fn with_changed_byte(random: &mut Random, mut triangle: Vec<u8>) -> Vec<u8> {
    let place = random.index(TRIANGLE_BYTES);
    triangle[place] = match random.below(3) {
        0 => random.pick(&[0, 1, 63, 64, 127, 128, 191, 192, 255]),
        1 => triangle[place] ^ 1 << random.below(8),
        _ => random.next() as u8,
    };
    triangle
}

/// Mostly on the grid, at its ends or near 0. Now and then the highest byte is turned over or is that of an end of the
/// grid, or all bytes trade places, so that a lost sign or another order shows.
fn telling_number(random: &mut Random) -> [u8; 4] {
    let number = match random.below(40) {
        0 => off_grid_number(random),
        1..=9 => GRID - random.between(0, 2),
        10..=19 => random.between(0, 2) - GRID,
        20..=24 => random.pick(&[127, 128, 255, 256, 32_768, 65_535, 65_536, 16_777_216]),
        25..=29 => random.pick(&[-127, -128, -255, -256, -32_768, -65_535, -65_536, -16_777_216]),
        _ => random.between(-3, 3),
    };
    let mut bytes = number.to_le_bytes();
    match random.below(60) {
        0 => bytes[3] = !bytes[3],
        1 => bytes[3] = random.pick(&[63, 64, 191, 192]),
        2 => bytes.reverse(),
        _ => {}
    }
    bytes
}

/// The bytes again and again, so that what is too long begins with a triangle or ends with one.
fn of_wrong_length(random: &mut Random, slice: &[u8]) -> Vec<u8> {
    let length = wrong_length(random);
    let skipped = random.pick(&[0, TRIANGLE_BYTES - length % TRIANGLE_BYTES]);
    slice.iter().copied().cycle().skip(skipped).take(length).collect()
}

fn wrong_length(random: &mut Random) -> usize {
    let shorter: Vec<usize> = match random.below(500) {
        0 => return LONGEST,
        1..=399 => WRONG_LENGTHS.into_iter().filter(|length| *length < LONGEST).collect(),
        _ => (0..=LONGEST_OTHER).filter(|length| *length != TRIANGLE_BYTES).collect(),
    };
    random.pick(&shorter)
}
