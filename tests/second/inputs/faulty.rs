//! Bad lists, and shapes with every mixture of faults.

use super::{any_half, box_list, box_point, extreme_list, nudge};
use crate::answers::GRID;
use crate::random::Random;

pub const LONGEST_BAD_LIST: usize = 20;

/// A shape of D coordinates with any fault or none, so that pairs of them have every mixture of faults.
pub fn any_fault_shape<const D: usize>(random: &mut Random, corners: usize) -> Vec<i32> {
    match random.below(7) {
        0 => wrong_length_list(random, corners * D),
        1 => off_grid_list(random, corners * D),
        2 => flat_shape::<D>(random, corners),
        3 => flat_off_grid_shape::<D>(random, corners),
        4 => {
            // Mostly just not flat.
            let mut list = flat_shape::<D>(random, corners);
            nudge(random, &mut list);
            list
        }
        _ => plain_list(random, corners * D),
    }
}

pub fn bad_list(random: &mut Random, numbers: usize) -> Vec<i32> {
    if random.once_in(2) {
        wrong_length_list(random, numbers)
    } else {
        off_grid_list(random, numbers)
    }
}

fn plain_list(random: &mut Random, numbers: usize) -> Vec<i32> {
    if random.once_in(3) {
        extreme_list(random, numbers)
    } else {
        let half = any_half(random);
        box_list(random, numbers, half)
    }
}

fn wrong_length_list(random: &mut Random, right: usize) -> Vec<i32> {
    let other_lengths: Vec<usize> = (0..=LONGEST_BAD_LIST).filter(|length| *length != right).collect();
    let length = random.pick(&other_lengths);
    if length > 0 && random.once_in(3) {
        off_grid_list(random, length)
    } else {
        plain_list(random, length)
    }
}

/// One number off the grid, or several.
fn off_grid_list(random: &mut Random, numbers: usize) -> Vec<i32> {
    let mut list = plain_list(random, numbers);
    let times = if random.once_in(2) {
        1
    } else {
        1 + random.index(numbers)
    };
    for _ in 0..times {
        let position = random.index(numbers);
        list[position] = off_grid_number(random);
    }
    list
}

pub fn off_grid_number(random: &mut Random) -> i32 {
    let near = GRID + random.between(1, 3);
    match random.below(5) {
        0 => near,
        1 => -near,
        2 => random.pick(&[i32::MIN, i32::MIN + 1, i32::MAX, i32::MAX - 1]),
        3 => random.between(GRID + 1, i32::MAX),
        _ => random.between(i32::MIN, -GRID - 1),
    }
}

/// Equal corners, or corners on one line; of a segment equal ends.
pub fn flat_shape<const D: usize>(random: &mut Random, corners: usize) -> Vec<i32> {
    let half = any_half(random);
    if corners == 2 || random.once_in(4) {
        return box_point::<D>(random, half).repeat(corners);
    }
    match random.below(3) {
        0 => {
            let mut list = box_list(random, corners * D, half);
            list.copy_within(0..D, D);
            list
        }
        1 => slanted_line::<D>(random, corners),
        _ => axis_line::<D>(random, corners, half),
    }
}

fn slanted_line<const D: usize>(random: &mut Random, corners: usize) -> Vec<i32> {
    let half = random.pick(&[3, 100, 100_000, GRID / 8]);
    let (origin, step): ([i32; D], [i32; D]) = (box_point(random, GRID / 2), box_point(random, half));
    let places = box_list(random, corners, 4);
    let point = |place: i32| -> [i32; D] { std::array::from_fn(|k| origin[k] + place * step[k]) };
    places.into_iter().flat_map(point).collect()
}

/// Corners on a line along an axis, on the border of the grid as well.
fn axis_line<const D: usize>(random: &mut Random, corners: usize, half: i32) -> Vec<i32> {
    let place = [0; D].map(|_| random.pick(&[0, half, -half]));
    let (mut list, axis) = (place.repeat(corners), random.index(D));
    (0..corners).for_each(|i| list[D * i + axis] = random.between(-half, half));
    list
}

/// On one line, and with a number off the grid as well: the grid must be named first.
pub fn flat_off_grid_shape<const D: usize>(random: &mut Random, corners: usize) -> Vec<i32> {
    let axis = random.index(D);
    if corners == 2 || random.once_in(2) {
        // All in one line or plane that is itself off the grid.
        let (mut list, place) = (flat_shape::<D>(random, corners), off_grid_number(random));
        (0..corners).for_each(|i| list[D * i + axis] = place);
        return list;
    }
    // On a line of the grid that goes on beyond its end.
    let half = any_half(random);
    let mut list = box_point::<D>(random, half).repeat(corners);
    (0..corners).for_each(|i| list[D * i + axis] = random.between(-half, half));
    list[D * random.index(corners) + axis] = off_grid_number(random);
    list
}
