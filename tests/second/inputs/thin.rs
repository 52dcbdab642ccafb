//! Flat triangles of space, the wires and pins of scanned parts, made from the triangles of any pair: so a wire or a
//! pin has to do with the other shape as the triangle had. A segment is made of two corners of one, so it is a wire or
//! a pin.

use super::space::{any_lists, tiny_lists};
use super::{moved, Lists};
use crate::answers::{GRID, TRIANGLE_NUMBERS};
use crate::random::Random;

/// Two triangles of which at least one is flat, on a tiny grid above all.
pub fn any_thin_lists(random: &mut Random) -> Lists {
    let lists = if random.once_in(2) {
        any_lists(random)
    } else {
        tiny_lists(random)
    };
    thinned_lists(random, lists, GRID)
}

/// One of two triangles made flat, or both. No number goes beyond the limit that was within it.
pub fn thinned_lists(random: &mut Random, (mut first, mut second): Lists, limit: i32) -> Lists {
    let which = random.below(3);
    if which != 0 {
        thin::<3>(random, &mut first, limit);
    }
    if which != 1 {
        thin::<3>(random, &mut second, limit);
    }
    if random.once_in(4) {
        step_aside(random, &mut first, limit);
    }
    (first, second)
}

/// Makes some triangles of a list flat, one in so many.
pub fn thin_some(random: &mut Random, list: &mut [i32], one_in: u64) {
    for triangle in list.chunks_exact_mut(TRIANGLE_NUMBERS) {
        if random.once_in(one_in) {
            thin::<3>(random, triangle, GRID);
        }
    }
}

/// Makes a triangle of D coordinates flat: one corner alone, an edge with one of its ends doubled, an edge with the third corner between
/// its ends or beyond one of them, or a line along an axis.
pub fn thin<const D: usize>(random: &mut Random, triangle: &mut [i32], limit: i32) {
    let [a, b, c] = random
        .pick(&[[0, 1, 2], [1, 2, 0], [2, 0, 1]])
        .map(|i| corner_of::<D>(triangle, i));
    let axis = random.index(D);
    let along_axis = |corner: [i32; D]| std::array::from_fn(|k| if k == axis { corner[k] } else { a[k] });
    let corners = match random.below(8) {
        0 => [a; 3],
        1..=2 => [a, b, random.pick(&[a, b])],
        3..=4 => halved(a, b),
        5..=6 => doubled(a, b, limit),
        _ => [a, along_axis(b), along_axis(c)],
    };
    triangle.copy_from_slice(corners.as_flattened());
}

fn corner_of<const D: usize>(triangle: &[i32], i: usize) -> [i32; D] {
    std::array::from_fn(|k| triangle[D * i + k])
}

/// With a corner in the middle of the other two, where that is whole; else of some that are nearer to each other.
fn halved<const D: usize>(a: [i32; D], b: [i32; D]) -> [[i32; D]; 3] {
    // Two steps from one end of the grid to the other have no room in 32 bits; where they lead has.
    let step: [i64; D] = std::array::from_fn(|k| (i64::from(b[k]) - i64::from(a[k])) / 2);
    [0, 2, 1].map(|steps| std::array::from_fn(|k| (i64::from(a[k]) + steps * step[k]) as i32))
}

/// With b in the middle of the other two, or at one of them where the third would be beyond the limit.
fn doubled<const D: usize>(a: [i32; D], b: [i32; D], limit: i32) -> [[i32; D]; 3] {
    let far: [i64; D] = std::array::from_fn(|k| 2 * i64::from(b[k]) - i64::from(a[k]));
    if far.iter().all(|n| n.abs() <= i64::from(limit)) {
        [far.map(|n| n as i32), b, a]
    } else {
        [b, b, a]
    }
}

/// Moves a shape by one along an axis, where it can: what touched is a step away, or what was a step away touches.
fn step_aside(random: &mut Random, list: &mut Vec<i32>, limit: i32) {
    let mut step = [0; 3];
    step[random.index(3)] = random.pick(&[-1, 1]);
    let aside = moved(list, &step);
    if aside.iter().all(|n| n.abs() <= limit) {
        *list = aside;
    }
}
