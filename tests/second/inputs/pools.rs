//! Triangles for the stories of a plate: a pool of good ones that have to do with each other, from which a story takes
//! them time and again, and bad ones.

use super::aimed::listings::aimed_list;
use super::faulty::{flat_off_grid_shape, flat_shape, off_grid_number};
use super::scenes::{any_runs, tiny_runs};
use super::{box_list, extreme_list};
use crate::answers::faults::placed_triangle_faults;
use crate::answers::plate::Corners;
use crate::answers::{GRID, TRIANGLE_NUMBERS};
use crate::random::Random;

const MOST_IN_A_POOL: usize = 80;
/// Coordinates of the smallest pools go from 0 to this.
const SMALLEST: i32 = 3;

/// Never empty, and nothing in it is flat or off the grid.
pub fn any_pool(random: &mut Random) -> Vec<Corners> {
    let list = match random.below(14) {
        0..=2 => smallest_list(random),
        3 => level_list(random),
        4 => extreme_list(random, TRIANGLE_NUMBERS * MOST_IN_A_POOL),
        5..=6 => cornered_list(random),
        7 => return few_of(random),
        8 => wall_list(random),
        9 => aimed_list(random, MOST_IN_A_POOL),
        _ => {
            let (first, second) = any_runs(random, [MOST_IN_A_POOL / 2; 2]);
            [first, second].concat()
        }
    };
    good_triangles(&list)
}

/// The same with coordinates from -4 to 4, or these made large.
pub fn tiny_pool(random: &mut Random) -> Vec<Corners> {
    if random.once_in(2) {
        return good_triangles(&smallest_list(random));
    }
    let (first, second) = tiny_runs(random, [MOST_IN_A_POOL / 2; 2]);
    good_triangles(&[first, second].concat())
}

fn smallest_list(random: &mut Random) -> Vec<i32> {
    let numbers = TRIANGLE_NUMBERS * MOST_IN_A_POOL;
    (0..numbers).map(|_| random.between(0, SMALLEST)).collect()
}

/// All in one plane across an axis, near the middle of the grid or in a side of it.
fn level_list(random: &mut Random) -> Vec<i32> {
    let (axis, height) = (random.index(3), random.pick(&[-1, 0, 0, 0, 1, GRID, -GRID]));
    let mut list = smallest_list(random);
    list.chunks_mut(3).for_each(|corner| corner[axis] = height);
    list
}

/// All in a side of the grid, or a step before it: they may go to the other side by a move as long as 32 bits allow.
fn wall_list(random: &mut Random) -> Vec<i32> {
    let (axis, end, slack) = (random.index(3), random.pick(&[1, -1]), random.pick(&[0, 0, 1]));
    let mut list = smallest_list(random);
    for triangle in list.chunks_mut(TRIANGLE_NUMBERS) {
        let height = end * (GRID - random.between(0, slack));
        triangle.chunks_mut(3).for_each(|corner| corner[axis] = height);
    }
    list
}

/// In a corner of the grid, close together.
fn cornered_list(random: &mut Random) -> Vec<i32> {
    let corner = [0; 3].map(|_| random.pick(&[1, -1]));
    let steps = smallest_list(random).into_iter().zip(corner.iter().cycle());
    steps.map(|(step, end)| end * (GRID - step)).collect()
}

/// Up to three triangles, so that nearly all that stand on the plate are alike.
fn few_of(random: &mut Random) -> Vec<Corners> {
    let mut pool = good_triangles(&smallest_list(random));
    pool.truncate(1 + random.index(3));
    pool
}

fn good_triangles(list: &[i32]) -> Vec<Corners> {
    let triangles = list.chunks_exact(TRIANGLE_NUMBERS).map(corners_of);
    let mut good: Vec<Corners> = triangles
        .filter(|corners| placed_triangle_faults(corners).number_alone() == 0)
        .collect();
    if good.is_empty() {
        good.push([0, 0, 0, 4, 0, 0, 0, 4, 0]);
    }
    good
}

fn corners_of(list: &[i32]) -> Corners {
    std::array::from_fn(|k| list[k])
}

/// Flat, off the grid or both, each about as often.
pub fn bad_corners(random: &mut Random, good: &Corners) -> Corners {
    match random.below(3) {
        0 => corners_of(&flat_shape::<3>(random, 3)),
        1 => corners_of(&flat_off_grid_shape::<3>(random, 3)),
        _ => {
            let mut corners = *good;
            (0..random.pick(&[1, 1, 2, 5])).for_each(|_| {
                corners[random.index(TRIANGLE_NUMBERS)] = off_grid_number(random);
            });
            corners
        }
    }
}

/// On a tiny grid, where flat ones abound.
pub fn tiny_corners(random: &mut Random) -> Corners {
    corners_of(&box_list(random, TRIANGLE_NUMBERS, 1))
}
