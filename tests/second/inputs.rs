//! Random inputs of many kinds: tiny grids where special cases abound, the whole grid and its ends, shapes that touch
//! or nearly do, determinants made to measure or aimed at the quick estimate, flat shapes of every kind, every kind of
//! bad list, triangles as bytes, stories of plates, some of them with closed shells, and job sheets, good and broken.
//! And every pattern of ends of the grid.

pub mod aimed;
mod breaks;
mod byte_pairs;
pub mod ends;
pub mod families;
mod faulty;
mod lattice;
mod listing;
mod measured;
mod plane;
mod pools;
mod scenes;
mod sheets;
mod shell_stories;
mod shells;
mod solids;
mod space;
mod stories;
mod teller;
mod thin;
mod wrapping;

pub use byte_pairs::{any_byte_pair, WRONG_LENGTHS};
pub use faulty::LONGEST_BAD_LIST;
pub use listing::{any_listing, tiny_listing};
pub use measured::list_of;
pub use plane::{any_flat_pair, any_turn, tiny_flat_pair};
pub use sheets::{any_sheet, tiny_sheet};
pub use space::{any_pair, any_segment, any_side, tiny_pair, tiny_segment};
pub use stories::{any_story, tiny_story};

use crate::answers::GRID;
use crate::random::Random;

/// The lists of two shapes, or of two runs of triangles.
type Lists = (Vec<i32>, Vec<i32>);

fn box_list(random: &mut Random, numbers: usize, half: i32) -> Vec<i32> {
    (0..numbers).map(|_| random.between(-half, half)).collect()
}

fn box_lists(random: &mut Random, numbers: usize, half: i32) -> Lists {
    (box_list(random, numbers, half), box_list(random, numbers, half))
}

fn box_point<const D: usize>(random: &mut Random, half: i32) -> [i32; D] {
    [0; D].map(|_| random.between(-half, half))
}

/// Each number 0, or an end of the grid; in half the lists, or one or two short of an end.
fn extreme_list(random: &mut Random, numbers: usize) -> Vec<i32> {
    let slack = random.pick(&[0, 2]);
    (0..numbers).map(|_| extreme_number(random, slack)).collect()
}

/// 0, or at most so many short of an end of the grid.
fn extreme_number(random: &mut Random, slack: i32) -> i32 {
    match random.below(7) {
        0 => 0,
        1..=3 => GRID - random.between(0, slack),
        _ => random.between(0, slack) - GRID,
    }
}

fn extreme_lists(random: &mut Random, numbers: usize) -> Lists {
    (extreme_list(random, numbers), extreme_list(random, numbers))
}

/// From tiny to the whole grid. With 1,500,000 a volume may or may not have room in 64 bits.
fn any_half(random: &mut Random) -> i32 {
    random.pick(&[3, 6, 20, 1_000, 1_500_000, GRID])
}

/// Moves one number by one, staying on the grid: what lay exactly on a line or a plane now just misses it. An empty list
/// stays as it is.
fn nudge(random: &mut Random, list: &mut [i32]) {
    if list.is_empty() {
        return;
    }
    let position = random.index(list.len());
    list[position] = (list[position] + random.pick(&[-1, 1])).clamp(-GRID, GRID);
}

/// All points of a list moved by the same steps.
fn moved(list: &[i32], by: &[i32]) -> Vec<i32> {
    list.iter().zip(by.iter().cycle()).map(|(n, by)| n + by).collect()
}

/// The lists in either order, so that no kind of pair is tied to one.
fn traded(random: &mut Random, (first, second): Lists) -> Lists {
    if random.once_in(2) {
        (first, second)
    } else {
        (second, first)
    }
}

/// The corners of shapes in D coordinates in any order. A list of the wrong length stays as it is.
fn shuffled<const D: usize>(random: &mut Random, mut list: Vec<i32>, numbers: usize) -> Vec<i32> {
    if list.len() == numbers {
        shuffle::<D>(random, &mut list);
    }
    list
}

fn shuffle<const D: usize>(random: &mut Random, list: &mut [i32]) {
    for last in (1..list.len() / D).rev() {
        let other = random.index(last + 1);
        (0..D).for_each(|k| list.swap(D * last + k, D * other + k));
    }
}

/// Two triangles that share one corner or two.
fn sharing_lists<const D: usize>(random: &mut Random, half: i32) -> Lists {
    let (first, mut second) = box_lists(random, 3 * D, half);
    let shared = D * (1 + random.index(2));
    second[..shared].copy_from_slice(&first[..shared]);
    (first, second)
}

/// A triangle and one whose corners are mixtures of its corners, rounded to the grid.
fn nested_lists<const D: usize>(random: &mut Random, half: i32) -> Lists {
    let first = box_list(random, 3 * D, half.max(6));
    let inner = |random: &mut Random| -> [i32; D] {
        let weights = [0; 3].map(|_| i64::from(random.between(1, 10)));
        let sum: i64 = weights.iter().sum();
        let mixed = |k: usize| (0..3).map(|i| weights[i] * i64::from(first[D * i + k])).sum::<i64>() / sum;
        std::array::from_fn(|k| mixed(k) as i32)
    };
    let second = (0..3).flat_map(|_| inner(random)).collect();
    (first, second)
}
