//! Runs of triangles of space for listings: scenes in which many pairs meet, or few, and special cases abound. Every
//! number is on the grid, and a triangle is flat by chance only.

use super::plane::small_picture;
use super::space::{any_lists, magnified, sheared, tiny_lists, Layout, HINGED_STEPS, TINY};
use super::{box_list, box_lists, box_point, extreme_lists, moved, nudge, shuffled, Lists};
use crate::answers::{GRID, TRIANGLE_NUMBERS};
use crate::random::Random;

type Vector = [i32; 3];

/// Gives a triangle for each list, time and again: those of one scene are made to have to do with each other.
type Scene = Box<dyn Fn(&mut Random) -> Lists>;

/// So many triangles in each list.
pub fn any_runs(random: &mut Random, sizes: [usize; 2]) -> Lists {
    if random.once_in(3) {
        return tiny_runs(random, sizes);
    }
    let scene = any_scene(random);
    let lists = gathered(random, &scene, sizes);
    mixed_lists(random, lists)
}

/// The same with coordinates from -4 to 4, or these made large.
pub fn tiny_runs(random: &mut Random, sizes: [usize; 2]) -> Lists {
    let scene = tiny_scene(random);
    let mut lists = gathered(random, &scene, sizes);
    match random.below(6) {
        0 => lists = magnified(random, lists),
        1 => lists = sheared(random, lists),
        _ => {}
    }
    mixed_lists(random, lists)
}

fn tiny_scene(random: &mut Random) -> Scene {
    let (half, layout) = (random.pick(&[1, 2, TINY]), Layout::tiny(random));
    match random.below(4) {
        0..=1 => Box::new(move |random| box_lists(random, TRIANGLE_NUMBERS, half)),
        2 => Box::new(tiny_lists),
        _ => Box::new(move |random| layout.hinged_lists(random)),
    }
}

fn any_scene(random: &mut Random) -> Scene {
    match random.below(20) {
        // Each triangle may have to do with one of the other list, and mostly with no other.
        0..=3 => Box::new(any_lists),
        4..=6 => {
            let layout = Layout::any(random, HINGED_STEPS);
            Box::new(move |random| layout.hinged_lists(random))
        }
        7..=10 => {
            let layout = Layout::of_any_plane(random);
            Box::new(move |random| layout.flat_lists(small_picture(random)))
        }
        11..=12 => Box::new(|random| box_lists(random, TRIANGLE_NUMBERS, GRID)),
        13 => Box::new(|random| extreme_lists(random, TRIANGLE_NUMBERS)),
        14..=16 => cells(random),
        _ => clusters(random),
    }
}

/// Triangles about a few centres: those of one centre often meet, those of two don't, or seldom.
fn clusters(random: &mut Random) -> Scene {
    let centres: Vec<Vector> = (0..1 + random.index(5)).map(|_| box_point(random, GRID / 2)).collect();
    let half = random.pick(&[1, 2, 5, 1_000, 1_500_000, GRID / 2]);
    let triangle = move |random: &mut Random| {
        let (centre, steps) = (random.pick(&centres), box_list(random, TRIANGLE_NUMBERS, half));
        moved(&steps, &centre)
    };
    Box::new(move |random| (triangle(random), triangle(random)))
}

/// Triangles between the corners of cells that fill space: those of two cells meet at most at a common side, an edge or
/// a corner of both, where boxes around them only touch.
fn cells(random: &mut Random) -> Scene {
    let edge = random.pick(&[1, 3, 10_000, 1_000_000, GRID / 2]);
    let triangle = move |random: &mut Random| {
        let cell: Vector = [0; 3].map(|_| random.between(-2, 1));
        (0..3)
            .flat_map(|_| cell.map(|n| edge * (n + random.between(0, 1))))
            .collect()
    };
    Box::new(move |random| (triangle(random), triangle(random)))
}

fn gathered(random: &mut Random, scene: &Scene, sizes: [usize; 2]) -> Lists {
    let [mut first, mut second] = [Vec::new(), Vec::new()];
    for k in 0..sizes[0].max(sizes[1]) {
        let (one, other) = scene(random);
        if k < sizes[0] {
            first.extend(one);
        }
        if k < sizes[1] {
            second.extend(other);
        }
    }
    // A few triangles stand in both lists, or several times in one.
    if random.once_in(8) {
        repeat_some(random, &mut first);
        let shared = first.len().min(TRIANGLE_NUMBERS * (sizes[1] / 2));
        second[..shared].copy_from_slice(&first[..shared]);
    }
    (first, second)
}

fn repeat_some(random: &mut Random, list: &mut [i32]) {
    let triangles = list.len() / TRIANGLE_NUMBERS;
    for _ in 0..triangles / 2 {
        let (from, to) = (random.index(triangles), random.index(triangles));
        let numbers = TRIANGLE_NUMBERS * from..TRIANGLE_NUMBERS * (from + 1);
        list.copy_within(numbers, TRIANGLE_NUMBERS * to);
    }
}

fn mixed_lists(random: &mut Random, (first, second): Lists) -> Lists {
    (mixed(random, first), mixed(random, second))
}

/// The triangles in any order, their corners too. Now and then a number is moved by one.
fn mixed(random: &mut Random, mut list: Vec<i32>) -> Vec<i32> {
    if !list.is_empty() && random.once_in(4) {
        nudge(random, &mut list);
    }
    let triangles = list.chunks(TRIANGLE_NUMBERS);
    let turned = triangles.flat_map(|triangle| shuffled::<3>(random, triangle.to_vec(), TRIANGLE_NUMBERS));
    let list: Vec<i32> = turned.collect();
    let numbers = list.len();
    shuffled::<TRIANGLE_NUMBERS>(random, list, numbers)
}
