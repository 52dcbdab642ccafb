//! The lists: eleven kinds that are timed, each in one call, and two of them in many short calls too, those
//! of random triangles each from a seed of its own; and faulty ones. All that are timed are timed on both
//! scales: the tiny grid as it is and with every number 2^28 times as large, the others within NARROW and scaled
//! from there.

use super::overlapping::{crossing_triangle, layers};
use super::surfaces::{cube, sphere, with_slivers};
use super::{box_list, faulty_shape, spread, List, PAIRS, SMALL_HALF, TINY_END, TINY_SCALE};
use crate::ordinary::listing::MOST_TRIANGLES;
use crate::ordinary::{has_area, NARROW, TRIANGLE_NUMBERS};
use crate::random::Random;
use crate::scaling::{as_it_is_and_times, on_both_scales, scaled, Input};
use crate::timing::Goals;

/// Where few pairs have boxes with a point in common, so that the pair test has little to decide.
const SPARSE_GOALS: Goals = [0.012; 2];
/// Where few pairs have, and what is near in space is not near in the list.
const SHUFFLED_GOALS: Goals = [0.015; 2];
/// Where few pairs have, but for those of the largest triangles.
const SIZES_GOALS: Goals = [0.03; 2];
/// Where most pairs have.
const RANDOM_GOALS: Goals = [0.3; 2];
/// Where most pairs have, and many sides are zero, which no estimate tells.
const TINY_GOALS: Goals = [0.35, 0.4];
/// Where all pairs have, and more than half of them meet.
const CROSSING_GOALS: Goals = [0.42, 0.23];
/// Where all pairs have, and the first plane that is asked tells each of them apart.
const LAYERS_GOALS: Goals = [0.36, 0.2];
/// As RANDOM_GOALS, in calls of 16 by 16, so that what is done once a list weighs more.
const CALLS_OF_16_GOALS: Goals = [0.6, 0.48];
/// The same in calls of 64 by 64.
const CALLS_OF_64_GOALS: Goals = [0.39, 0.25];
/// As SPARSE_GOALS, in calls of 1 by 1,024, so that what is done once a list weighs most.
const CALLS_OF_ONE_GOALS: Goals = [0.25; 2];

/// Half of a size goes from 2 to the first power to 2 to the second, which is NARROW: from some ten steps of
/// the grid to all within NARROW, five decades.
const HALF_POWERS: [i32; 2] = [2, 19];

type Lists = [Vec<i32>; 2];

/// Two lists that are served, in one call or in pieces.
pub struct Listed {
    lists: Lists,
    /// So many triangles of each list make a piece.
    piece: [usize; 2],
    /// The highest ratio to the ordinary listing that the door should have.
    pub goal: f64,
}

impl Listed {
    /// The two lists of each call: each piece of the first list with each of the second. So the pairs
    /// are the same, however long the pieces are.
    pub fn calls(&self) -> Vec<[&[i32]; 2]> {
        let pieces = |side: usize| self.lists[side].chunks(self.piece[side] * TRIANGLE_NUMBERS);
        pieces(0)
            .flat_map(|first| pieces(1).map(move |second| [first, second]))
            .collect()
    }
}

pub fn timed() -> Vec<Input<Listed>> {
    let mut inputs: Vec<Input<Listed>> = kinds_within_narrow()
        .into_iter()
        .flat_map(|(name, lists, goals)| in_pieces(name, &lists, [MOST_TRIANGLES; 2], goals))
        .collect();
    inputs.extend(as_it_is_and_times(
        "a tiny grid, many touching or in one plane",
        TINY_SCALE,
        listed(&with_area(7, tiny_triangle), [MOST_TRIANGLES; 2], TINY_GOALS),
    ));
    inputs.extend(in_short_calls());
    inputs
}

/// The kinds that are timed in one call, but for the tiny grid.
fn kinds_within_narrow() -> [(&'static str, Lists, Goals); 10] {
    let spheres = [[0, 0, 0], [170_000, 110_000, 70_000]].map(|middle| sphere(middle, 250_000));
    let cubes = [[0, 0, -180_000], [35_000, 52_000, 180_000]].map(|middle| cube(middle, 20_000));
    let slivers = spheres.each_ref().map(|list| with_slivers(list));
    let [shuffled_spheres, shuffled_cubes] = [shuffled(20, &spheres), shuffled(21, &cubes)];
    [
        ("random", random_lists(), RANDOM_GOALS),
        ("small triangles, spread", small_lists(), SPARSE_GOALS),
        ("two spheres that overlap", spheres, SPARSE_GOALS),
        ("a cube resting on another", cubes, SPARSE_GOALS),
        (
            "slivers: the spheres, one triangle in ten a segment or a point",
            slivers,
            SPARSE_GOALS,
        ),
        ("the spheres in shuffled order", shuffled_spheres, SHUFFLED_GOALS),
        ("the cubes in shuffled order", shuffled_cubes, SHUFFLED_GOALS),
        (
            "all boxes overlapping, crossing",
            with_area(22, crossing_triangle),
            CROSSING_GOALS,
        ),
        ("all boxes overlapping, in layers", layers(23), LAYERS_GOALS),
        (
            "sizes over five decades",
            with_area(24, triangle_of_any_size),
            SIZES_GOALS,
        ),
    ]
}

fn in_short_calls() -> Vec<Input<Listed>> {
    let random = random_lists();
    let short_dense = |length, goals| in_pieces("random, in short calls", &random, [length; 2], goals);
    let short_sparse = in_pieces(
        "small triangles, spread, in short calls",
        &small_lists(),
        [1, MOST_TRIANGLES],
        CALLS_OF_ONE_GOALS,
    );
    [
        short_dense(16, CALLS_OF_16_GOALS),
        short_dense(64, CALLS_OF_64_GOALS),
        short_sparse,
    ]
    .into_iter()
    .flatten()
    .collect()
}

fn in_pieces(name: &str, lists: &Lists, piece: [usize; 2], goals: Goals) -> Vec<Input<Listed>> {
    on_both_scales(name, listed(lists, piece, goals))
}

/// Makes the lists of a factor, which is 1 on the smaller scale.
fn listed(lists: &Lists, piece: [usize; 2], goals: Goals) -> impl Fn(i32) -> Listed + '_ {
    move |scale| Listed {
        lists: lists.each_ref().map(|list| scaled(list, scale)),
        piece,
        goal: goals[usize::from(scale > 1)],
    }
}

fn random_lists() -> Lists {
    with_area(5, |random| box_list(random, -NARROW, NARROW))
}

fn small_lists() -> Lists {
    with_area(6, small_triangle)
}

/// Two lists of triangles of one kind, of which none is flat.
fn with_area(seed: u64, any_triangle: impl Fn(&mut Random) -> List) -> Lists {
    let mut random = Random::new(seed, 0);
    [0; 2].map(|_| {
        let triangles = std::iter::repeat_with(|| any_triangle(&mut random));
        triangles
            .filter(|list| has_area(list))
            .take(MOST_TRIANGLES)
            .flatten()
            .collect()
    })
}

/// The same triangles, each list in an order of its own.
fn shuffled(seed: u64, lists: &Lists) -> Lists {
    let mut random = Random::new(seed, 0);
    lists.each_ref().map(|list| {
        let mut triangles: Vec<&[i32]> = list.chunks_exact(TRIANGLE_NUMBERS).collect();
        for last in (1..triangles.len()).rev() {
            triangles.swap(last, random.index(last + 1));
        }
        triangles.concat()
    })
}

pub fn small_triangle(random: &mut Random) -> List {
    triangle_of_size(random, SMALL_HALF)
}

/// Each power of two is drawn as often as another, and a half from it to its double.
fn triangle_of_any_size(random: &mut Random) -> List {
    let [low, high] = HALF_POWERS;
    let least = 1 << random.between(low, high - 1);
    let half = random.between(least, 2 * least);
    triangle_of_size(random, half)
}

/// The corners lie at most `half` from a point anywhere within NARROW, in each coordinate.
fn triangle_of_size(random: &mut Random, half: i32) -> List {
    let mut list = box_list(random, -half, half);
    spread(random, half, &mut list);
    list
}

/// Every second triangle or so lies in one plane, so that every fourth pair or so does.
pub fn tiny_triangle(random: &mut Random) -> List {
    let mut list = box_list(random, 0, TINY_END);
    if random.once_in(2) {
        for corner in list.chunks_mut(3) {
            corner[2] = 0;
        }
    }
    list
}

/// What a listing may be asked, faulty or not.
pub struct Question {
    pub first: Vec<i32>,
    pub second: Vec<i32>,
    pub buffer_length: usize,
    pub start: usize,
}

/// Short lists and buffers, with no fault or with one or several of: those of a triangle, a wrong
/// length, a start beyond the buffer's end, too little room.
pub fn faulty() -> Vec<Question> {
    let mut random = Random::new(8, 0);
    let any_question = || {
        let [first, second] = [0; 2].map(|_| faulty_list(&mut random));
        let buffer_length = random.index(2 * TRIANGLE_NUMBERS);
        Question {
            first,
            second,
            buffer_length,
            start: random.index(buffer_length + 3),
        }
    };
    std::iter::repeat_with(any_question).take(PAIRS).collect()
}

/// Every second list or so has triangles on the grid only, a few of them flat.
fn faulty_list(random: &mut Random) -> Vec<i32> {
    let any_triangle = if random.once_in(2) { faulty_shape } else { tiny_triangle };
    let mut list = Vec::new();
    for _ in 0..random.below(4) {
        list.extend(any_triangle(random));
    }
    if random.once_in(8) {
        list.resize(random.index(4 * TRIANGLE_NUMBERS), 0);
    }
    if random.once_in(100) {
        list.resize((MOST_TRIANGLES + 1) * TRIANGLE_NUMBERS, 0);
    }
    list
}
