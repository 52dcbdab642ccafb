//! The pairs, of two triangles or of a segment and a triangle: three kinds of each that are timed, each
//! from a seed of its own, and faulty ones. The listings' inputs, in `lists`, are made of triangles of
//! these kinds, of surfaces, of triangles whose boxes all overlap, and of triangles of all sizes; the
//! plates' inputs, in `plates`, of calls about such triangles as the pairs have, and about closed shells;
//! and the sheets' inputs, in `sheets`, of fields about such triangles.
//!
//! What is timed is drawn within NARROW, as it was when that was the end of the grid, and made larger by
//! `scaling`. What is faulty is about the ends of the grid that there is.

pub mod lists;
mod overlapping;
pub mod plates;
pub mod sheets;
mod surfaces;

use crate::ordinary::{has_area, GRID, NARROW, TRIANGLE_NUMBERS};
use crate::random::Random;
use crate::scaling::{as_it_is_and_times, on_both_scales, scaled_number, Input};

/// The kinds of pairs: random, small and spread, on a tiny grid.
pub const KINDS: usize = 3;
/// This many of each kind.
const PAIRS: usize = 20_000;
/// How far the corners of a small triangle may lie from its middle, in each coordinate.
const SMALL_HALF: i32 = 1_000;
/// The tiny grid goes from 0 to this.
const TINY_END: i32 = 4;
/// So many times as large it goes to the end of the grid: 2^28.
const TINY_SCALE: i32 = GRID / TINY_END;

type List = [i32; TRIANGLE_NUMBERS];

/// A shape of N numbers, a triangle or a segment, and a triangle, of M. The numbers may be bytes.
pub struct Pair<const N: usize, const M: usize = TRIANGLE_NUMBERS, Number = i32> {
    pub first: [Number; N],
    pub second: [Number; M],
}

impl<const N: usize> Pair<N> {
    fn scaled(&self, scale: i32) -> Pair<N> {
        Pair {
            first: self.first.map(|number| scaled_number(number, scale)),
            second: self.second.map(|number| scaled_number(number, scale)),
        }
    }
}

/// Pairs of one kind, of which no triangle is flat.
pub type PairsInput<const N: usize> = Input<Vec<Pair<N>>>;

/// Each kind on both scales.
pub fn timed<const N: usize>(seeds: [u64; KINDS]) -> Vec<PairsInput<N>> {
    let random = pairs_with_area(seeds[0], |random| box_pair(random, -NARROW, NARROW));
    let small = pairs_with_area(seeds[1], small_pair);
    let tiny = pairs_with_area(seeds[2], tiny_pair);
    let scaled = |pairs: &[Pair<N>], scale| pairs.iter().map(|pair| pair.scaled(scale)).collect();
    let mut inputs = on_both_scales("random", |scale| scaled(&random, scale));
    inputs.extend(on_both_scales("small and spread", |scale| scaled(&small, scale)));
    inputs.extend(as_it_is_and_times(
        "a tiny grid, many touching or in one plane",
        TINY_SCALE,
        |scale| scaled(&tiny, scale),
    ));
    inputs
}

fn pairs_with_area<const N: usize>(seed: u64, any_pair: impl Fn(&mut Random) -> Pair<N>) -> Vec<Pair<N>> {
    let mut random = Random::new(seed, 0);
    let is_segment_or_has_area = |list: &[i32]| list.len() < TRIANGLE_NUMBERS || has_area(list);
    let have_area = |pair: &Pair<N>| is_segment_or_has_area(&pair.first) && has_area(&pair.second);
    let pairs = std::iter::repeat_with(|| any_pair(&mut random));
    pairs.filter(have_area).take(PAIRS).collect()
}

fn box_list<const N: usize>(random: &mut Random, low: i32, high: i32) -> [i32; N] {
    [0; N].map(|_| random.between(low, high))
}

fn box_pair<const N: usize>(random: &mut Random, low: i32, high: i32) -> Pair<N> {
    Pair {
        first: box_list(random, low, high),
        second: box_list(random, low, high),
    }
}

/// Each shape has its corners near a point anywhere within NARROW.
fn small_pair<const N: usize>(random: &mut Random) -> Pair<N> {
    let mut pair = box_pair(random, -SMALL_HALF, SMALL_HALF);
    spread(random, SMALL_HALF, &mut pair.first);
    spread(random, SMALL_HALF, &mut pair.second);
    pair
}

/// Moves a shape, whose corners lie at most `half` from the middle of the grid, to anywhere within NARROW.
fn spread(random: &mut Random, half: i32, list: &mut [i32]) {
    let end = NARROW - half;
    let middle = [0; 3].map(|_| random.between(-end, end));
    for (place, number) in list.iter_mut().enumerate() {
        *number += middle[place % 3];
    }
}

/// Every fourth pair or so lies in one plane, on which one of the axes is upright.
fn tiny_pair<const N: usize>(random: &mut Random) -> Pair<N> {
    let mut pair = box_pair(random, 0, TINY_END);
    if random.once_in(4) {
        let axis = random.index(3);
        for corner in pair.first.chunks_mut(3).chain(pair.second.chunks_mut(3)) {
            corner[axis] = 0;
        }
    }
    pair
}

/// The numbers as bytes, each low byte first.
pub fn bytes_of(numbers: &[i32]) -> Vec<u8> {
    numbers.iter().flat_map(|number| number.to_le_bytes()).collect()
}

/// Two lists, of a shape of N numbers and of a triangle, each with no fault or with one or several of: a
/// wrong length, a number off the grid. Many have their corners on one line, which is no fault.
pub fn faulty<const N: usize>(seed: u64) -> Vec<[Vec<i32>; 2]> {
    let mut random = Random::new(seed, 0);
    let any_pair = || {
        [
            faulty_list::<N>(&mut random),
            faulty_list::<TRIANGLE_NUMBERS>(&mut random),
        ]
    };
    std::iter::repeat_with(any_pair).take(PAIRS).collect()
}

fn faulty_list<const N: usize>(random: &mut Random) -> Vec<i32> {
    let mut list = faulty_shape::<N>(random).to_vec();
    if random.once_in(4) {
        list.resize(random.index(2 * TRIANGLE_NUMBERS), 0);
    }
    list
}

fn faulty_shape<const N: usize>(random: &mut Random) -> [i32; N] {
    shape_about(random, GRID)
}

/// Some numbers lie at this end of a grid, or beyond. The last corner is often the first.
fn shape_about<const N: usize>(random: &mut Random, end: i32) -> [i32; N] {
    let mut list = box_list(random, 0, TINY_END);
    if random.once_in(4) {
        list.copy_within(0..3, N - 3);
    }
    for _ in 0..random.below(3) {
        let place = random.index(list.len());
        list[place] = random.pick(&[end, end + 1, -end, -end - 1, i32::MAX, i32::MIN]);
    }
    list
}
