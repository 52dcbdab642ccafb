//! Own exact geometry in 128-bit whole numbers, and wider ones where these have no room: signs, whether two shapes have
//! a common point, and whether a point is inside a shell, each by two different means. Shapes are closed: a touch is
//! meeting.
//!
//! Coordinates of the grid are at most 2^30 in size, and their differences at most 2^31. What looks for flat shapes
//! also gets coordinates from off the grid, at most 2^31 in size. The comments bound the largest numbers that arise.

pub mod ahead;
pub mod axes;
pub mod by_signs;
pub mod clipping;
pub mod edges;
pub mod estimate;
pub mod rays;
pub mod signs;
pub mod thin;
mod wide;

use std::ops::{Add, Neg, Sub};

/// The whole numbers that shapes are given in: 128 bits have room for all of the grid, 64 for narrow shapes.
pub trait Whole: Copy + Ord + From<i32> + Add<Output = Self> + Sub<Output = Self> + Neg<Output = Self> {
    fn times(self, other: Self) -> Self;
}

impl Whole for i64 {
    fn times(self, other: i64) -> i64 {
        self * other
    }
}

impl Whole for i128 {
    /// Mostly both have room in 64 bits, and then the processor multiplies them at once.
    fn times(self, other: i128) -> i128 {
        match (i64::try_from(self), i64::try_from(other)) {
            (Ok(one), Ok(other)) => i128::from(one) * i128::from(other),
            _ => self * other,
        }
    }
}

/// A point, or the step from one point to another, in D coordinates.
pub type Point<const D: usize, Number = i128> = [Number; D];
pub type Flat<Number = i128> = Point<2, Number>;
pub type Space<Number = i128> = Point<3, Number>;
pub type FlatTriangle<Number = i128> = [Flat<Number>; 3];
pub type Segment<Number = i128> = [Space<Number>; 2];
pub type Triangle<Number = i128> = [Space<Number>; 3];

/// The points of a list of numbers.
pub fn points_in<Number: Whole, const D: usize, const N: usize>(list: &[i32]) -> [Point<D, Number>; N] {
    std::array::from_fn(|i| std::array::from_fn(|k| Number::from(list[D * i + k])))
}

pub fn minus<Number: Whole, const D: usize>(p: Point<D, Number>, q: Point<D, Number>) -> Point<D, Number> {
    std::array::from_fn(|k| p[k] - q[k])
}

pub fn edges_of<const D: usize>(triangle: &[Point<D>; 3]) -> [[Point<D>; 2]; 3] {
    let [a, b, c] = *triangle;
    [[a, b], [b, c], [c, a]]
}

/// The steps around a shape; a segment's goes there and back.
pub fn steps<Number: Whole, const D: usize, const N: usize>(corners: &[Point<D, Number>; N]) -> [Point<D, Number>; N] {
    std::array::from_fn(|i| minus(corners[(i + 1) % N], corners[i]))
}

/// Across both steps; zero where they are parallel.
pub fn product<Number: Whole>(u: Space<Number>, v: Space<Number>) -> Space<Number> {
    [
        u[1].times(v[2]) - u[2].times(v[1]),
        u[2].times(v[0]) - u[0].times(v[2]),
        u[0].times(v[1]) - u[1].times(v[0]),
    ]
}

/// Zero where the steps are square to each other.
pub fn dot<Number: Whole, const D: usize>(u: Point<D, Number>, v: Point<D, Number>) -> Number {
    (0..D).fold(Number::from(0), |sum, k| sum + u[k].times(v[k]))
}

pub fn is_zero<Number: Whole, const D: usize>(step: Point<D, Number>) -> bool {
    step.iter().all(|n| *n == Number::from(0))
}
