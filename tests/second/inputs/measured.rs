//! Points of space whose determinants are made to measure out of numbers as large as the grid: 0, 1 and -1, where
//! products of some 90 bits cancel, and the numbers about the powers of 2 at which a word of 64 bits ends.

use super::lattice::{sum, Lattice};
use super::{shuffled, Lists};
use crate::answers::{GRID, SIDE_NUMBERS};
use crate::geometry::{minus, product, Space, Triangle};
use crate::random::Random;

type Vector = [i32; 3];

/// The largest number of a normal must be as large as this, so that no multiple of a step is too long.
const LEAST_NORMAL: i128 = 1 << 40;

/// Four points with a determinant made to measure. The first three have the plane, or any three.
pub fn measured_points(random: &mut Random) -> Vec<i32> {
    let (plane, height) = (Plane::any(random), any_measure(random));
    let points = [list_of(&plane.corners()), list_of(&[plane.any_point(random, height)])].concat();
    if random.once_in(2) {
        shuffled::<3>(random, points, SIDE_NUMBERS)
    } else {
        points
    }
}

/// Two triangles, the second with the heights of its corners over the plane of the first made to measure.
pub fn measured_lists(random: &mut Random) -> Lists {
    let plane = Plane::any(random);
    let second: Triangle = [(); 3].map(|()| {
        let height = any_measure(random);
        plane.any_point(random, height)
    });
    (list_of(&plane.corners()), list_of(&second))
}

/// The corners of a vast tetrahedron, and of a small one with its tip at a height made to measure over a wall of the
/// first, and the others on either side of that wall.
pub fn tetrahedra_at_wall(random: &mut Random) -> [[Vector; 4]; 2] {
    let (plane, apex) = (Plane::any(random), any_far_point(random));
    let height = any_measure(random);
    let (tip, size, way) = (
        plane.any_point(random, height),
        random.pick(&[1, 2, 1_000]),
        random.pick(&[1, -1]),
    );
    let with_step = |axis: usize| {
        let mut corner = tip;
        corner[axis] += size * way * plane.lattice.normal[axis].signum();
        corner.map(|number| number.clamp(-i128::from(GRID), i128::from(GRID)))
    };
    let [a, b, c] = plane.corners();
    let corners = [[a, b, c, apex], [tip, with_step(0), with_step(1), with_step(2)]];
    corners.map(|corners| corners.map(|corner| corner.map(|number| number as i32)))
}

/// 0, a power of 2 or a multiple of 2^64, or one more or less; of either sign.
fn any_measure(random: &mut Random) -> i128 {
    let measure = match random.below(8) {
        0..=2 => 0,
        3 => 1 << random.pick(&[31, 32, 62, 63]),
        4..=5 => 1 << 64,
        6 => 1 << random.between(65, 88),
        _ => i128::from(random.between(1, 1 << 24)) << 64,
    };
    (measure + i128::from(random.between(-1, 1))) * random.pick(&[1, -1])
}

/// Each number anywhere on the grid, or close to an end of it.
fn any_far_point(random: &mut Random) -> Space {
    let near = random.pick(&[10, 1_000, 1_000_000]);
    [(); 3].map(|()| {
        let number = match random.below(4) {
            0 => random.between(-GRID, GRID),
            _ => (GRID - random.between(0, near)) * random.pick(&[1, -1]),
        };
        i128::from(number)
    })
}

/// The points must be on the grid.
pub fn list_of(points: &[Space]) -> Vec<i32> {
    points.iter().flatten().map(|number| *number as i32).collect()
}

pub fn is_on_grid(point: &Space) -> bool {
    point.iter().all(|number| number.abs() <= i128::from(GRID))
}

/// A plane with all its whole points, to which the lattice's steps lead from one of them.
struct Plane {
    origin: Space,
    /// How many of each step lead to the corners of a triangle.
    parts: [i128; 2],
    lattice: Lattice,
}

impl Plane {
    /// Through three points, from the first of them, or through nearly these. About half of all planes will do.
    fn any(random: &mut Random) -> Plane {
        loop {
            let [origin, one, other] = [(); 3].map(|()| any_far_point(random));
            let parts = random.pick(&[[1, 1], [1, 1], [1, 1], [1, 2], [2, 3], [3, 3]]);
            let step = |to: Space, parts: i128| minus(to, origin).map(|number| number / parts);
            let steps = [step(one, parts[0]), step(other, parts[1])];
            if let Some(lattice) = lattice_of(steps) {
                return Plane { origin, parts, lattice };
            }
        }
    }

    /// In this order a point's determinant over them is that of its step to the last, which is the origin, with the
    /// steps to the others.
    fn corners(&self) -> Triangle {
        let ([one, other], [parts, other_parts]) = (self.lattice.steps, self.parts);
        [
            sum(self.origin, one, parts),
            sum(self.origin, other, other_parts),
            self.origin,
        ]
    }

    /// A point of the grid with that height or the opposite one, beside or over the triangle; any where there is none.
    fn any_point(&self, random: &mut Random, height: i128) -> Space {
        let points = [self.points(height), self.points(-height)];
        match points.into_iter().find(|points| !points.is_empty()) {
            Some(points) => random.pick(&points),
            None => any_far_point(random),
        }
    }

    /// The points of the grid whose steps to the origin rise by so much, about the triangle.
    fn points(&self, height: i128) -> Vec<Space> {
        let (step, [one, other]) = (self.lattice.rising(height), self.lattice.steps);
        let start = minus(self.origin, step);
        let counts = (0..=self.parts[0] + 1).flat_map(|i| (0..=self.parts[1] + 1).map(move |j| (i, j)));
        let points = counts.map(|(i, j)| sum(sum(start, one, i), other, j));
        points.filter(is_on_grid).collect()
    }
}

/// Nothing where the steps don't lead to all whole points of their plane, or nearly have one direction.
fn lattice_of(steps: [Space; 2]) -> Option<Lattice> {
    let normal = product(steps[0], steps[1]);
    let is_large = normal.iter().any(|number| number.abs() >= LEAST_NORMAL);
    is_large.then(|| Lattice::of(steps)).flatten()
}
