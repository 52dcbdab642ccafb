//! Triangles whose plane is known with all its whole points, so that points of any height over it can be found, over
//! the triangle or beside it. Each has an apex off the plane, which makes it a tetrahedron.

mod kinds;

use crate::geometry::by_signs::ORDERS_OF_THREE;
use crate::geometry::estimate::{estimate, normal_of, Estimate, WHOLE_LIMIT};
use crate::geometry::{minus, Space, Triangle};
use crate::inputs::lattice::{sum, Lattice};
use crate::random::Random;

/// How often two steps of a plane must be taken from the first corner to the second, and to the third.
type Times = [[i128; 2]; 2];
/// How much of each corner makes a place in their plane. The sum is above zero.
pub type Weights = [i128; 3];

pub struct Stand {
    pub corners: Triangle,
    pub apex: Space,
    /// That of the apex's determinant over the corners.
    pub apex_sign: i128,
    lattice: Lattice,
    /// How often the lattice's steps lead from the first corner to the second, and to the third.
    counts: Times,
    /// The determinant of a point over the corners is so many times its height.
    index: i128,
    /// No number is larger than this in size.
    half: i32,
    /// A point that is known to have an estimate far off.
    known: Option<Space>,
}

/// What the determinant of a point is to be.
#[derive(Clone, Copy, PartialEq, Eq, Debug)]
pub enum Aim {
    Zero,
    /// The least that there is, of either sign.
    Least,
    /// Up to some 2^44, of either sign.
    Small,
    /// With an estimate on the limit or next to it, of either sign.
    Limit,
}

pub const AIMS: [Aim; 8] = [
    Aim::Zero,
    Aim::Zero,
    Aim::Least,
    Aim::Least,
    Aim::Small,
    Aim::Limit,
    Aim::Limit,
    Aim::Limit,
];

/// So many points are tried until the estimate of one is at the limit, or one is on the side that is asked for.
const TRIES: usize = 24;

impl Stand {
    /// Nothing where the steps don't lead to all whole points of their plane, or the triangle has no room.
    fn of(random: &mut Random, steps: [Space; 2], times: Times, half: i32) -> Option<Stand> {
        let lattice = Lattice::with_short_steps(steps)?;
        let to = times.map(|[one, other]| sum(sum([0; 3], steps[0], one), steps[1], other));
        let origin = room_for(random, to, half)?;
        let corners = [origin, sum(origin, to[0], 1), sum(origin, to[1], 1)];
        Stand::at(random, corners, lattice, half)
    }

    /// Nothing where the corners are on one line, or all points that are tried for an apex are in their plane.
    fn at(random: &mut Random, corners: Triangle, lattice: Lattice, half: i32) -> Option<Stand> {
        let [a, b, c] = corners;
        let axis = lattice.axis();
        let index = normal_of(corners)[axis] / lattice.normal[axis];
        let height = |point: Space| lattice.height_of(minus(a, point));
        let mut apexes = (0..TRIES).map(|_| far_point(random, half));
        let apex = apexes.find(|apex| index * height(*apex) != 0)?;
        Some(Stand {
            corners,
            apex,
            apex_sign: (index * height(apex)).signum(),
            counts: [b, c].map(|corner| lattice.counts_of(minus(corner, a))),
            lattice,
            index,
            half,
            known: None,
        })
    }

    /// About the place in the plane that the weights name; or the known one.
    pub fn point(&self, random: &mut Random, aim: Aim, weights: Weights) -> Option<Space> {
        if self.known.is_some() && !random.once_in(4) {
            return self.known;
        }
        let sign = random.pick(&[1, -1]);
        let height = match aim {
            Aim::Zero => 0,
            Aim::Least => sign,
            Aim::Small => sign * i128::from(random.next() >> (20 + random.index(44))) / self.index,
            Aim::Limit => return self.point_at_limit(random, sign, weights),
        };
        let points = self.points(height, weights);
        (!points.is_empty()).then(|| random.pick(&points))
    }

    /// What the estimate is off by at one point tells how far from the limit the next one may be.
    fn point_at_limit(&self, random: &mut Random, sign: i128, weights: Weights) -> Option<Space> {
        if self.index.abs() > WHOLE_LIMIT {
            return None;
        }
        let mut off = 0.0;
        for _ in 0..TRIES {
            let part = f64::from(random.between(-1_000, 1_000)) / 500.0;
            let height = (sign * WHOLE_LIMIT + (part * off) as i128) / self.index;
            let points = self.points(height, weights);
            let is_there = |point: &&Space| self.estimates(**point).any(|it| it.at_limit().is_some());
            if let Some(point) = points.iter().find(is_there) {
                return Some(*point);
            }
            let (determinant, point) = ((self.index * height) as f64, points.first()?);
            let offs = self.estimates(*point).map(|it| it.value.abs() - determinant.abs());
            off = offs.fold(1.0, |most, off| off.abs().max(most));
        }
        None
    }

    /// With the corners in each of their orders.
    fn estimates(&self, point: Space) -> impl Iterator<Item = Estimate> + '_ {
        ORDERS_OF_THREE.iter().map(move |order| {
            let [a, b, c] = order.map(|place| self.corners[place]);
            estimate([a, b, c, point])
        })
    }

    /// Points of that height.
    fn points(&self, height: i128, weights: Weights) -> Vec<Space> {
        let total: i128 = weights.iter().sum();
        let start = minus(self.corners[0], self.lattice.rising(height));
        let near = [0, 1].map(|k| (weights[1] * self.counts[0][k] + weights[2] * self.counts[1][k]).div_euclid(total));
        let around = |k: usize| near[k] - 1..=near[k] + 2;
        let [one, other] = self.lattice.steps;
        let counts = around(0).flat_map(|i| around(1).map(move |j| (i, j)));
        let points = counts.map(|(i, j)| sum(sum(start, one, i), other, j));
        points.filter(|point| size_of(*point) <= self.half.into()).collect()
    }

    /// Anywhere, or as far away as there is room, but with a determinant of this sign.
    pub fn point_beside(&self, random: &mut Random, sign: i128) -> Option<Space> {
        let height = |point: &Space| self.lattice.height_of(minus(self.corners[0], *point));
        let is_there = |point: &Space| (self.index * height(point)).signum() == sign;
        let anywhere = |_| match random.below(4) {
            0 => self.farthest_point(sign),
            _ => far_point(random, self.half),
        };
        (0..TRIES).map(anywhere).find(is_there)
    }

    /// The one with the largest determinant of this sign.
    pub fn farthest_point(&self, sign: i128) -> Space {
        let upwards = self.lattice.normal.map(|number| number.signum() * self.index.signum());
        upwards.map(|number| -sign * number * i128::from(self.half))
    }
}

/// Of a place within the triangle, or on its border.
pub fn weights_within(random: &mut Random) -> Weights {
    let mut weights = [(); 3].map(|()| i128::from(random.between(0, 4)));
    weights[random.index(3)] += 1;
    weights
}

/// Of a place beside the triangle, beyond the edge from the first corner to the second.
pub fn weights_beyond(random: &mut Random) -> Weights {
    [random.between(2, 5), random.between(2, 5), -random.between(1, 3)].map(i128::from)
}

/// Each number anywhere within the half, or close to its ends.
pub fn far_point(random: &mut Random, half: i32) -> Space {
    let near = random.pick(&[0, 10, 1_000, 1_000_000]).min(half / 2);
    [(); 3].map(|()| {
        let number = match random.below(3) {
            0 => random.between(-half, half),
            _ => (half - random.between(0, near)) * random.pick(&[1, -1]),
        };
        i128::from(number)
    })
}

fn far_step(random: &mut Random, half: i32) -> Space {
    minus(far_point(random, half), far_point(random, half))
}

fn size_of(step: Space) -> i128 {
    step.iter().map(|number| number.abs()).max().unwrap_or(0)
}

/// A corner from which the steps lead nowhere beyond the half, often at an end of it.
fn room_for(random: &mut Random, steps: [Space; 2], half: i32) -> Option<Space> {
    let mut corner = [0; 3];
    for k in 0..3 {
        let ways = [0, steps[0][k], steps[1][k]];
        let low = -i128::from(half) - ways.iter().min()?;
        let high = i128::from(half) - ways.iter().max()?;
        if low > high {
            return None;
        }
        corner[k] = match random.below(4) {
            0 => low,
            1 => high,
            _ => random.between(low as i32, high as i32).into(),
        };
    }
    Some(corner)
}
