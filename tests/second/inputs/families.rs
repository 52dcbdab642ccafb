//! Four families of random shapes for very long comparisons, written into the lists that are there for them. Each makes
//! shapes of the plane (D = 2) and of space (D = 3), one to a list or many triangles, with every number on the grid.

use super::space::TINY;
use super::thin::thin;
use super::{box_point, extreme_number, nudge, shuffle};
use crate::answers::GRID;
use crate::random::Random;

#[derive(Clone, Copy)]
pub enum Family {
    /// As large as the grid, or in boxes of any size anywhere on it; ends of the grid are among the numbers.
    Grid,
    /// With coordinates from -4 to 4, or from -2 to 2.
    Tiny,
    /// Tiny ones made large; half of them moved, and slanted or with one number off by one.
    Scaled,
    /// At least one of the shapes is flat or nearly so, and most have to do with the other.
    Slivers,
}

/// Of so many pairs of tiny shapes of space one is level, and of so many with a flat shape one.
const LEVEL_ONCE_IN: u64 = 8;
const LEVEL_SLIVERS_ONCE_IN: u64 = 2;

/// A list for the first shape, and one for the second.
type Pair<'a> = [&'a mut [i32]; 2];

impl Family {
    pub const ALL: [Family; 4] = [Family::Grid, Family::Tiny, Family::Scaled, Family::Slivers];

    pub fn name(self) -> &'static str {
        match self {
            Family::Grid => "grid",
            Family::Tiny => "tiny",
            Family::Scaled => "scaled",
            Family::Slivers => "slivers",
        }
    }

    pub fn fill<const D: usize>(self, random: &mut Random, lists: &mut Pair) {
        match self {
            Family::Grid => fill_grid::<D>(random, lists),
            Family::Tiny => fill_tiny::<D>(random, lists, LEVEL_ONCE_IN),
            Family::Scaled => fill_scaled::<D>(random, lists),
            Family::Slivers => fill_slivers::<D>(random, lists),
        }
    }
}

/// The boxes of both lists overlap, or just don't.
fn fill_grid<const D: usize>(random: &mut Random, lists: &mut Pair) {
    let half = if random.once_in(2) {
        GRID
    } else {
        GRID >> random.between(1, 20)
    };
    let (room, ends_of_three) = (GRID - half, random.pick(&[0, 0, 1, 3]));
    let origin: [i32; D] = box_point(random, room);
    for list in lists {
        let place = origin.map(|n| (n + random.between(-half / 2, half / 2)).clamp(-room, room));
        for (number, middle) in list.iter_mut().zip(place.iter().cycle()) {
            *number = middle + random.between(-half, half);
            if ends_of_three > 0 && random.below(3) < ends_of_three {
                *number = extreme_number(random, 1);
            }
        }
    }
}

/// Level shapes of space all lie in one plane across an axis.
fn fill_tiny<const D: usize>(random: &mut Random, lists: &mut Pair, level_once_in: u64) {
    let half = random.pick(&[TINY / 2, TINY]);
    let mut halves = [half; D];
    if D == 3 && random.once_in(level_once_in) {
        halves[random.index(D)] = 0;
    }
    for list in lists {
        for (number, half) in list.iter_mut().zip(halves.iter().cycle()) {
            *number = random.between(-half, *half);
        }
    }
}

fn fill_scaled<const D: usize>(random: &mut Random, lists: &mut Pair) {
    fill_tiny::<D>(random, lists, LEVEL_ONCE_IN);
    let (is_moved, is_slanted) = (random.once_in(2), random.once_in(2));
    let mut map = Map::<D>::straight();
    if is_moved && is_slanted {
        map.slant(random);
    }
    map.magnify(random);
    if is_moved {
        map.shift(random);
    }
    lists.iter_mut().for_each(|list| map.lay_out(list));
    if is_moved && !is_slanted {
        let either = random.index(2);
        nudge(random, lists[either]);
    }
}

/// Of those made of tiny shapes all corners are points of a lattice, so a wire goes through such points of the other
/// shape or passes it at the next ones. One number off by one makes a long thin triangle of a flat one; a flat one of
/// the plane is refused, so most of those are made sound in this way.
fn fill_slivers<const D: usize>(random: &mut Random, lists: &mut Pair) {
    let (is_lattice, which) = (!random.once_in(8), random.below(3));
    let limit = if is_lattice {
        fill_tiny::<D>(random, lists, LEVEL_SLIVERS_ONCE_IN);
        TINY
    } else {
        fill_grid::<D>(random, lists);
        GRID
    };
    let map = is_lattice.then(|| Map::<D>::any(random));
    let (nudged_of_eight, nudges) = if D == 2 { (7, 3) } else { (2, 1) };
    for (number, list) in (0..).zip(lists) {
        if which != number {
            thin_all::<D>(random, list, limit);
        }
        map.iter().for_each(|map| map.lay_out(list));
        if random.below(8) < nudged_of_eight {
            (0..nudges).for_each(|_| nudge(random, list));
        }
    }
}

/// Makes each triangle of a list flat, or the one segment.
fn thin_all<const D: usize>(random: &mut Random, list: &mut [i32], limit: i32) {
    if list.len() == 2 * D {
        list.copy_within(..D, D);
    }
    for triangle in list.chunks_exact_mut(3 * D) {
        thin::<D>(random, triangle, limit);
        shuffle::<D>(random, triangle);
    }
}

// ---- Tiny points laid out ----

/// Takes tiny points to points of the grid, by a step for each coordinate. Lines and planes stay such.
struct Map<const D: usize> {
    origin: [i32; D],
    steps: [[i32; D]; D],
}

impl<const D: usize> Map<D> {
    /// Slants of at most so much leave tiny points on the grid: 4 * (1 + 16,380 + 16,380^2) is below 2^30.
    const MOST_SLANT: i32 = 16_380;

    fn straight() -> Map<D> {
        Map {
            origin: [0; D],
            steps: std::array::from_fn(|i| std::array::from_fn(|k| i32::from(i == k))),
        }
    }

    /// Leaves points as they are, makes them larger, or takes any steps.
    fn any(random: &mut Random) -> Map<D> {
        let mut map = Map::straight();
        match random.below(4) {
            0 => {}
            1 => map.magnify(random),
            _ => {
                let half = GRID / TINY / D as i32 >> random.below(20);
                map.steps = [(); D].map(|()| box_point(random, half));
                map.shift(random);
            }
        }
        map
    }

    /// Adds multiples of coordinates to others, so that areas and volumes stay as they are.
    fn slant(&mut self, random: &mut Random) {
        let most = Self::MOST_SLANT >> random.below(14);
        let (axis, slants): (_, [i32; D]) = (random.index(D), box_point(random, most));
        for step in &mut self.steps {
            step[axis] += slants[0] * step[(axis + 1) % D];
            (1..D).for_each(|k| step[(axis + k) % D] += slants[k] * step[axis]);
        }
    }

    /// By any factor, or one half or a quarter and so on of the largest.
    fn magnify(&mut self, random: &mut Random) {
        let most = (GRID / self.reach() >> random.below(29)).max(1);
        let factor = if random.once_in(2) {
            most
        } else {
            random.between(1, most)
        };
        self.steps.iter_mut().flatten().for_each(|n| *n *= factor);
    }

    fn shift(&mut self, random: &mut Random) {
        self.origin = box_point(random, GRID - self.reach());
    }

    /// How far from the origin a tiny point may come to lie, along an axis.
    fn reach(&self) -> i32 {
        let along = |k: usize| self.steps.iter().map(|step| step[k].abs()).sum::<i32>();
        TINY * (0..D).map(along).fold(0, i32::max)
    }

    fn lay_out(&self, list: &mut [i32]) {
        for point in list.chunks_exact_mut(D) {
            let along = |k: usize| (0..D).map(|i| point[i] * self.steps[i][k]).sum::<i32>();
            let laid_out: [i32; D] = std::array::from_fn(|k| self.origin[k] + along(k));
            point.copy_from_slice(&laid_out);
        }
    }
}
