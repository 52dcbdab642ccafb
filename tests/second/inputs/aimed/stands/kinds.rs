//! The kinds of stands: vast triangles, slivers, some across an axis or nearly so, some with a normal made to measure,
//! and those of the stored points whose estimate is far off.

use super::{far_step, size_of, Stand, Times};
use crate::answers::GRID;
use crate::bench::determinants::points_far_off;
use crate::geometry::{minus, Space};
use crate::inputs::aimed::NARROW_NORMAL;
use crate::inputs::lattice::{mixture, Lattice};
use crate::random::Random;

const SIMPLE_TIMES: [Times; 2] = [[[1, 0], [0, 1]], [[1, 0], [1, 1]]];
/// By how much the long step of a sliver has to be divided, and how often it and the short one are taken.
const SLIVER_TIMES: [(i128, Times); 6] = [
    (1, [[1, 0], [1, 1]]),
    (1, [[1, 1], [0, 1]]),
    (2, [[1, 0], [2, 1]]),
    (2, [[1, 1], [2, 1]]),
    (3, [[2, 1], [3, 1]]),
    (3, [[3, 0], [3, 3]]),
];
/// The short step of a sliver is below 2 to this in size.
const SLIVER_BITS: usize = 13;

impl Stand {
    pub fn any(random: &mut Random, half: i32) -> Stand {
        loop {
            let stand = match random.below(16) {
                0..=3 => Stand::far(random, half),
                4 if half == GRID => Stand::stored(random),
                4..=5 => Stand::small(random, half),
                6..=8 => Stand::sliver(random, half),
                9 => Stand::ragged(random, half),
                10..=11 => Stand::upright(random, half),
                12..=14 => Stand::across(random, half),
                _ => Stand::simple(random, half),
            };
            if let Some(stand) = stand {
                return stand;
            }
        }
    }

    /// As large as there is room.
    fn far(random: &mut Random, half: i32) -> Option<Stand> {
        let parts = random.pick(&[[1, 1], [1, 1], [1, 2], [2, 2], [2, 3], [3, 3]]);
        let steps = parts.map(|parts| far_step(random, half).map(|number| number / parts));
        Stand::of(random, steps, [[parts[0], 0], [0, parts[1]]], half)
    }

    /// With a point that is known to have an estimate far off.
    pub fn known(random: &mut Random) -> Stand {
        loop {
            if let Some(stand) = Stand::stored(random) {
                return stand;
            }
        }
    }

    fn stored(random: &mut Random) -> Option<Stand> {
        let [a, b, c, point] = random.pick(&points_far_off()).map(|point| point.map(i128::from));
        let lattice = Lattice::with_short_steps([minus(b, a), minus(c, a)])?;
        let stand = Stand::at(random, [a, b, c], lattice, GRID)?;
        Some(Stand {
            known: Some(point),
            ..stand
        })
    }

    /// Of any size, anywhere.
    fn small(random: &mut Random, half: i32) -> Option<Stand> {
        let size = (half >> random.index(16)).max(2);
        let (steps, times) = ([(); 2].map(|()| far_step(random, size)), random.pick(&SIMPLE_TIMES));
        Stand::of(random, steps, times, half)
    }

    /// Long and thin: seen from one of its corners the others lie nearly in one direction.
    fn sliver(random: &mut Random, half: i32) -> Option<Stand> {
        let (parts, times) = random.pick(&SLIVER_TIMES);
        let short = 1 << random.index(SLIVER_BITS);
        let steps = [
            far_step(random, half - 2 * short).map(|number| number / parts),
            [(); 3].map(|()| random.between(-short, short).into()),
        ];
        Stand::of(random, steps, times, half)
    }

    /// With steps that are short along one axis and long along another.
    fn ragged(random: &mut Random, half: i32) -> Option<Stand> {
        let number = |random: &mut Random| {
            let most = i32::MAX >> random.index(32);
            i128::from(random.between(-most, most))
        };
        let steps = [(); 2].map(|()| [(); 3].map(|()| number(random)));
        let times = random.pick(&SIMPLE_TIMES);
        Stand::of(random, steps, times, half)
    }

    /// Across an axis or nearly so: one number of the normal is large, and one word has room for the others.
    fn upright(random: &mut Random, half: i32) -> Option<Stand> {
        let (axis, parts, size) = (random.index(3), random.pick(&[1, 1, 2, 3]), random.pick(&[1, 2, 4]));
        let steps = [(); 2].map(|()| {
            let mut step = far_step(random, half / size).map(|number| number / parts);
            step[axis] = random.pick(&[-1, 0, 0, 1]);
            step
        });
        Stand::of(random, steps, [[parts, 0], [0, parts]], half)
    }

    /// With a normal made to measure, mostly of long steps: the products of which it is the difference are large.
    fn across(random: &mut Random, half: i32) -> Option<Stand> {
        let lattice = Lattice::across(any_normal(random))?;
        let most = lattice.steps.map(|step| (i128::from(half) / size_of(step)) as i32);
        if most.contains(&0) || random.once_in(4) {
            return Stand::of(random, lattice.steps, SIMPLE_TIMES[0], half);
        }
        let [p, q] = most.map(|most| i128::from(random.between(-most, most)));
        let (divisor, [s, t]) = mixture(p, q);
        let more = random.pick(&[-1, 0, 0, 1]);
        if divisor != 1 {
            return None;
        }
        Stand::of(random, lattice.steps, [[p, q], [more * p - t, more * q + s]], half)
    }

    /// Vast, in a plane that has whole points all over.
    fn simple(random: &mut Random, half: i32) -> Option<Stand> {
        let lattice = Lattice::across([(); 3].map(|()| random.between(-3, 3).into()))?;
        let most = lattice.steps.map(|step| (i128::from(half) / size_of(step)) as i32);
        let times = [(); 2].map(|()| most.map(|most| random.between(-most, most).into()));
        Stand::of(random, lattice.steps, times, half)
    }
}

/// With numbers next to the largest that one word allows, or to some other end, or small, or any; at most 3 * 2^30 and
/// 1 in size.
fn any_normal(random: &mut Random) -> Space {
    let end = random.pick(&NORMAL_ENDS);
    [(); 3].map(|()| {
        let number = match random.below(8) {
            0..=2 => end + i128::from(random.between(-1, 1)),
            3 => random.between(0, 1).into(),
            4 => random.between(0, 1_000).into(),
            5 => i128::from(GRID + random.between(-1, 1)),
            _ => random.below(end as u64).into(),
        };
        number * random.pick(&[1, -1])
    })
}

const NORMAL_ENDS: [i128; 7] = [
    3,
    3,
    NARROW_NORMAL as i128,
    NARROW_NORMAL as i128,
    GRID as i128,
    2 * GRID as i128,
    3 * GRID as i128,
];
