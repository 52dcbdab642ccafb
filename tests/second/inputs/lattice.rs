//! All whole points of a plane, and the steps that lead from one to the others or to points of any height over it, by
//! Euclid's division.

use crate::geometry::signs::{cross, without};
use crate::geometry::{product, Space};

/// Numbers are taken apart into digits of so many bits.
const DIGIT_BITS: u32 = 31;
const DIGITS: [u32; 4] = [3, 2, 1, 0];

pub struct Lattice {
    /// They lead from any whole point of a plane to all the others, at most 2^31 in size.
    pub steps: [Space; 2],
    /// The product of the steps, at most 2^63 in size. No number but 1 divides all of it.
    pub normal: Space,
    /// A step that rises by 1: that is its product with the normal.
    rise: Space,
}

impl Lattice {
    /// Nothing where the steps don't lead to all whole points of their plane. They must be short ones, or the largest
    /// number of the normal at least 2^40, so that no multiple of a step is too long.
    pub fn of(steps: [Space; 2]) -> Option<Lattice> {
        let normal = product(steps[0], steps[1]);
        let (divisor_of_two, [s, t]) = mixture(normal[0], normal[1]);
        let (divisor, [u, v]) = mixture(divisor_of_two, normal[2]);
        if divisor != 1 {
            return None;
        }
        let mut lattice = Lattice {
            steps,
            normal,
            rise: [0; 3],
        };
        let of_two = lattice.shortened([s, t, 0]);
        let [one, other] = [lattice.multiple(of_two, u), lattice.multiple([0, 0, 1], v)];
        lattice.rise = lattice.shortened(std::array::from_fn(|k| one[k] + other[k]));
        assert!(lattice.height_of(lattice.rise) == 1, "a step that rises by 1 does not");
        Some(lattice)
    }

    /// The same, with the shortest steps that lead as far. They may turn the plane over.
    pub fn with_short_steps(steps: [Space; 2]) -> Option<Lattice> {
        Lattice::of(shortest(steps))
    }

    /// Across a normal with numbers of at most 7 * 2^29 in size. Nothing where some number but 1 divides all of it.
    ///
    /// A mixture takes each of two numbers at most half as often as the other is large, or once. So the numbers of the
    /// first steps are below 7 * 2^60 in size, and the last ones at most 7 * 2^29.
    pub fn across(normal: Space) -> Option<Lattice> {
        let [x, y, z] = normal;
        let (divisor, [s, t]) = mixture(x, y);
        let steps = match divisor {
            0 => [[1, 0, 0], [0, z, 0]],
            _ => [[y / divisor, -x / divisor, 0], [-s * z, -t * z, divisor]],
        };
        Lattice::with_short_steps(steps)
    }

    pub fn height_of(&self, step: Space) -> i128 {
        (0..3).map(|k| step[k] * self.normal[k]).sum()
    }

    /// A step that rises by so much, below 2^120, by less than one of each of the plane's steps and along the axis
    /// only.
    pub fn rising(&self, height: i128) -> Space {
        self.multiple(self.rise, height)
    }

    /// Along which the plane is seen best.
    pub fn axis(&self) -> usize {
        let sizes = self.normal.map(i128::abs);
        (0..3).max_by_key(|k| sizes[*k]).unwrap_or(0)
    }

    /// How often the plane's steps must be taken to make a step within the plane; of any other step how often they fit
    /// into it, seen along the axis.
    pub fn counts_of(&self, step: Space) -> [i128; 2] {
        let (axis, [one, other]) = (self.axis(), self.steps);
        let [flat, flat_one, flat_other] = [step, one, other].map(|step| without(step, axis));
        [cross(flat, flat_other), cross(flat_one, flat)].map(|area| area.div_euclid(self.normal[axis]))
    }

    /// A step that rises as much, by less than one of each of the plane's steps and along the axis only.
    ///
    /// The step's numbers beside the axis must be at most 2^65 in size. Then the areas here are at most 2^97. How often
    /// the steps are taken is at most 2^57 where the normal has a number of 2^40, and what they lead to 2^89; and where
    /// they are short it is at most 2^67 over the length of the one, and what they lead to 2^68.
    fn shortened(&self, step: Space) -> Space {
        let ([times, other_times], [one, other]) = (self.counts_of(step), self.steps);
        sum(sum(step, one, -times), other, -other_times)
    }

    /// A step that rises so many times as much as a short one, below 2^120 times, shortened after each digit. Beside
    /// the axis short steps are below 2^32 in size, and what is shortened is at most 2^64.
    fn multiple(&self, step: Space, times: i128) -> Space {
        let digit = |place: u32| times.abs() >> (DIGIT_BITS * place) & ((1 << DIGIT_BITS) - 1);
        let multiple = DIGITS.map(digit).into_iter().fold([0; 3], |multiple: Space, digit| {
            self.shortened(std::array::from_fn(|k| (multiple[k] << DIGIT_BITS) + digit * step[k]))
        });
        multiple.map(|number| number * times.signum())
    }
}

/// The point or step, and so many times the step.
pub fn sum(to: Space, step: Space, times: i128) -> Space {
    std::array::from_fn(|k| to[k] + times * step[k])
}

/// Two steps that lead to the same points, none of which the other can make shorter.
///
/// Two numbers of a step may be up to 7 * 2^60 in size and the third 2^32: then no sum of products here is above
/// 100 * 2^120.
fn shortest([mut one, mut other]: [Space; 2]) -> [Space; 2] {
    let along = |u: Space, v: Space| (0..3).map(|k| u[k] * v[k]).sum::<i128>();
    loop {
        if along(one, one) > along(other, other) {
            (one, other) = (other, one);
        }
        let (square, both) = (along(one, one), along(one, other));
        if square == 0 {
            return [one, other];
        }
        let is_nearer_above = both.rem_euclid(square) >= square - square / 2;
        let times = both.div_euclid(square) + i128::from(is_nearer_above);
        let shorter = sum(other, one, -times);
        if along(shorter, shorter) >= along(other, other) {
            return [one, other];
        }
        other = shorter;
    }
}

/// The largest number that divides both, and how often each must be taken to make it, by Euclid's division. None is
/// larger than the two.
pub fn mixture(one: i128, other: i128) -> (i128, [i128; 2]) {
    let (mut number, mut next) = (one, other);
    let (mut times, mut next_times) = ([1, 0], [0, 1]);
    while next != 0 {
        let quotient = number / next;
        (number, next) = (next, number - quotient * next);
        (times, next_times) = (next_times, [0, 1].map(|k| times[k] - quotient * next_times[k]));
    }
    (number.abs(), times.map(|times| times * number.signum()))
}
