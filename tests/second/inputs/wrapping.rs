//! Points of space whose determinant is a sum of three products that wraps words of 64 bits exactly: the low word of
//! the sum of two, and that of the third, is 0, 1 or 2^64 - 1, with carries and without.
//!
//! With the steps (p, q, 0) and (r, s, f) from the third point to the first and the second, and (k, l, m) from the
//! fourth to the third, the determinant is kqf - lpf + m (ps - qr), which is f (kq - lp) + m (ps - qr). Where p and q
//! have no common divisor both brackets can be any number. So the sum of the first two can be any product, and the
//! third any other.

use super::lattice::mixture;
use super::measured::{is_on_grid, list_of};
use super::{box_list, Lists};
use crate::answers::{GRID, TRIANGLE_NUMBERS};
use crate::geometry::signs::cross;
use crate::geometry::{minus, Flat, Space};
use crate::random::Random;

/// The brackets are below this in size, so that the points stay on the grid.
const MOST: i128 = 1 << 58;
/// The factors are at most this in size, for the same reason.
const MOST_FACTOR: i32 = GRID - 2_000;

/// Four points, with the products in their order or turned round.
pub fn wrapping_points(random: &mut Random) -> Vec<i32> {
    list_of(&any_points(random))
}

/// Two triangles, the second with one corner at such a determinant over the first, mostly with one on the other side.
pub fn wrapping_lists(random: &mut Random) -> Lists {
    let points = any_points(random);
    let ([first @ .., fourth], through) = (points, points[random.index(3)]);
    let image: Space = std::array::from_fn(|k| 2 * through[k] - fourth[k]);
    let mut second = box_list(random, TRIANGLE_NUMBERS, GRID);
    second[..3].copy_from_slice(&list_of(&[fourth]));
    if is_on_grid(&image) {
        second[3..6].copy_from_slice(&list_of(&[image]));
    }
    (list_of(&first), second)
}

/// With the axes in their order or turned, and all numbers as they are or with the other sign.
fn any_points(random: &mut Random) -> [Space; 4] {
    let (turns, sign) = (random.pick(&[0, 0, 1, 2]), random.pick(&[1, -1]));
    points_of_any_sum(random).map(|point| [0, 1, 2].map(|k| sign * point[(k + turns) % 3]))
}

/// Along the first axis all are at most 2^30 from 0, along the second below 2^29 + 2^28 + 2^27, and along the third as
/// far as the factors go.
fn points_of_any_sum(random: &mut Random) -> [Space; 4] {
    let [[f, first], [m, second]] = any_two_products(random);
    let [p, q] = any_direction(random);
    let [r, s] = step_beside([p, q], second);
    let [k, l] = step_beside([p, q], -first);
    let third = [
        -p / 2,
        random.between(-GRID / 4, GRID / 4).into(),
        random.between(-1_000, 1_000).into(),
    ];
    let to = |step: Space| -> Space { std::array::from_fn(|axis| third[axis] + step[axis]) };
    [to([p, q, 0]), to([r, s, f]), third, minus(third, [k, l, m])]
}

/// Two products, each as a factor and a bracket. Half of the second ones make up for the first but for a small multiple
/// of 2^64.
fn any_two_products(random: &mut Random) -> [[i128; 2]; 2] {
    let [factor, bracket] = any_product(random);
    let words = (factor * bracket + 1) >> 64;
    let power = random.between(25, 29);
    let made_up = (i128::from(random.between(-1, 1)) - words) << (64 - power);
    let second = if random.once_in(2) && made_up.abs() < MOST {
        [1 << power, made_up]
    } else {
        any_product(random)
    };
    [[factor, bracket], second].map(|product| {
        let sign = random.pick(&[1, -1]);
        product.map(|number| sign * number)
    })
}

/// A factor and a bracket whose product is a multiple of 2^64, or one more or less.
fn any_product(random: &mut Random) -> [i128; 2] {
    match random.between(-1, 1) {
        0 => even_product(random),
        off => odd_product(random, off.into()),
    }
}

fn even_product(random: &mut Random) -> [i128; 2] {
    let power = random.between(8, 29);
    let factor = i128::from(random.between(1, MOST_FACTOR >> power)) << power;
    let most = (1 << (power - 6)) - 1;
    let bracket = i128::from(random.between(-most, most)) << (64 - power);
    [factor, bracket]
}

/// To an odd factor one multiple of 2^64 will do among as many of them as the factor says; one in some thirty is small
/// enough.
fn odd_product(random: &mut Random, off: i128) -> [i128; 2] {
    loop {
        let factor = i128::from(random.between(50, MOST_FACTOR / 2 - 1)) * 2 + 1;
        let (_, [inverse, _]) = mixture((1 << 64) % factor, factor);
        let above = (-off * inverse).rem_euclid(factor);
        let words = if 2 * above > factor { above - factor } else { above };
        let bracket = ((words << 64) + off) / factor;
        if bracket.abs() < MOST {
            return [factor, bracket];
        }
    }
}

/// Far along the first axis, and no number but 1 divides both.
fn any_direction(random: &mut Random) -> Flat {
    loop {
        let direction = [random.between(GRID / 2, GRID), random.between(-GRID / 4, GRID / 4)].map(i128::from);
        if mixture(direction[0], direction[1]).0 == 1 {
            return direction;
        }
    }
}

/// A step that spans such an area with a direction, at most half as far along the first axis. Along the second it is
/// below 2^29 + 2^27 in size, since the area is below 2^58 and the direction goes at least 2^29 along the first.
///
/// Before it is shortened it is below 2^88 in size.
fn step_beside(direction: Flat, area: i128) -> Flat {
    let (_, [s, t]) = mixture(direction[0], direction[1]);
    let step = [-t * area, s * area];
    let times = (step[0] + direction[0] / 2).div_euclid(direction[0]);
    let step = [0, 1].map(|k| step[k] - times * direction[k]);
    assert!(
        cross(direction, step) == area,
        "a step beside a direction spans another area"
    );
    step
}
