//! Whether a point is inside a closed shell, by a ray in any direction that meets no edge and no corner.
//!
//! Each edge of a closed shell belongs to two triangles, there and back. So a ray from a point off the skin that is
//! swung past an edge or a corner meets two triangles more, or two fewer, or as many as before: whether the number is
//! odd is the same in every direction, and at any place that the point can be moved to without passing the skin.

use super::{dot, edges_of, minus, product, Space, Triangle};
use crate::random::Random;

/// So many directions are tried before the program stops; a point on the skin may have none.
const TRIES: u64 = 1_000;
/// The directions are those of this seed, the same for every point.
const SEED: u64 = 4;
const LONGEST: i32 = 1_000_000;

/// The point must be off the skin, and the triangles a closed shell or several.
pub fn is_inside(point: Space, triangles: &[Triangle]) -> bool {
    let direction = |number: u64| {
        let mut random = Random::new(SEED, number);
        [0; 3].map(|_| i128::from(random.between(-LONGEST, LONGEST)))
    };
    let mut counts = (0..TRIES).filter_map(|number| crossings(point, direction(number), triangles));
    counts.next().expect("some direction meets no edge and no corner") % 2 == 1
}

/// How many triangles the ray crosses, if it meets none at an edge or a corner.
fn crossings(point: Space, direction: Space, triangles: &[Triangle]) -> Option<usize> {
    let crossed = triangles.iter().map(|triangle| crosses(point, direction, triangle));
    crossed.sum::<Option<usize>>()
}

/// Whether the ray crosses a triangle, 0 or 1. Nothing where its line, ahead or behind, meets an edge or a corner, or
/// where it runs in the triangle's plane and through it.
///
/// With the point as the origin, direction * [a,b,c] is the mixture of a, b, c with the weights [direction,b,c],
/// [direction,c,a] and [direction,a,b]. So the line meets the triangle where no two of these have opposite signs, and
/// that is ahead where [a,b,c] has their sign. Corners are at most 2^31 in size, their products 2^63, and a direction
/// is below 2^20; so no number here is above 2^96 in size.
pub fn crosses(point: Space, direction: Space, triangle: &Triangle) -> Option<usize> {
    let corners = triangle.map(|corner| minus(corner, point));
    let weights = edges_of(&corners).map(|[from, to]| dot(direction, product(from, to)));
    if weights.iter().any(|weight| *weight > 0) && weights.iter().any(|weight| *weight < 0) {
        return Some(0);
    }
    if weights.contains(&0) {
        return None;
    }
    let [a, b, c] = corners;
    let is_ahead = dot(a, product(b, c)).signum() == weights[0].signum();
    Some(usize::from(is_ahead))
}
