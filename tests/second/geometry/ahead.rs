//! The triangles ahead of a point in the +x direction, word by word as request Q-4 of document 02 has it, at one n.
//!
//! That n is large enough for every input on the grid. Take the point as the origin, and [b,c] for by cz - bz cy. Once
//! all is enlarged and the point is moved, [b,c] comes to
//!
//!     n^2 (n^2 [b,c] + n (bz - cz) + (cy - by)),
//!
//! and the sum of [b,c] ax, [c,a] bx and [a,b] cx comes to
//!
//!     n^4 (n^2 s + n t + u),
//!
//! where s is that sum before, and t and u are turns of the triangle's shadows along y and z. The differences are at
//! most 2^31 in size, and t and u at most 2^62, since no triangle within a square has more than half its area. All
//! these are whole numbers; so from n = 2^63 on the first of three that isn't zero outweighs those after it, since n^2
//! is at least 2^62 n and as much again, and n is more than 2^62. From there on no sign changes any more, and what is
//! counted at 2^63 is counted at every larger n.

use super::signs::shadow_turn;
use super::wide::Wide;
use super::{Space, Triangle};

const LARGE_ENOUGH: i128 = 1 << 63;

pub fn is_odd_number_ahead(point: Space, triangles: &[Triangle]) -> bool {
    triangles.iter().filter(|triangle| is_ahead(point, triangle)).count() % 2 == 1
}

/// Whether some mixture of the enlarged corners has the y and the z of the moved point, and a larger x. The areas
/// between the point's shadow and the edges' are the weights of the only mixture that can, all scaled by the same
/// number.
///
/// From the moved point on, coordinates are at most 2^157 and 2^63 more in size, so below 2^158; weights are below
/// 2^317, and the sum of their products with an x is below 2^477.
fn is_ahead(point: Space, triangle: &Triangle) -> bool {
    let n = LARGE_ENOUGH;
    let square = Wide::from(n * n);
    let all_enlarged = |corner: Space| corner.map(|number| square * Wide::from(number));
    let [x, y, z] = all_enlarged(point);
    let moved = [x, y + Wide::from(n), z + Wide::from(1)];
    let inner_side = shadow_turn(triangle, 0).signum();
    if inner_side == 0 {
        return false;
    }
    let [a, b, c] = triangle.map(|corner| {
        let enlarged = all_enlarged(corner);
        [0, 1, 2].map(|k| enlarged[k] - moved[k])
    });
    let area = |b: [Wide; 3], c: [Wide; 3]| b[1] * c[2] - b[2] * c[1];
    let weights = [area(b, c), area(c, a), area(a, b)];
    if weights.iter().any(|weight| weight.signum() == -inner_side) {
        return false;
    }
    let [of_a, of_b, of_c] = weights;
    (of_a * a[0] + of_b * b[0] + of_c * c[0]).signum() == inner_side
}
