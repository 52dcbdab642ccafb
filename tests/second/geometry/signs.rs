//! The signs of document 01, and the shadows of triangles along the axes.
//!
//! With coordinates of at most 2^31 a turn is at most 2^65 and a side at most 2^99 in size, by either way.

use super::{minus, Flat, Space, Triangle};

/// The turn of a, b, c as the sum over the border (the determinant with a column of ones).
pub fn turn_by_border_sum(a: Flat, b: Flat, c: Flat) -> i128 {
    cross(a, b) + cross(b, c) + cross(c, a)
}

/// The turn of a, b, c letter by letter as document 01 writes it.
pub fn turn_by_formula(a: Flat, b: Flat, c: Flat) -> i128 {
    (a[0] - c[0]) * (b[1] - c[1]) - (a[1] - c[1]) * (b[0] - c[0])
}

/// The 4 by 4 determinant of the rows (x, y, z, 1), expanded along its column of ones. Taking the
/// last row from the others shows that it equals the determinant of document 01 with the same sign.
pub fn side_by_cofactors(a: Space, b: Space, c: Space, d: Space) -> i128 {
    three_rows(a, b, c) - three_rows(a, b, d) + three_rows(a, c, d) - three_rows(b, c, d)
}

/// The 3 by 3 determinant of the rows a-d, b-d, c-d, as document 01 writes it.
pub fn side_by_formula(a: Space, b: Space, c: Space, d: Space) -> i128 {
    three_rows(minus(a, d), minus(b, d), minus(c, d))
}

/// The turn of the triangle's shadow along one axis: of its corners with that coordinate left out.
pub fn shadow_turn(triangle: &Triangle, axis: usize) -> i128 {
    let [a, b, c] = triangle.map(|corner| without(corner, axis));
    turn_by_formula(a, b, c)
}

pub fn without(point: Space, axis: usize) -> Flat {
    [point[(axis + 1) % 3], point[(axis + 2) % 3]]
}

pub fn cross(u: Flat, v: Flat) -> i128 {
    u[0] * v[1] - u[1] * v[0]
}

fn three_rows(r: Space, s: Space, t: Space) -> i128 {
    r[0] * (s[1] * t[2] - s[2] * t[1]) + r[1] * (s[2] * t[0] - s[0] * t[2]) + r[2] * (s[0] * t[1] - s[1] * t[0])
}
