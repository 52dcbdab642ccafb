//! The shells of parts: a part's triangles together. Whether the skins of two meet, whether a shell is
//! closed, and whether it has a corner inside another (document 02, Q-4). Each is decided by looking at all
//! pairs there are, of triangles, of edges, or of a corner and a triangle.
//!
//! A corner is inside a shell where an odd number of the shell's triangles are ahead of it, in the +x
//! direction. For this it counts as moved by a vanishing positive amount in y and a still smaller one in z,
//! so that it is on no edge's line seen along x, and whether a triangle is ahead goes by signs alone. The
//! shadow of a point is what is seen along x: its y and its z.

use super::{flat, flattened, meet, normal, side, Point, Triangle};

/// From one end to the other: its reverse is another edge.
type Edge = [Point; 2];

/// Whether a triangle of one has a point in common with a triangle of the other.
pub fn skins_meet(first: &[Triangle], second: &[Triangle]) -> bool {
    first
        .iter()
        .any(|&one| second.iter().any(|&other| meet::<i128>(one, other)))
}

/// Whether each edge of the triangles occurs once, and its reverse once.
pub fn is_closed(shell: &[Triangle]) -> bool {
    let edges: Vec<Edge> = shell.iter().flat_map(|&[a, b, c]| [[a, b], [b, c], [c, a]]).collect();
    let occurs_once = |wanted: Edge| edges.iter().filter(|&&edge| edge == wanted).count() == 1;
    edges.iter().all(|&[u, v]| occurs_once([u, v]) && occurs_once([v, u]))
}

/// Whether some corner of a shell is inside another shell.
pub fn has_corner_inside(shell: &[Triangle], other: &[Triangle]) -> bool {
    shell.as_flattened().iter().any(|&corner| is_inside(corner, other))
}

fn is_inside(corner: Point, shell: &[Triangle]) -> bool {
    let ahead = shell.iter().filter(|&&triangle| is_ahead(triangle, corner));
    ahead.count() % 2 == 1
}

/// Whether the triangle is ahead of the moved point: whether that is on the same side of the three edges, in
/// the shadow, and of the plane. Where the triangle's shadow is flat, no point is on the same side of all
/// three.
fn is_ahead([a, b, c]: Triangle, point: Point) -> bool {
    let sign = edge_sign(a, b, point);
    sign != 0
        && edge_sign(b, c, point) == sign
        && edge_sign(c, a, point) == sign
        && plane_sign([a, b, c], point) == sign
}

/// On which side of the line from u to v the moved point is, in the shadow. Where the point itself is on the
/// line the move in y decides, and where that goes along the line the one in z. Zero if u and v have the
/// same shadow.
fn edge_sign(u: Point, v: Point, point: Point) -> i128 {
    let [from, to, at] = flattened([u, v, point], [1, 2]);
    let along = |k: usize| i128::from(to[k]) - i128::from(from[k]);
    first_sign([flat::turn(from, to, at), -along(1), along(0)])
}

/// On which side of the triangle's plane the moved point is, in the same way.
fn plane_sign(triangle: Triangle, point: Point) -> i128 {
    let [a, b, c] = triangle;
    let [_, y, z] = normal::<i128>(triangle);
    first_sign([side(a, b, c, point), -y, -z])
}

/// The sign of the first number that isn't zero.
fn first_sign(numbers: [i128; 3]) -> i128 {
    numbers.into_iter().find(|&number| number != 0).map_or(0, i128::signum)
}
