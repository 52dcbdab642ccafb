//! Lists that are closed surfaces: a cube whose faces are cut into small triangles, and a sphere, for
//! which the corners of those triangles are pushed outwards; and such a list with slivers in it, as
//! scans have them. And closed shells, in which each edge has its reverse: an octahedron with its faces
//! split, and a tetrahedron.

use crate::ordinary::TRIANGLE_NUMBERS;

type Point = [i32; 3];

/// Each edge of a cube is cut into so many pieces. This makes 12 * 9 * 9 = 972 triangles.
const CUTS: i32 = 9;

/// Half of an edge of the cube is CUTS * `scale`.
pub fn cube(middle: Point, scale: i32) -> Vec<i32> {
    surface(|corner| [0, 1, 2].map(|k| middle[k] + scale * corner[k]))
}

/// The corners are whole, so they are on the sphere but for a rounding. Every machine rounds the square
/// root, the division and the products alike, so the corners are the same everywhere.
pub fn sphere(middle: Point, radius: i32) -> Vec<i32> {
    surface(|corner| {
        let squares: i32 = corner.iter().map(|c| c * c).sum();
        let stretch = f64::from(radius) / f64::from(squares).sqrt();
        [0, 1, 2].map(|k| middle[k] + (stretch * f64::from(corner[k])).round() as i32)
    })
}

/// The triangles of the cube from -CUTS to CUTS, whose faces have cells of two by two. Each corner
/// goes where `placed` puts it.
fn surface(placed: impl Fn(Point) -> Point) -> Vec<i32> {
    let starts = || (-CUTS..CUTS).step_by(2);
    let mut list = Vec::new();
    for face in [(0, -CUTS), (0, CUTS), (1, -CUTS), (1, CUTS), (2, -CUTS), (2, CUTS)] {
        for u in starts() {
            for v in starts() {
                let [a, b, c, d] = cell(face, u, v).map(&placed);
                list.extend([a, b, c, c, d, a].as_flattened());
            }
        }
    }
    list
}

/// The corners of a cell of the face on which the coordinate `axis` is `level`, in order around it.
fn cell((axis, level): (usize, i32), u: i32, v: i32) -> [Point; 4] {
    [(u, v), (u + 2, v), (u + 2, v + 2), (u, v + 2)].map(|(u, v)| {
        let mut corner = [level; 3];
        corner[(axis + 1) % 3] = u;
        corner[(axis + 2) % 3] = v;
        corner
    })
}

/// One triangle in so many is made a sliver.
const ONE_SLIVER_IN: usize = 10;

/// The list with slivers in it: the first edge with a corner doubled, the same with a corner between the
/// other two, and the first corner alone, by turns.
pub fn with_slivers(list: &[i32]) -> Vec<i32> {
    let mut slivered = list.to_vec();
    let triangles = slivered.chunks_exact_mut(TRIANGLE_NUMBERS);
    for (turn, triangle) in triangles.step_by(ONE_SLIVER_IN).enumerate() {
        let [a, b] = [0, 3].map(|at| [triangle[at], triangle[at + 1], triangle[at + 2]]);
        let half_step = [0, 1, 2].map(|k| (b[k] - a[k]) / 2);
        let along = |steps: i32| [0, 1, 2].map(|k| a[k] + steps * half_step[k]);
        let sliver = match turn % 3 {
            0 => [a, b, b],
            1 => [a, along(2), along(1)],
            _ => [a; 3],
        };
        triangle.copy_from_slice(sliver.as_flattened());
    }
    slivered
}

/// Each face is split into four by the middles of its edges: 32 triangles. The radius, from the middle to
/// the six tips, is even, so that these middles are whole.
pub fn octahedron(middle: Point, radius: i32) -> Vec<i32> {
    let mut list = Vec::new();
    for x in [-radius, radius] {
        for y in [-radius, radius] {
            for z in [-radius, radius] {
                let [a, b, c] = [[x, 0, 0], [0, y, 0], [0, 0, z]].map(|tip| sum(middle, tip));
                // Neighbours differ in one sign, and go around the other way.
                let is_mirrored = (x < 0) ^ (y < 0) ^ (z < 0);
                let face = if is_mirrored { [a, c, b] } else { [a, b, c] };
                list.extend(split(face).as_flattened().as_flattened());
            }
        }
    }
    list
}

/// A triangle at each corner, and the one between them.
fn split([a, b, c]: [Point; 3]) -> [[Point; 3]; 4] {
    let [ab, bc, ca] = [(a, b), (b, c), (c, a)].map(|(u, v)| sum(u, v).map(|double| double / 2));
    [[a, ab, ca], [ab, b, bc], [ca, bc, c], [ab, bc, ca]]
}

/// Four triangles. Their corners are every second one of a cube around the middle of the grid.
pub fn tetrahedron(half_edge: i32) -> Vec<i32> {
    let corners: [Point; 4] = [[1, 1, 1], [1, -1, -1], [-1, 1, -1], [-1, -1, 1]];
    let [a, b, c, d] = corners.map(|corner| corner.map(|sign| sign * half_edge));
    let triangles = [[a, b, c], [a, c, d], [a, d, b], [b, d, c]];
    triangles.as_flattened().as_flattened().to_vec()
}

fn sum(a: Point, b: Point) -> Point {
    [a[0] + b[0], a[1] + b[1], a[2] + b[2]]
}
