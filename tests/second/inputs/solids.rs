//! Closed shells: tetrahedra, octahedra, blocks and other prisms, some of them with faces or edges split further. Each
//! directed edge occurs once and its reverse once; the skin may still cross itself, or lie flat all around.

use crate::geometry::thin::is_flat;
use crate::random::Random;

pub type Vertex = [i32; 3];
pub type Facet = [Vertex; 3];
pub type Shell = Vec<Facet>;
/// From the lowest coordinates to the highest ones, which are above.
pub type Bounds = [Vertex; 2];

/// Triangles over the points of an outline, by their numbers.
type Cap = &'static [[usize; 3]];

/// A shell is looked for so many times.
const TRIES: usize = 20;

/// Any shell within the bounds.
pub fn any_solid(random: &mut Random, bounds: Bounds) -> Shell {
    for _ in 0..TRIES {
        let shell = match random.below(10) {
            0..=2 => tetrahedron(random, bounds),
            3..=5 => {
                let bounds = smaller_bounds(random, bounds);
                block(random, bounds)
            }
            6 => octahedron(random, bounds),
            _ => any_prism(random, bounds),
        };
        if is_sound(&shell) {
            return split_now_and_then(random, shell);
        }
    }
    block(random, bounds)
}

/// A shell that fills most of the bounds, or goes from end to end of them.
pub fn large_solid(random: &mut Random, bounds: Bounds) -> Shell {
    let shell = match random.below(12) {
        0..=3 => block(random, bounds),
        4..=5 => octahedron(random, bounds),
        6 => corner_of(bounds),
        _ => {
            let outline = match random.below(6) {
                0..=2 => halves(random),
                3 => roof(random),
                4 => ell(random),
                _ => you(random),
            };
            prism_of(random, outline, bounds)
        }
    };
    let shell = if is_sound(&shell) { shell } else { block(random, bounds) };
    split_now_and_then(random, shell)
}

/// No triangle is flat.
pub fn is_sound(shell: &[Facet]) -> bool {
    !shell
        .iter()
        .any(|facet| is_flat(&facet.map(|corner| corner.map(i128::from))))
}

fn any_within(random: &mut Random, [low, high]: Bounds) -> Vertex {
    std::array::from_fn(|k| random.between(low[k], high[k]))
}

fn smaller_bounds(random: &mut Random, [low, high]: Bounds) -> Bounds {
    let bottom = std::array::from_fn(|k| random.between(low[k], high[k] - 1));
    let top = std::array::from_fn(|k| random.between(bottom[k] + 1, high[k]));
    [bottom, top]
}

// ---- Shapes ----

fn tetrahedron(random: &mut Random, bounds: Bounds) -> Shell {
    let corners = [0; 4].map(|_| any_within(random, bounds));
    tetrahedron_of(corners)
}

pub fn tetrahedron_of([a, b, c, d]: [Vertex; 4]) -> Shell {
    vec![[a, c, b], [a, b, d], [b, c, d], [a, d, c]]
}

/// The corner of a block, cut off along its three neighbours.
fn corner_of([low, high]: Bounds) -> Shell {
    let with = |axis: usize| std::array::from_fn(|k| if k == axis { high[k] } else { low[k] });
    tetrahedron_of([low, with(0), with(1), with(2)])
}

/// Two tips along each axis, the lower and the upper ones from one point within the bounds, or each from one.
fn octahedron(random: &mut Random, bounds: Bounds) -> Shell {
    let [one, other] = [0; 2].map(|_| any_within(random, bounds));
    let centres = [one, random.pick(&[one, other])];
    let tip = |end: usize, axis: usize| {
        let mut tip = centres[end];
        tip[axis] = bounds[end][axis];
        tip
    };
    let tips = [0, 1].map(|end| [0, 1, 2].map(|axis| tip(end, axis)));
    let facet = |which: [usize; 3]| {
        let [x, y, z] = [0, 1, 2].map(|axis| tips[which[axis]][axis]);
        if which.iter().sum::<usize>() % 2 == 1 {
            [x, y, z]
        } else {
            [x, z, y]
        }
    };
    (0..8).map(|k| facet([k & 1, k >> 1 & 1, k >> 2])).collect()
}

/// Twelve triangles, each face with either of its diagonals.
pub fn block(random: &mut Random, bounds: Bounds) -> Shell {
    prism_of(random, square(), bounds)
}

fn any_prism(random: &mut Random, bounds: Bounds) -> Shell {
    let outline = match random.below(5) {
        0 => three_points(random),
        1 => roof(random),
        2 => halves(random),
        3 => ell(random),
        _ => you(random),
    };
    prism_of(random, outline, bounds)
}

// ---- Prisms ----

/// Points around a surface of the plane, with coordinates from 0 to `FINE`, and the triangles that may cover it.
struct Outline {
    points: Vec<[i32; 2]>,
    caps: &'static [Cap],
}

const FINE: i32 = 12;

fn square() -> Outline {
    Outline {
        points: vec![[0, 0], [FINE, 0], [FINE, FINE], [0, FINE]],
        caps: &[&[[0, 1, 2], [0, 2, 3]], &[[0, 1, 3], [1, 2, 3]]],
    }
}

fn three_points(random: &mut Random) -> Outline {
    Outline {
        points: (0..3).map(|_| [0; 2].map(|_| random.between(0, FINE))).collect(),
        caps: &[&[[0, 1, 2]]],
    }
}

/// Three points, two of them on one side.
fn roof(random: &mut Random) -> Outline {
    let ridge = random.between(0, FINE);
    Outline {
        points: vec![[0, 0], [FINE, 0], [ridge, FINE]],
        caps: &[&[[0, 1, 2]]],
    }
}

/// A square with a point on each of two sides, and with an edge along an axis between these, or without.
fn halves(random: &mut Random) -> Outline {
    let right = random.between(1, FINE - 1);
    Outline {
        points: vec![[0, 0], [right, 0], [FINE, 0], [FINE, FINE], [right, FINE], [0, FINE]],
        caps: &[
            &[[0, 1, 4], [0, 4, 5], [1, 2, 3], [1, 3, 4]],
            &[[0, 1, 5], [1, 4, 5], [1, 2, 4], [2, 3, 4]],
            &[[0, 1, 3], [1, 2, 3], [0, 3, 4], [0, 4, 5]],
            &[[0, 1, 5], [1, 2, 5], [2, 3, 4], [2, 4, 5]],
        ],
    }
}

/// Like the letter L; all of it is seen from its inner corner.
fn ell(random: &mut Random) -> Outline {
    let [right, up] = [0; 2].map(|_| random.between(1, FINE - 1));
    Outline {
        points: vec![[0, 0], [FINE, 0], [FINE, up], [right, up], [right, FINE], [0, FINE]],
        caps: &[
            &[[3, 4, 5], [3, 5, 0], [3, 0, 1], [3, 1, 2]],
            &[[3, 4, 5], [3, 5, 0], [0, 1, 2], [0, 2, 3]],
        ],
    }
}

/// Like the letter U: its two legs have a gap between them.
fn you(random: &mut Random) -> Outline {
    let (left, right) = (random.between(1, FINE / 2), random.between(FINE / 2 + 1, FINE - 1));
    let up = random.between(1, FINE - 1);
    let legs = [
        [FINE, FINE],
        [right, FINE],
        [right, up],
        [left, up],
        [left, FINE],
        [0, FINE],
    ];
    Outline {
        points: [[0, 0], [FINE, 0]].into_iter().chain(legs).collect(),
        caps: &[
            &[[5, 6, 7], [0, 5, 7], [0, 4, 5], [0, 1, 4], [1, 2, 4], [2, 3, 4]],
            &[[5, 6, 7], [0, 5, 7], [0, 1, 5], [1, 4, 5], [1, 2, 4], [2, 3, 4]],
        ],
    }
}

/// The outline, stretched over the bounds along two axes, from one end of them to the other along the third. On small
/// bounds points of the outline may fall together, and then the prism isn't sound.
fn prism_of(random: &mut Random, outline: Outline, bounds: Bounds) -> Shell {
    let [along, across] = random.pick(&[[0, 1], [1, 0], [0, 2], [2, 0], [1, 2], [2, 1]]);
    let stretched = |axis: usize, fine: i32| {
        let [low, high] = bounds.map(|end| i64::from(end[axis]));
        let step = (high - low) * i64::from(fine) + i64::from(FINE / 2);
        (low + step / i64::from(FINE)) as i32
    };
    let level = |end: Vertex| -> Vec<Vertex> {
        let vertex = |[right, up]: &[i32; 2]| {
            let mut vertex = end;
            (vertex[along], vertex[across]) = (stretched(along, *right), stretched(across, *up));
            vertex
        };
        outline.points.iter().map(vertex).collect()
    };
    let caps = [0; 2].map(|_| random.pick(outline.caps));
    prism(random, bounds.map(level), caps)
}

/// Two caps and the walls between them, each wall with either of its diagonals.
fn prism(random: &mut Random, [bottom, top]: [Vec<Vertex>; 2], [lower, upper]: [Cap; 2]) -> Shell {
    let mut shell: Shell = lower
        .iter()
        .map(|[i, j, k]| [bottom[*i], bottom[*k], bottom[*j]])
        .collect();
    shell.extend(upper.iter().map(|numbers| numbers.map(|k| top[k])));
    for k in 0..bottom.len() {
        let next = (k + 1) % bottom.len();
        let [a, b, c, d] = [bottom[k], bottom[next], top[next], top[k]];
        shell.extend(if random.once_in(2) {
            [[a, b, c], [a, c, d]]
        } else {
            [[a, b, d], [b, c, d]]
        });
    }
    shell
}

// ---- Splits ----

fn split_now_and_then(random: &mut Random, mut shell: Shell) -> Shell {
    if random.once_in(4) {
        for _ in 0..1 + random.index(3) {
            shell = if random.once_in(2) {
                with_face_split(random, shell)
            } else {
                with_edge_split(random, shell)
            };
        }
    }
    shell
}

/// A triangle becomes three about some point near its middle, which need not be in its plane.
fn with_face_split(random: &mut Random, mut shell: Shell) -> Shell {
    let number = random.index(shell.len());
    let [a, b, c] = shell[number];
    let middle = middle_of(&[a, b, c]);
    let pieces = [[a, b, middle], [b, c, middle], [c, a, middle]];
    if is_new(&shell, middle) && is_sound(&pieces) {
        shell.swap_remove(number);
        shell.extend(pieces);
    }
    shell
}

/// Both triangles of an edge become two each, about its middle or a point beside that.
fn with_edge_split(random: &mut Random, mut shell: Shell) -> Shell {
    let (number, turn) = (random.index(shell.len()), random.index(3));
    let [a, b, c] = turned(shell[number], turn);
    let turns = |facet: &Facet| [0, 1, 2].map(|turn| turned(*facet, turn));
    let mut others = shell.iter().flat_map(turns);
    let Some(other @ [.., d]) = others.find(|[from, to, _]| [*from, *to] == [b, a]) else {
        return shell;
    };
    let middle = middle_of(&[a, b]);
    let pieces = [[a, middle, c], [middle, b, c], [b, middle, d], [middle, a, d]];
    if is_new(&shell, middle) && is_sound(&pieces) {
        shell.retain(|facet| !turns(facet).contains(&[a, b, c]) && !turns(facet).contains(&other));
        shell.extend(pieces);
    }
    shell
}

/// Rounded down.
fn middle_of(points: &[Vertex]) -> Vertex {
    std::array::from_fn(|k| {
        let sum: i64 = points.iter().map(|point| i64::from(point[k])).sum();
        sum.div_euclid(points.len() as i64) as i32
    })
}

fn is_new(shell: &[Facet], point: Vertex) -> bool {
    !shell.iter().flatten().any(|corner| *corner == point)
}

/// The same triangle from another of its corners on.
pub fn turned([a, b, c]: Facet, turns: usize) -> Facet {
    [[a, b, c], [b, c, a], [c, a, b]][turns]
}
