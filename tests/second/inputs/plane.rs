//! Points and triangles of the plane.

use super::faulty::{any_fault_shape, bad_list};
use super::{any_half, box_list, box_lists, box_point, extreme_list, extreme_lists, nested_lists, nudge};
use super::{sharing_lists, shuffled, traded, Lists};
use crate::answers::{FLAT_TRIANGLE_NUMBERS, GRID, TURN_NUMBERS};
use crate::call::Call;
use crate::random::Random;

type Vector = [i32; 2];

/// The pictures of `small_picture` have no coordinate beyond this.
pub const SMALL: i32 = 31;

pub fn any_turn(random: &mut Random) -> Call {
    Call::Turn(match random.below(100) {
        0..=24 => box_list(random, TURN_NUMBERS, 2),
        25..=39 => box_list(random, TURN_NUMBERS, 4),
        40..=49 => box_list(random, TURN_NUMBERS, GRID),
        50..=62 => extreme_list(random, TURN_NUMBERS),
        63..=84 => stretched_list(random, TURN_NUMBERS),
        _ => bad_list(random, TURN_NUMBERS),
    })
}

pub fn any_flat_pair(random: &mut Random) -> Call {
    let half = any_half(random);
    let lists = match random.below(100) {
        0..=39 => tiny_lists(random),
        40..=45 => box_lists(random, FLAT_TRIANGLE_NUMBERS, GRID),
        46..=52 => extreme_lists(random, FLAT_TRIANGLE_NUMBERS),
        53..=62 => stretched_lists(random),
        63..=69 => sharing_lists::<2>(random, half),
        70..=74 => nested_lists::<2>(random, half),
        75..=81 => touching_lists(random, half),
        _ => (any_fault_shape::<2>(random, 3), any_fault_shape::<2>(random, 3)),
    };
    let (first, second) = traded(random, lists);
    Call::Flat(
        shuffled::<2>(random, first, FLAT_TRIANGLE_NUMBERS),
        shuffled::<2>(random, second, FLAT_TRIANGLE_NUMBERS),
    )
}

pub fn tiny_flat_pair(random: &mut Random) -> Call {
    let (first, second) = tiny_lists(random);
    Call::Flat(first, second)
}

fn tiny_lists(random: &mut Random) -> Lists {
    let half = random.pick(&[2, 4]);
    box_lists(random, FLAT_TRIANGLE_NUMBERS, half)
}

/// Two triangles that may well touch or lie within each other, to be laid out elsewhere.
pub fn small_picture(random: &mut Random) -> Lists {
    let half = random.pick(&[3, 6]);
    match random.below(5) {
        0..=1 => tiny_lists(random),
        2 => sharing_lists::<2>(random, half),
        3 => nested_lists::<2>(random, half),
        _ => touching_lists(random, half),
    }
}

// ---- Tiny pictures laid out large ----

/// A tiny picture keeps its touching corners and straight lines when it is moved, stretched and
/// slanted. These maps bring tiny pictures of at most 2 in size to anywhere on the grid.
struct Map {
    origin: Vector,
    x_step: Vector,
    y_step: Vector,
}

impl Map {
    /// Half the maps keep areas (tiny area on long thin shapes), half have any two steps.
    fn any(random: &mut Random) -> Map {
        let origin = box_point(random, GRID / 2);
        let half = random.pick(&[3, 100, 100_000, GRID / 8]);
        let step = primitive(box_point(random, half));
        let y_step = if random.once_in(2) {
            area_one_companion(step)
        } else {
            box_point(random, half)
        };
        Map {
            origin,
            x_step: step,
            y_step,
        }
    }

    fn point(&self, [x, y]: Vector) -> Vector {
        [0, 1].map(|k| self.origin[k] + x * self.x_step[k] + y * self.y_step[k])
    }

    fn list(&self, tiny: &[i32]) -> Vec<i32> {
        tiny.chunks(2).flat_map(|p| self.point([p[0], p[1]])).collect()
    }
}

fn stretched_list(random: &mut Random, numbers: usize) -> Vec<i32> {
    let map = Map::any(random);
    let mut list = map.list(&box_list(random, numbers, 2));
    if random.once_in(3) {
        nudge(random, &mut list);
    }
    list
}

fn stretched_lists(random: &mut Random) -> Lists {
    let map = Map::any(random);
    let (first, second) = box_lists(random, FLAT_TRIANGLE_NUMBERS, 2);
    let (mut first, second) = (map.list(&first), map.list(&second));
    if random.once_in(3) {
        nudge(random, &mut first);
    }
    (first, second)
}

/// The shortest whole step in the direction of `step`.
fn primitive(step: Vector) -> Vector {
    let (mut p, mut q) = (step[0].abs(), step[1].abs());
    while q != 0 {
        (p, q) = (q, p % q);
    }
    if p == 0 {
        [1, 0]
    } else {
        step.map(|k| k / p)
    }
}

/// A step no longer than `step` (which is primitive) that spans an area of exactly one with it:
/// a point that far from a line is as near to it as a grid point can be. Euclid's division finds it.
fn area_one_companion(step: Vector) -> Vector {
    let (mut p, mut q) = (step[0], step[1]);
    let (mut x, mut next_x, mut y, mut next_y) = (1, 0, 0, 1);
    while q != 0 {
        let quotient = p / q;
        (p, q) = (q, p - quotient * q);
        (x, next_x) = (next_x, x - quotient * next_x);
        (y, next_y) = (next_y, y - quotient * next_y);
    }
    // Here step.x * x + step.y * y = p, which is 1 or -1.
    [-y * p, x * p]
}

// ---- Touching ----

/// A corner of the second triangle lies on an edge of the first; often that is all they share.
/// Sometimes the corner is then moved by one, so that it just misses or just goes in.
fn touching_lists(random: &mut Random, half: i32) -> Lists {
    let parts = random.between(1, 6);
    let step: Vector = box_point(random, (half / parts).max(1));
    let start = loop {
        let start: Vector = box_point(random, half);
        // On the whole grid the end may be beyond what 32 bits hold.
        let end = [0, 1].map(|k| i64::from(start[k]) + i64::from(parts * step[k]));
        if end.iter().all(|n| n.abs() <= i64::from(GRID)) {
            break start;
        }
    };
    let along = |steps: i32| [0, 1].map(|k| start[k] + steps * step[k]);
    let (touch, end) = (along(random.between(0, parts)), along(parts));
    let apex = box_point(random, half);
    let mut first = [start, end, apex].concat();
    let mut far = || beyond(random, touch, [start, end], apex, half);
    let second = [touch, far(), far()].concat();
    if random.once_in(3) {
        nudge(random, &mut first);
    }
    (first, second)
}

/// A point, mostly across the edge from the apex: the mirror image through `touch` where needed.
fn beyond(random: &mut Random, touch: Vector, edge: [Vector; 2], apex: Vector, half: i32) -> Vector {
    let point = box_point(random, half);
    let height = |p: Vector| {
        let ([ax, ay], [bx, by]) = (edge[0], edge[1]);
        let minus = |m: i32, n: i32| i128::from(m) - i128::from(n);
        minus(bx, ax) * minus(p[1], ay) - minus(by, ay) * minus(p[0], ax)
    };
    let same_side = height(point).signum() == height(apex).signum();
    let image = [0, 1].map(|k| 2 * i64::from(touch[k]) - i64::from(point[k]));
    if same_side && image.iter().all(|n| n.abs() <= i64::from(GRID)) && !random.once_in(8) {
        image.map(|n| n as i32)
    } else {
        point
    }
}
