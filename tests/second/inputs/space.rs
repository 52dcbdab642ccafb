//! Points, segments and triangles of space. A segment for a triangle is an edge of a triangle made for the same, so
//! each kind of pair serves both calls.

use super::faulty::{any_fault_shape, bad_list};
use super::measured::{measured_lists, measured_points};
use super::plane::{small_picture, SMALL};
use super::thin::{any_thin_lists, thinned_lists};
use super::wrapping::{wrapping_lists, wrapping_points};
use super::{any_half, box_list, box_lists, box_point, extreme_list, extreme_lists, moved, nested_lists, nudge};
use super::{sharing_lists, shuffled, traded, Lists};
use crate::answers::{FLAT_TRIANGLE_NUMBERS, GRID, SEGMENT_NUMBERS, SIDE_NUMBERS, TRIANGLE_NUMBERS};
use crate::call::Call;
use crate::random::Random;

type Vector = [i32; 3];

/// No coordinate of a tiny pair is beyond this.
pub const TINY: i32 = 4;
/// Of a hundred pairs, so many are made to have faults.
const FAULTY: u64 = 18;
/// So many are made to have a flat shape; and of those on a tiny grid, one in so many.
const THIN: u64 = 22;
const TINY_THIN_ONCE_IN: u64 = 3;

pub fn any_side(random: &mut Random) -> Call {
    Call::Side(match random.below(100) {
        0..=11 => box_list(random, SIDE_NUMBERS, 1),
        12..=25 => box_list(random, SIDE_NUMBERS, 2),
        26..=33 => box_list(random, SIDE_NUMBERS, GRID),
        34..=45 => extreme_list(random, SIDE_NUMBERS),
        46..=55 => coplanar_points(random),
        56..=65 => measured_points(random),
        66..=70 => wrapping_points(random),
        71..=75 => powered_points(random),
        76..=84 => sheared_points(random),
        _ => bad_list(random, SIDE_NUMBERS),
    })
}

pub fn any_segment(random: &mut Random) -> Call {
    if random.below(100) < FAULTY {
        let lists = (any_fault_shape::<3>(random, 2), any_fault_shape::<3>(random, 3));
        return segment_call(random, lists);
    }
    let lists = thin_or_any_lists(random);
    edge_call(random, lists)
}

pub fn any_pair(random: &mut Random) -> Call {
    let lists = if random.below(100) < FAULTY {
        (any_fault_shape::<3>(random, 3), any_fault_shape::<3>(random, 3))
    } else {
        thin_or_any_lists(random)
    };
    pair_call(random, lists)
}

pub fn tiny_segment(random: &mut Random) -> Call {
    let lists = thin_or_tiny_lists(random);
    edge_call(random, lists)
}

pub fn tiny_pair(random: &mut Random) -> Call {
    let lists = thin_or_tiny_lists(random);
    pair_call(random, lists)
}

fn thin_or_any_lists(random: &mut Random) -> Lists {
    if random.below(100 - FAULTY) < THIN {
        any_thin_lists(random)
    } else {
        any_lists(random)
    }
}

fn thin_or_tiny_lists(random: &mut Random) -> Lists {
    let lists = tiny_lists(random);
    if random.once_in(TINY_THIN_ONCE_IN) {
        thinned_lists(random, lists, TINY)
    } else {
        lists
    }
}

/// An edge of one triangle for a segment, and the other triangle.
fn edge_call(random: &mut Random, lists: Lists) -> Call {
    let (mut first, second) = traded(random, lists);
    first.truncate(SEGMENT_NUMBERS);
    segment_call(random, (first, second))
}

fn segment_call(random: &mut Random, (first, second): Lists) -> Call {
    Call::Segment(
        shuffled::<3>(random, first, SEGMENT_NUMBERS),
        shuffled::<3>(random, second, TRIANGLE_NUMBERS),
    )
}

fn pair_call(random: &mut Random, lists: Lists) -> Call {
    let (first, second) = traded(random, lists);
    Call::Pair(
        shuffled::<3>(random, first, TRIANGLE_NUMBERS),
        shuffled::<3>(random, second, TRIANGLE_NUMBERS),
    )
}

/// Two triangles with every number on the grid, a few of them flat by chance.
pub fn any_lists(random: &mut Random) -> Lists {
    let half = any_half(random);
    let (mut first, second) = match random.below(100) {
        0..=39 => return tiny_lists(random),
        40..=42 => return box_lists(random, TRIANGLE_NUMBERS, GRID),
        43..=47 => return extreme_lists(random, TRIANGLE_NUMBERS),
        48..=49 => return measured_lists(random),
        50 => return wrapping_lists(random),
        51..=58 => {
            let lists = tiny_lists(random);
            magnified(random, lists)
        }
        59..=66 => {
            let lists = tiny_lists(random);
            sheared(random, lists)
        }
        67..=74 => Layout::any(random, HINGED_STEPS).hinged_lists(random),
        75..=84 => coplanar_lists(random),
        85..=94 => piercing_lists(random),
        95..=96 => nested_lists::<3>(random, half),
        _ => sharing_lists::<3>(random, half),
    };
    if random.once_in(3) {
        nudge(random, &mut first);
    }
    (first, second)
}

/// Two triangles with coordinates from -4 to 4.
pub fn tiny_lists(random: &mut Random) -> Lists {
    match random.below(8) {
        0..=3 => {
            let half = random.pick(&[1, 2, TINY]);
            box_lists(random, TRIANGLE_NUMBERS, half)
        }
        4..=6 => Layout::tiny(random).hinged_lists(random),
        _ => {
            let picture = box_lists(random, FLAT_TRIANGLE_NUMBERS, TINY / 2);
            Layout::tiny(random).flat_lists(picture)
        }
    }
}

// ---- Pictures laid out in space ----

/// An origin and three steps.
pub struct Layout {
    origin: Vector,
    steps: [Vector; 3],
}

/// So many steps at most lead from the origin to a corner of a hinged triangle.
pub const HINGED_STEPS: i32 = 4;

impl Layout {
    /// With steps of at most 1 in size.
    pub fn tiny(random: &mut Random) -> Layout {
        Layout {
            origin: [0; 3],
            steps: [0; 3].map(|_| box_point(random, 1)),
        }
    }

    /// Anywhere on the grid, for pictures of at most so many steps.
    pub fn any(random: &mut Random, most_steps: i32) -> Layout {
        let half = random.pick(&[2, 40, 150_000, GRID]).min(GRID / 2 / most_steps);
        Layout {
            origin: box_point(random, GRID / 2),
            steps: [0; 3].map(|_| box_point(random, half)),
        }
    }

    /// Of a plane that is slanted, upright or level, for small pictures.
    pub fn of_any_plane(random: &mut Random) -> Layout {
        let (mut layout, axis) = (Layout::any(random, 2 * SMALL), random.index(3));
        match random.below(4) {
            0 => layout.steps.iter_mut().for_each(|step| step[axis] = 0),
            1 => (0..3).filter(|k| *k != axis).for_each(|k| layout.steps[1][k] = 0),
            _ => {}
        }
        layout
    }

    fn point(&self, counts: &[i32]) -> Vector {
        let along = |k: usize| counts.iter().zip(&self.steps).map(|(n, step)| n * step[k]).sum::<i32>();
        [0, 1, 2].map(|k| self.origin[k] + along(k))
    }

    /// The points of a flat picture, laid out along the first two steps.
    fn flat_list(&self, picture: &[i32]) -> Vec<i32> {
        picture.chunks(2).flat_map(|counts| self.point(counts)).collect()
    }

    pub fn flat_lists(&self, (first, second): Lists) -> Lists {
        (self.flat_list(&first), self.flat_list(&second))
    }

    /// Two triangles about a common line, each in a plane through it, with their corners on the line or one step to
    /// either side: so edges lie on edges, corners on edges and on corners, and edges cross edges at whole places.
    pub fn hinged_lists(&self, random: &mut Random) -> Lists {
        (self.hinged_list(random, 1), self.hinged_list(random, 2))
    }

    /// Keeps to a third of the line, and often has an edge on it, so that all ways to be apart are met often enough.
    fn hinged_list(&self, random: &mut Random, step_off: usize) -> Vec<i32> {
        let start = random.pick(&[-3, -1, 1]);
        let edge_on_line = random.once_in(3);
        let corner = |i: i32| {
            let mut counts = [start + random.between(0, 2), 0, 0];
            counts[step_off] = random.between(-1, 1);
            if edge_on_line && i < 2 {
                counts = [start + i * random.between(1, 2), 0, 0];
            }
            self.point(&counts)
        };
        (0..3).flat_map(corner).collect()
    }
}

/// Two triangles of one plane.
fn coplanar_lists(random: &mut Random) -> Lists {
    Layout::of_any_plane(random).flat_lists(small_picture(random))
}

/// Tiny lists made as large as the grid, or so large along each axis that volumes are multiples of 2^62 to 2^66.
pub fn magnified(random: &mut Random, (first, second): Lists) -> Lists {
    let powers = if random.once_in(2) {
        any_powers(random)
    } else {
        [MOST_POWER; 3]
    };
    (made_large(&first, powers), made_large(&second, powers))
}

/// 2 to this times `TINY` is the end of the grid.
const MOST_POWER: i32 = 28;

/// Such that tiny points stay within half the grid.
fn any_powers(random: &mut Random) -> Vector {
    let (most, sum) = (MOST_POWER - 1, random.between(62, 66));
    let first = random.between(sum - 2 * most, most);
    let second = random.between(sum - first - most, most);
    [first, second, sum - first - second]
}

fn made_large(list: &[i32], powers: Vector) -> Vec<i32> {
    list.iter()
        .zip(powers.iter().cycle())
        .map(|(n, power)| n << power)
        .collect()
}

/// A corner or an edge of the first triangle is at a whole point of the second, or just beside the second.
fn piercing_lists(random: &mut Random) -> Lists {
    let parts = random.between(1, 6);
    let layout = Layout::any(random, 2 * parts + 5);
    let right = random.between(-1, parts);
    let up = random.between(-1, parts - right);
    let far = |random: &mut Random, off: i32| {
        let [x, y] = [0; 2].map(|_| random.between(-1, parts + 1));
        [x, y, off]
    };
    let any_off = random.between(-1, 1);
    let corners = if random.once_in(2) {
        [[right, up, 0], far(random, 1), far(random, any_off)]
    } else {
        let [a, b] = box_point(random, 1);
        [[right - a, up - b, -1], [right + a, up + b, 1], far(random, any_off)]
    };
    let first = corners.iter().flat_map(|counts| layout.point(counts)).collect();
    (first, layout.flat_list(&[0, 0, parts, 0, 0, parts]))
}

// ---- Slanted far, with tiny volumes ----

/// A map that slants along the axes twice: points of a tiny grid come far apart, but keep the volumes they had.
struct Slant {
    first_axis: usize,
    slants: Vector,
}

impl Slant {
    /// Points of at most 2 in size stay on the grid with slants of up to 16,380; points of at most 4 stay within half
    /// the grid with slants of up to 8,190.
    fn any(random: &mut Random, most: i32) -> Slant {
        Slant {
            first_axis: random.index(3),
            slants: box_point(random, most),
        }
    }

    fn list(&self, mut list: Vec<i32>) -> Vec<i32> {
        let ([p, q, r], i) = (self.slants, self.first_axis);
        let (j, k) = ((i + 1) % 3, (i + 2) % 3);
        for point in list.chunks_mut(3) {
            point[i] += p * point[j] + q * point[k];
            point[j] += r * point[i];
            point[k] -= q * point[i];
        }
        list
    }
}

fn sheared_points(random: &mut Random) -> Vec<i32> {
    let slant = Slant::any(random, 16_380);
    slant.list(box_list(random, SIDE_NUMBERS, 2))
}

/// Tiny lists slanted far.
pub fn sheared(random: &mut Random, (first, second): Lists) -> Lists {
    let (slant, origin): (_, Vector) = (Slant::any(random, 8_190), box_point(random, GRID / 2));
    (moved(&slant.list(first), &origin), moved(&slant.list(second), &origin))
}

/// Four points of a tiny grid made large along each axis by a power of 2, so that their determinant and each product in
/// it is a multiple of 2^62 to 2^66; or with one number off by one.
fn powered_points(random: &mut Random) -> Vec<i32> {
    let (powers, origin): (_, Vector) = (any_powers(random), box_point(random, GRID / 2));
    let large = made_large(&box_list(random, SIDE_NUMBERS, 2), powers);
    let mut list = moved(&large, &origin);
    if random.once_in(2) {
        nudge(random, &mut list);
    }
    list
}

/// Four points of one plane, or with one number off by one.
fn coplanar_points(random: &mut Random) -> Vec<i32> {
    let layout = Layout::any(random, 4);
    let mut list = layout.flat_list(&box_list(random, 8, 2));
    if random.once_in(2) {
        nudge(random, &mut list);
    }
    list
}
