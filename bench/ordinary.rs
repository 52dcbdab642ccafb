//! The yardstick: an ordinary pair test, written for reading. It takes what `zg_pair` takes, makes
//! the same checks in the same order, decides by the same method ("The method of document 000" in
//! document 01, step by step, and of flat triangles the one in `thin`) and gives the same four numbers.
//! The ordinary segment test stands to `zg_segment` in the same way, the ordinary listing, in `listing`,
//! to `zg_list`, the ordinary plate, in `plate`, to `zg_plate`, and the ordinary reader of job sheets, in
//! `sheet`, to `zg_sheet`. Whether two parts on a plate clash is decided in `shells`.
//!
//! Every difference, product and determinant is a number of the type `W`: i128, in which everything on the
//! grid fits, and which the plate and its shells take; or i64, in which only what comes of coordinates up to
//! `NARROW` fits. On larger ones that code would overflow, and say nothing: it is not asked there.

mod flat;
pub mod listing;
pub mod plate;
pub mod sheet;
mod shells;
mod thin;

use std::cmp::Ordering::{Equal, Greater, Less};
use std::ops::{Add, Mul, Sub};

/// Every coordinate lies from -GRID to GRID, ends included: 2^30.
pub const GRID: i32 = 1_073_741_824;
/// Where every coordinate lies from -NARROW to NARROW, 2^19, all that is calculated fits 64 bits.
pub const NARROW: i32 = 524_288;
pub const TRIANGLE_NUMBERS: usize = 9;
pub const SEGMENT_NUMBERS: usize = 6;

/// The numbers of an answer, in the order of zimogrud.h.
#[derive(Clone, Copy, PartialEq, Debug)]
pub struct Answer {
    pub number: u64,
    pub side: u64,
    pub place: u64,
    pub value: u64,
}

/// A type of whole numbers to calculate with.
pub trait Whole: Copy + Ord + From<i32> + Add<Output = Self> + Sub<Output = Self> + Mul<Output = Self> {}

impl Whole for i64 {}
impl Whole for i128 {}

type Point = [i32; 3];
type Triangle = [Point; 3];

/// A triangle whose numbers are on the grid. Its corners are looked at once for lying on one line, and
/// not once a pair.
#[derive(Clone, Copy)]
struct Shape {
    corners: Triangle,
    is_flat: bool,
}

/// Whether the triangles of two lists have a point in common, or why that can't be answered.
/// Not inlined, so that it is called as a library's function is.
#[inline(never)]
pub fn pair<W: Whole>(first: &[i32], second: &[i32]) -> Answer {
    answered(checked_verdict::<W>(first, second).map(u64::from))
}

/// Whether the segment of a list and the triangle of another have a point in common, or why that can't
/// be answered. Not inlined either.
#[inline(never)]
pub fn segment<W: Whole>(first: &[i32], second: &[i32]) -> Answer {
    answered(checked_segment_verdict::<W>(first, second).map(u64::from))
}

fn checked_verdict<W: Whole>(first: &[i32], second: &[i32]) -> Result<bool, Answer> {
    check_length(first, TRIANGLE_NUMBERS, 0)?;
    check_length(second, TRIANGLE_NUMBERS, 1)?;
    let first = checked_shape::<W>(first, 0, 0)?;
    let second = checked_shape::<W>(second, 1, 0)?;
    Ok(shapes_meet::<W>(first, second))
}

fn checked_segment_verdict<W: Whole>(first: &[i32], second: &[i32]) -> Result<bool, Answer> {
    check_length(first, SEGMENT_NUMBERS, 0)?;
    check_length(second, TRIANGLE_NUMBERS, 1)?;
    check_grid(first, 0, 0)?;
    let segment = [corner(first, 0), corner(first, 3)];
    let triangle = checked_shape::<W>(second, 1, 0)?;
    Ok(thin::segment_meets::<W>(segment, &triangle))
}

fn answered(value: Result<u64, Answer>) -> Answer {
    value.map_or_else(
        |refusal| refusal,
        |value| Answer {
            number: 0,
            side: 0,
            place: 0,
            value,
        },
    )
}

// ---- The checks ----

fn refusal(number: u64, side: u64, place: usize) -> Answer {
    Answer {
        number,
        side,
        place: place as u64,
        value: 0,
    }
}

fn check_length(list: &[i32], wanted: usize, side: u64) -> Result<(), Answer> {
    if list.len() == wanted {
        Ok(())
    } else {
        Err(refusal(3, side, list.len()))
    }
}

/// The numbers stand in their list from this place on.
fn check_grid(numbers: &[i32], side: u64, from: usize) -> Result<(), Answer> {
    match numbers.iter().position(|number| !(-GRID..=GRID).contains(number)) {
        Some(place) => Err(refusal(1, side, from + place)),
        None => Ok(()),
    }
}

/// The triangle that nine numbers give, which are those at this index of their list.
fn checked_shape<W: Whole>(numbers: &[i32], side: u64, index: usize) -> Result<Shape, Answer> {
    check_grid(numbers, side, TRIANGLE_NUMBERS * index)?;
    let corners = [corner(numbers, 0), corner(numbers, 3), corner(numbers, 6)];
    let is_flat = normal::<W>(corners) == [W::from(0); 3];
    Ok(Shape { corners, is_flat })
}

fn corner(numbers: &[i32], at: usize) -> Point {
    [numbers[at], numbers[at + 1], numbers[at + 2]]
}

/// Whether nine numbers give a triangle on the grid that is not flat.
pub fn has_area(numbers: &[i32]) -> bool {
    checked_shape::<i128>(numbers, 0, 0).is_ok_and(|shape| !shape.is_flat)
}

/// Whether the 64-bit code may be asked about these coordinates.
pub fn is_narrow(numbers: &[i32]) -> bool {
    numbers.iter().all(|number| (-NARROW..=NARROW).contains(number))
}

// ---- The determinants ----

fn minus<W: Whole>(a: Point, b: Point) -> [W; 3] {
    let difference = |k: usize| W::from(a[k]) - W::from(b[k]);
    [difference(0), difference(1), difference(2)]
}

/// A vector upright on the triangle's plane; zero where the corners lie on one line.
fn normal<W: Whole>([a, b, c]: Triangle) -> [W; 3] {
    let ([ux, uy, uz], [vx, vy, vz]) = (minus::<W>(b, a), minus::<W>(c, a));
    [uy * vz - uz * vy, uz * vx - ux * vz, ux * vy - uy * vx]
}

/// [a,b,c,d]: the determinant whose rows are a - d, b - d, c - d.
fn side<W: Whole>(a: Point, b: Point, c: Point, d: Point) -> W {
    let [ax, ay, az] = minus::<W>(a, d);
    let [bx, by, bz] = minus::<W>(b, d);
    let [cx, cy, cz] = minus::<W>(c, d);
    ax * (by * cz - bz * cy) + ay * (bz * cx - bx * cz) + az * (bx * cy - by * cx)
}

// ---- The method ----

fn shapes_meet<W: Whole>(first: Shape, second: Shape) -> bool {
    if first.is_flat || second.is_flat {
        thin::meet::<W>(&first, &second)
    } else {
        meet::<W>(first.corners, second.corners)
    }
}

/// How a triangle stands to the plane of another.
pub enum Stand {
    /// All of it is strictly on one side.
    Beside,
    /// All of it is in the plane.
    Within,
    /// Otherwise: one corner counts as alone on its side.
    Across(Alone),
}

pub struct Alone {
    pub corner: usize,
    /// Whether that side is the negative one.
    pub below: bool,
}

/// How p, q, r stands to the plane of a, b, c. A single corner on the plane counts with either side;
/// two on it count together, against the third.
fn stand<W: Whole>([p, q, r]: Triangle, [a, b, c]: Triangle) -> Stand {
    let sign = |corner: Point| side::<W>(a, b, c, corner).cmp(&W::from(0));
    let across = |corner, below| Stand::Across(Alone { corner, below });
    match [sign(p), sign(q), sign(r)] {
        [Greater, Greater, Greater] | [Less, Less, Less] => Stand::Beside,
        [Equal, Equal, Equal] => Stand::Within,
        [Greater, Less | Equal, Less | Equal] | [Equal, Less, Less] => across(0, false),
        [Less | Equal, Greater, Less | Equal] | [Less, Equal, Less] => across(1, false),
        [Less | Equal, Less | Equal, Greater] | [Less, Less, Equal] => across(2, false),
        [Less, Greater | Equal, Greater | Equal] | [Equal, Greater, Greater] => across(0, true),
        [Greater | Equal, Less, Greater | Equal] | [Greater, Equal, Greater] => across(1, true),
        [Greater | Equal, Greater | Equal, Less] | [Greater, Greater, Equal] => across(2, true),
    }
}

fn meet<W: Whole>(first: Triangle, second: Triangle) -> bool {
    let alone_of_first = match stand::<W>(first, second) {
        Stand::Beside => return false,
        Stand::Within => return meet_in_one_plane::<W>(first, second),
        Stand::Across(alone) => alone,
    };
    let alone_of_second = match stand::<W>(second, first) {
        Stand::Beside => return false,
        Stand::Within => return meet_in_one_plane::<W>(first, second),
        Stand::Across(alone) => alone,
    };
    // Swapping the last two corners of one triangle flips the signs of the other's corners.
    let [p1, q1, r1] = reordered(first, alone_of_first.corner, alone_of_second.below);
    let [p2, q2, r2] = reordered(second, alone_of_second.corner, alone_of_first.below);
    side::<W>(p1, q1, p2, q2) <= W::from(0) && side::<W>(p1, r1, r2, p2) <= W::from(0)
}

fn reordered(triangle: Triangle, first_corner: usize, swapped: bool) -> Triangle {
    let corner = |k: usize| triangle[(first_corner + k) % 3];
    if swapped {
        [corner(0), corner(2), corner(1)]
    } else {
        [corner(0), corner(1), corner(2)]
    }
}

fn meet_in_one_plane<W: Whole>(first: Triangle, second: Triangle) -> bool {
    let kept = coordinates_kept::<W>(first);
    flat::meet::<W>(flattened(first, kept), flattened(second, kept))
}

/// The two coordinates that are left where one is dropped at which the triangle's normal is not zero.
fn coordinates_kept<W: Whole>(triangle: Triangle) -> [usize; 2] {
    let [x, y, _] = normal::<W>(triangle);
    if x != W::from(0) {
        [1, 2]
    } else if y != W::from(0) {
        [0, 2]
    } else {
        [0, 1]
    }
}

fn flattened<const N: usize>(points: [Point; N], [k, l]: [usize; 2]) -> [flat::Point; N] {
    points.map(|point| [point[k], point[l]])
}
