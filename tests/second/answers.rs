//! Own answers to every call, refusals included, as documents 01 and 02 ask for them.

pub mod bytes;
pub mod clashes;
pub mod faults;
pub mod listing;
pub mod plate;
pub mod sheet;
pub mod shells;
pub mod verdicts;

use crate::door::ANSWER_NUMBERS;
use crate::geometry::axes::{self, Overlap};
use crate::geometry::clipping::{self, Reach};
use crate::geometry::edges::{self, Contact};
use crate::geometry::signs;
use crate::geometry::thin::{self, Kind};
use crate::geometry::{points_in, Point, Segment, Space, Triangle};
use faults::{first_refusal, flat_triangle_faults, point_faults, segment_faults, triangle_faults, ListFaults};
use listing::ListingFindings;
use std::fmt;

pub const GRID: i32 = 1_073_741_824;
pub const TURN_NUMBERS: usize = 6;
pub const SIDE_NUMBERS: usize = 12;
pub const FLAT_TRIANGLE_NUMBERS: usize = 6;
pub const SEGMENT_NUMBERS: usize = 6;
pub const TRIANGLE_NUMBERS: usize = 9;

pub const OFF_GRID: u64 = 1;
pub const FLAT_SHAPE: u64 = 2;
pub const WRONG_LENGTH: u64 = 3;
pub const START_BEYOND_END: u64 = 4;
pub const TOO_LITTLE_ROOM: u64 = 5;

/// The four numbers that a call gives back.
#[derive(Clone, Copy, PartialEq, Eq, Debug)]
pub struct Answer {
    pub number: u64,
    pub side: u64,
    pub place: u64,
    pub value: u64,
}

impl Answer {
    pub const fn served(value: u64) -> Answer {
        Answer {
            number: 0,
            side: 0,
            place: 0,
            value,
        }
    }

    pub const fn refused(number: u64, side: u64, place: u64) -> Answer {
        Answer {
            number,
            side,
            place,
            value: 0,
        }
    }

    pub fn numbers(&self) -> [u64; ANSWER_NUMBERS] {
        [self.number, self.side, self.place, self.value]
    }
}

/// All that a call must tell: its answer, and the pairs that a served listing writes.
#[derive(Clone, PartialEq, Eq, Debug)]
pub struct Outcome {
    pub answer: Answer,
    pub pairs: Vec<[u32; 2]>,
}

impl From<Answer> for Outcome {
    fn from(answer: Answer) -> Outcome {
        Outcome {
            answer,
            pairs: Vec::new(),
        }
    }
}

/// How two shapes lie, or what a listing had to deal with.
pub enum Findings {
    Plane(PlaneFindings),
    Space(SpaceFindings),
    Listing(ListingFindings),
}

/// How two triangles in the plane lie, by both methods.
pub struct PlaneFindings {
    pub contact: Contact,
    pub overlap: Overlap,
}

/// How two shapes in space lie, by both methods, and what makes the pair easy or hard.
pub struct SpaceFindings {
    pub kinds: [Kind; 2],
    /// Whether one of them is less than it could be.
    pub has_flat: bool,
    /// How many dimensions both have together: 0 a point, 1 a line, 2 a plane, 3 space.
    pub span: usize,
    /// How much of some edge of the first lies in the second, and of the second in the first.
    pub reaches: [Reach; 2],
    pub overlap: Overlap,
    /// On which side of the second's plane each corner of the first lies, -1, 0 or 1; then, of two triangles, on which
    /// side of the first's plane each corner of the second.
    pub sides: Vec<i8>,
    /// Along which axes the second isn't seen as a line only.
    pub seen_along: [bool; 3],
}

/// An own outcome, with what led to it.
pub struct Opinion {
    pub outcome: Outcome,
    /// The outcome by the other own method. A difference is a fault of this program.
    pub second_outcome: Outcome,
    pub faults: Vec<ListFaults>,
    pub findings: Option<Findings>,
}

impl Opinion {
    fn refusing(answer: Answer, faults: Vec<ListFaults>) -> Opinion {
        Opinion::of_answers(answer, answer, faults)
    }

    fn serving(value: u64, second_value: u64, faults: Vec<ListFaults>) -> Opinion {
        Opinion::of_answers(Answer::served(value), Answer::served(second_value), faults)
    }

    fn of_answers(answer: Answer, second_answer: Answer, faults: Vec<ListFaults>) -> Opinion {
        Opinion {
            outcome: answer.into(),
            second_outcome: second_answer.into(),
            faults,
            findings: None,
        }
    }

    /// Compares the two own methods; the error means that this program is at fault.
    pub fn compare_own(&self, input: &impl fmt::Display) -> Result<(), String> {
        if self.outcome == self.second_outcome {
            return Ok(());
        }
        let (one, other) = (&self.outcome, &self.second_outcome);
        Err(format!(
            "the two own methods differ, so the second program is wrong\n{input}\n  {one:?}\n  {other:?}"
        ))
    }

    fn serving_space(findings: SpaceFindings, faults: Vec<ListFaults>) -> Opinion {
        let value = u64::from(findings.reaches != [Reach::Nothing; 2]);
        let second_value = u64::from(findings.overlap != Overlap::Apart);
        Opinion {
            findings: Some(Findings::Space(findings)),
            ..Opinion::serving(value, second_value, faults)
        }
    }
}

pub fn turn(points: &[i32]) -> Opinion {
    let faults = vec![point_faults(points, TURN_NUMBERS)];
    if let Some(answer) = first_refusal(&faults) {
        return Opinion::refusing(answer, faults);
    }
    let [a, b, c] = points_of(points);
    let value = sign_number(signs::turn_by_border_sum(a, b, c));
    let second_value = sign_number(signs::turn_by_formula(a, b, c));
    Opinion::serving(value, second_value, faults)
}

pub fn side(points: &[i32]) -> Opinion {
    let faults = vec![point_faults(points, SIDE_NUMBERS)];
    if let Some(answer) = first_refusal(&faults) {
        return Opinion::refusing(answer, faults);
    }
    let [a, b, c, d] = points_of(points);
    let value = sign_number(signs::side_by_cofactors(a, b, c, d));
    let second_value = sign_number(signs::side_by_formula(a, b, c, d));
    Opinion::serving(value, second_value, faults)
}

pub fn flat(first: &[i32], second: &[i32]) -> Opinion {
    let faults = vec![flat_triangle_faults(first), flat_triangle_faults(second)];
    if let Some(answer) = first_refusal(&faults) {
        return Opinion::refusing(answer, faults);
    }
    let (first, second) = (points_of(first), points_of(second));
    let contact = edges::contact(&first, &second);
    let overlap = axes::flat_overlap(&first, &second);
    let value = u64::from(contact != Contact::Nothing);
    let second_value = u64::from(overlap != Overlap::Apart);
    Opinion {
        findings: Some(Findings::Plane(PlaneFindings { contact, overlap })),
        ..Opinion::serving(value, second_value, faults)
    }
}

pub fn segment(first: &[i32], second: &[i32]) -> Opinion {
    let faults = vec![segment_faults(first), triangle_faults(second)];
    if let Some(answer) = first_refusal(&faults) {
        return Opinion::refusing(answer, faults);
    }
    let (first, second): (Segment, Triangle) = (points_of(first), points_of(second));
    let reaches = [clipping::reach(&first, &second), Reach::Nothing];
    let sides = sides(&first, &second).to_vec();
    Opinion::serving_space(space_findings(&first, &second, reaches, sides), faults)
}

pub fn pair(first: &[i32], second: &[i32]) -> Opinion {
    let faults = vec![triangle_faults(first), triangle_faults(second)];
    if let Some(answer) = first_refusal(&faults) {
        return Opinion::refusing(answer, faults);
    }
    let (first, second): (Triangle, Triangle) = (points_of(first), points_of(second));
    let sides = [sides(&first, &second), sides(&second, &first)].concat();
    Opinion::serving_space(space_findings(&first, &second, reaches(&first, &second), sides), faults)
}

fn space_findings<const N: usize>(
    first: &[Space; N],
    second: &Triangle,
    reaches: [Reach; 2],
    sides: Vec<i8>,
) -> SpaceFindings {
    SpaceFindings {
        kinds: [thin::kind_of(first), thin::kind_of(second)],
        has_flat: thin::is_flat(first) || thin::is_flat(second),
        span: thin::span_of(first, second),
        reaches,
        overlap: axes::overlap(first, second),
        sides,
        seen_along: seen_along(second),
    }
}

fn reaches(first: &Triangle, second: &Triangle) -> [Reach; 2] {
    [clipping::edge_reach(first, second), clipping::edge_reach(second, first)]
}

fn sides<const N: usize>(corners: &[Space; N], triangle: &Triangle) -> [i8; N] {
    let [a, b, c] = *triangle;
    corners.map(|corner| signs::side_by_formula(a, b, c, corner).signum() as i8)
}

fn seen_along(triangle: &Triangle) -> [bool; 3] {
    [0, 1, 2].map(|axis| signs::shadow_turn(triangle, axis) != 0)
}

fn points_of<const D: usize, const N: usize>(list: &[i32]) -> [Point<D>; N] {
    points_in(list)
}

/// A sign goes through the door as 0, 1, 2 for -1, 0, 1.
fn sign_number(value: i128) -> u64 {
    (value.signum() + 1) as u64
}
