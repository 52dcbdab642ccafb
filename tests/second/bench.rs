//! The bench rows of document 01 that concern these calls, with their results as fixed numbers, and the example of
//! document 02.
//! Rows of triangles in the plane z = 0 are taken as flat pairs as well, with z left out. Row 12 goes on with wires and
//! pins of many kinds, and row P11 with determinants of numbers as large as the grid.

pub mod byte_pairs;
pub mod determinants;
mod listings;
pub mod sheets;
pub mod stories;

use crate::answers::{Answer, Outcome};
use crate::call::Call;

pub struct Row {
    pub name: &'static str,
    pub call: Call,
    pub outcome: Outcome,
}

const MINUS_ONE: Answer = Answer::served(0);
const ZERO: Answer = Answer::served(1);
const PLUS_ONE: Answer = Answer::served(2);
const APART: Answer = Answer::served(0);
const MEETING: Answer = Answer::served(1);

/// Piece A of document 01, and A without z.
const A: [i32; 9] = [0, 0, 0, 4, 0, 0, 0, 4, 0];
const FLAT_A: [i32; 6] = [0, 0, 4, 0, 0, 4];
/// The second triangles of rows P1, P2 and P3.
const THROUGH_A: [i32; 9] = [1, 1, -1, 1, 1, 1, 5, 5, 1];
const ABOVE_A: [i32; 9] = [1, 1, 1, 2, 1, 1, 1, 2, 1];
const AT_CORNER_OF_A: [i32; 9] = [4, 0, 0, 5, 0, 1, 5, 1, 1];
/// What row P11 calls L.
const L: i32 = 524_288;
/// The end of the grid.
const END: i32 = 1_073_741_824;
/// Flat triangles: the first of row 12, and one from corner to corner of the grid.
const LINE: [i32; 9] = [0, 0, 0, 1, 1, 1, 2, 2, 2];
const ACROSS: [i32; 9] = [-END, -END, -END, END, END, END, 0, 0, 0];

pub fn rows() -> Vec<Row> {
    let mut rows = flat_rows();
    rows.extend(space_rows());
    rows.extend(rows_of_flat_shapes());
    rows.extend(rows_of_wires_and_pins());
    rows.extend(rows_at_the_end_of_the_grid());
    rows.extend(space_rows_at_the_end_of_the_grid());
    rows.extend(determinants::rows());
    rows.extend(listings::rows());
    rows
}

fn flat_rows() -> Vec<Row> {
    vec![
        flat("P4", FLAT_A, [0, 0, 4, 0, 0, -4], MEETING),
        flat("P5", [0, 0, 10, 0, 0, 10], [1, 1, 2, 1, 1, 2], MEETING),
        flat("P6", FLAT_A, [3, 3, 5, 3, 3, 5], APART),
        flat("P8", FLAT_A, FLAT_A, MEETING),
        turn("P10", [0, 0, 4, 0, 0, 4], PLUS_ONE),
        side("P11", [L, L, -L, L, -L, L, -L, L, L, -L, -L, -L], MINUS_ONE),
        side(
            "the example after definition 2.2",
            [0, 0, 0, 1, 0, 0, 0, 1, 0, 0, 0, 1],
            MINUS_ONE,
        ),
    ]
}

fn space_rows() -> Vec<Row> {
    let large = [0, 0, 0, 10, 0, 0, 0, 10, 0];
    vec![
        pair("P1", A, THROUGH_A, MEETING),
        pair("P2", A, ABOVE_A, APART),
        pair("P3", A, AT_CORNER_OF_A, MEETING),
        pair("P4", A, [0, 0, 0, 4, 0, 0, 0, -4, 0], MEETING),
        pair("P5", large, [1, 1, 0, 2, 1, 0, 1, 2, 0], MEETING),
        pair("P6", A, [3, 3, 0, 5, 3, 0, 3, 5, 0], APART),
        pair("P7", A, [2, 3, -1, 2, 3, 1, 5, 5, 0], APART),
        pair("P8", A, A, MEETING),
        segment("P9", [0, 0, 0, 1, 0, 0], A, MEETING),
        pair(
            "a pair that a well-known library gets wrong",
            [2, -2, 3, 1, 1, 3, 2, 4, -1],
            [2, 1, 1, -2, 3, 3, 2, -3, -1],
            MEETING,
        ),
    ]
}

/// Row 12, in each call and each list: the flat test refuses it, the calls in space serve it.
fn rows_of_flat_shapes() -> Vec<Row> {
    let flat_line = [0, 0, 1, 1, 2, 2];
    vec![
        flat("12", flat_line, FLAT_A, Answer::refused(2, 0, 0)),
        flat("12 with the lists traded", FLAT_A, flat_line, Answer::refused(2, 1, 0)),
        segment("12 with a segment", [0, 0, 0, 1, 0, 0], LINE, MEETING),
        segment("a segment beside the line", [1, 0, 0, 2, 0, 0], LINE, APART),
        segment("a pin above A", [1, 1, 1, 1, 1, 1], A, APART),
        segment("a pin in A", [1, 1, 0, 1, 1, 0], A, MEETING),
        segment("a pin on the line", [1, 1, 1, 1, 1, 1], LINE, MEETING),
        segment("a pin on the line, beyond its end", [3, 3, 3, 3, 3, 3], LINE, APART),
        segment("a pin and a pin", [5, 6, 7, 5, 6, 7], pin([5, 6, 7]), MEETING),
        segment("a pin and another", [5, 6, 7, 5, 6, 7], pin([5, 6, 8]), APART),
        pair("12", LINE, A, MEETING),
        pair("12 with the lists traded", A, LINE, MEETING),
    ]
}

/// Wires and pins as triangles, against A and against each other.
fn rows_of_wires_and_pins() -> Vec<Row> {
    vec![
        pair("a needle through A", A, [1, 1, -1, 1, 1, 3, 1, 1, 1], MEETING),
        pair("a needle beside A", A, [3, 3, -1, 3, 3, 3, 3, 3, 1], APART),
        pair("a pin on an edge of A", pin([2, 2, 0]), A, MEETING),
        pair("a pin in A's plane, a step off", pin([3, 2, 0]), A, APART),
        pair("a pin above A, a step off", pin([1, 1, 1]), A, APART),
        pair("a wire along an edge of A", A, [3, 0, 0, 1, 0, 0, 1, 0, 0], MEETING),
        pair("a wire that goes on from A", A, [4, 0, 0, 6, 0, 0, 5, 0, 0], MEETING),
        pair("a wire on the line of an edge", A, [5, 0, 0, 7, 0, 0, 6, 0, 0], APART),
        pair("a wire in A", [1, 1, 0, 1, 2, 0, 1, 2, 0], A, MEETING),
        pair("wires that cross", LINE, [0, 2, 1, 2, 0, 1, 1, 1, 1], MEETING),
        pair("wires that pass each other", LINE, [0, 2, 2, 2, 0, 2, 1, 1, 2], APART),
        pair("wires that would cross", LINE, [0, 4, 2, 1, 3, 2, 1, 3, 2], APART),
        pair(
            "wires that cross at no whole point",
            [0, 0, 5, 1, 1, 5, 1, 1, 5],
            [0, 1, 5, 0, 1, 5, 1, 0, 5],
            MEETING,
        ),
        pair("wires that overlap", LINE, [1, 1, 1, 3, 3, 3, 1, 1, 1], MEETING),
        pair("wires end to end", LINE, [2, 2, 2, 3, 3, 3, 4, 4, 4], MEETING),
        pair("wires on one line", LINE, [3, 3, 3, 4, 4, 4, 5, 5, 5], APART),
        pair("wires side by side", LINE, [0, 0, 1, 1, 1, 2, 2, 2, 3], APART),
        pair("a pin on a wire", LINE, pin([1, 1, 1]), MEETING),
        pair("a pin beside a wire", LINE, pin([1, 1, 2]), APART),
        pair(
            "a pin and the same pin",
            pin([-END, END, 0]),
            pin([-END, END, 0]),
            MEETING,
        ),
        pair("a pin and another", pin([-END, END, 0]), pin([-END, END, 1]), APART),
        pair(
            "wires across the grid",
            ACROSS,
            [-END, END, -END, END, -END, END, 0, 0, 0],
            MEETING,
        ),
        pair(
            "wires across the grid that just miss",
            ACROSS,
            [-END, END, 1 - END, END, -END, END, END, -END, END],
            APART,
        ),
    ]
}

fn pin([x, y, z]: [i32; 3]) -> [i32; 9] {
    [x, y, z, x, y, z, x, y, z]
}

/// Row 13: 1,073,741,824 is served and 1,073,741,825 refused, in each call and each list, at both ends.
fn rows_at_the_end_of_the_grid() -> Vec<Row> {
    vec![
        turn("13", [0, 0, 1_073_741_824, 0, 0, 4], PLUS_ONE),
        turn("13", [0, 0, 1_073_741_825, 0, 0, 4], Answer::refused(1, 0, 2)),
        turn("13", [0, 0, 4, 0, 0, -1_073_741_824], MINUS_ONE),
        turn("13", [0, 0, 4, 0, 0, -1_073_741_825], Answer::refused(1, 0, 5)),
        side("13", [0, 0, 0, 1_073_741_824, 0, 0, 0, 1, 0, 0, 0, 1], MINUS_ONE),
        side(
            "13",
            [0, 0, 0, 1_073_741_825, 0, 0, 0, 1, 0, 0, 0, 1],
            Answer::refused(1, 0, 3),
        ),
        side("13", [0, 0, 0, 1, 0, 0, 0, 1, 0, 0, 0, -1_073_741_824], PLUS_ONE),
        side(
            "13",
            [0, 0, 0, 1, 0, 0, 0, 1, 0, 0, 0, -1_073_741_825],
            Answer::refused(1, 0, 11),
        ),
        flat("13", [0, 0, 1_073_741_824, 0, 0, 4], FLAT_A, MEETING),
        flat("13", [0, 0, 1_073_741_825, 0, 0, 4], FLAT_A, Answer::refused(1, 0, 2)),
        flat("13", FLAT_A, [0, 0, 4, 0, 0, -1_073_741_824], MEETING),
        flat("13", FLAT_A, [0, 0, 4, 0, 0, -1_073_741_825], Answer::refused(1, 1, 5)),
    ]
}

fn space_rows_at_the_end_of_the_grid() -> Vec<Row> {
    let edge = [0, 0, 0, 1, 0, 0];
    let high = |z: i32| [0, 0, 0, 4, 0, 0, 0, 4, z];
    vec![
        segment("13", [1, 1, 0, 1, 1, 1_073_741_824], A, MEETING),
        segment("13", [1, 1, 0, 1, 1, 1_073_741_825], A, Answer::refused(1, 0, 5)),
        segment("13", [-1_073_741_824, 5, 5, -1_073_741_823, 5, 5], A, APART),
        segment(
            "13",
            [-1_073_741_825, 5, 5, -1_073_741_823, 5, 5],
            A,
            Answer::refused(1, 0, 0),
        ),
        segment("13", edge, high(-1_073_741_824), MEETING),
        segment("13", edge, high(-1_073_741_825), Answer::refused(1, 1, 8)),
        pair("13", high(1_073_741_824), A, MEETING),
        pair("13", high(1_073_741_825), A, Answer::refused(1, 0, 8)),
        pair("13", A, high(-1_073_741_824), MEETING),
        pair("13", A, high(-1_073_741_825), Answer::refused(1, 1, 8)),
    ]
}

fn turn(name: &'static str, points: [i32; 6], answer: Answer) -> Row {
    Row {
        name,
        call: Call::Turn(points.to_vec()),
        outcome: answer.into(),
    }
}

fn side(name: &'static str, points: [i32; 12], answer: Answer) -> Row {
    Row {
        name,
        call: Call::Side(points.to_vec()),
        outcome: answer.into(),
    }
}

fn flat(name: &'static str, first: [i32; 6], second: [i32; 6], answer: Answer) -> Row {
    Row {
        name,
        call: Call::Flat(first.to_vec(), second.to_vec()),
        outcome: answer.into(),
    }
}

fn segment(name: &'static str, first: [i32; 6], second: [i32; 9], answer: Answer) -> Row {
    Row {
        name,
        call: Call::Segment(first.to_vec(), second.to_vec()),
        outcome: answer.into(),
    }
}

fn pair(name: &'static str, first: [i32; 9], second: [i32; 9], answer: Answer) -> Row {
    Row {
        name,
        call: Call::Pair(first.to_vec(), second.to_vec()),
        outcome: answer.into(),
    }
}
