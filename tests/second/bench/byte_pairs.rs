//! Triangles as bytes with their results as fixed numbers: the bench rows of two triangles in space, triangles spelt
//! byte by byte, and slices of wrong lengths.

use super::{rows, Row};
use crate::answers::bytes::{result_of, TRIANGLE_BYTES};
use crate::byte_pair::BytePair;
use crate::inputs::WRONG_LENGTHS;

pub struct Stored {
    pub name: &'static str,
    pub pair: BytePair,
    pub result: u64,
}

type Spelt = [u8; 4];

const APART: u64 = 0;
const MEETING: u64 = 1;
const REFUSED_FOR_GRID: u64 = 101;
const REFUSED_FOR_LENGTH: u64 = 103;

const ZERO: Spelt = [0, 0, 0, 0];
const ONE: Spelt = [1, 0, 0, 0];
const FOUR: Spelt = [4, 0, 0, 0];
const FIVE: Spelt = [5, 0, 0, 0];
const MINUS_ONE: Spelt = [255, 255, 255, 255];

/// Piece A of document 01, and the second triangles of rows P1 and P2.
const A: [Spelt; 9] = level_a(ZERO);
const THROUGH_A: [Spelt; 9] = [ONE, ONE, MINUS_ONE, ONE, ONE, ONE, FIVE, FIVE, ONE];
const ABOVE_A: [Spelt; 9] = level_a(ONE);

/// On the grid, its ends included. Most differ from another in one byte, or have the same bytes in another order.
const HEIGHTS: [Spelt; 18] = [
    ZERO,
    ONE,
    [0, 1, 0, 0],
    [0, 0, 1, 0],
    [0, 0, 0, 1],
    [64, 0, 0, 0],
    [0, 64, 0, 0],
    [0, 0, 64, 0],
    [0, 0, 0, 64],
    [255, 255, 255, 63],
    MINUS_ONE,
    [255, 0, 0, 0],
    [0, 255, 255, 255],
    [0, 0, 255, 255],
    [0, 0, 0, 255],
    [192, 0, 0, 0],
    [0, 0, 0, 192],
    [1, 0, 0, 192],
];

/// Just beyond the ends of the grid, or the ends with one byte more; the others are a number of the grid but for their
/// highest byte.
const OFF_GRID: [Spelt; 12] = [
    [1, 0, 0, 64],
    [0, 1, 0, 64],
    [0, 0, 1, 64],
    [255, 255, 255, 191],
    [0, 0, 0, 191],
    [0, 0, 0, 65],
    [0, 0, 0, 127],
    [0, 0, 0, 128],
    [255, 255, 255, 64],
    [255, 255, 255, 127],
    [255, 255, 255, 128],
    [4, 0, 0, 128],
];

pub fn stored() -> Vec<Stored> {
    let mut stored: Vec<Stored> = rows().iter().filter_map(stored_row).collect();
    stored.extend(spelt_rows());
    stored.extend(heights());
    stored.extend(numbers_off_the_grid());
    stored.extend(wrong_lengths());
    stored
}

/// Nothing where the row can't be asked as bytes.
fn stored_row(row: &Row) -> Option<Stored> {
    Some(Stored {
        name: row.name,
        pair: row.call.as_bytes()?,
        result: result_of(&row.outcome.answer),
    })
}

fn spelt_rows() -> Vec<Stored> {
    vec![
        spelt("P1, spelt", A, THROUGH_A, MEETING),
        spelt("P2, spelt", A, ABOVE_A, APART),
        spelt("P8, spelt", A, A, MEETING),
    ]
}

/// A at two heights, which meet where these are the same.
fn heights() -> Vec<Stored> {
    let levels = HEIGHTS.iter().flat_map(|one| HEIGHTS.map(|other| (*one, other)));
    let stored = |(one, other): (Spelt, Spelt)| {
        let result = if one == other { MEETING } else { APART };
        spelt("A at two heights", level_a(one), level_a(other), result)
    };
    levels.map(stored).collect()
}

/// A with one number off the grid, at each place of either slice.
fn numbers_off_the_grid() -> Vec<Stored> {
    let mut stored = Vec::new();
    for number in OFF_GRID {
        for place in 0..A.len() {
            let mut bad = A;
            bad[place] = number;
            stored.push(spelt("a number off the grid", bad, A, REFUSED_FOR_GRID));
            stored.push(spelt("a number off the grid", A, bad, REFUSED_FOR_GRID));
        }
    }
    stored
}

/// In either slice or in both, of a triangle that is good as far as it goes; and beside one that is off the grid, which
/// must not be looked at.
fn wrong_lengths() -> Vec<Stored> {
    let (good, off_grid) = (A.concat(), vec![128; TRIANGLE_BYTES]);
    let stored = |name, [first, second]: [&Vec<u8>; 2]| Stored {
        name,
        pair: BytePair {
            first: first.clone(),
            second: second.clone(),
        },
        result: REFUSED_FOR_LENGTH,
    };
    let of_length = |length: usize| {
        let bad = good.iter().copied().cycle().take(length).collect();
        [
            stored("a first slice of a wrong length", [&bad, &good]),
            stored("a second slice of a wrong length", [&good, &bad]),
            stored("two slices of a wrong length", [&bad, &bad]),
            stored("a wrong length before the grid", [&bad, &off_grid]),
            stored("a wrong length behind the grid", [&off_grid, &bad]),
        ]
    };
    WRONG_LENGTHS.into_iter().flat_map(of_length).collect()
}

/// A at a height.
const fn level_a(z: Spelt) -> [Spelt; 9] {
    [ZERO, ZERO, z, FOUR, ZERO, z, ZERO, FOUR, z]
}

fn spelt(name: &'static str, first: [Spelt; 9], second: [Spelt; 9], result: u64) -> Stored {
    let pair = BytePair {
        first: first.concat(),
        second: second.concat(),
    };
    Stored { name, pair, result }
}
