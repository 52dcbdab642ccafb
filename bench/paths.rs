//! The paths: counts how many signs the pair call, the segment call and the listing take from low words without an
//! estimate, from the estimate in doubles, and from low words after an estimate that can't tell, on the inputs that
//! are timed. A low word is the lowest 64 bits of a side, which tell it where it is smaller than 2^63 in size. The
//! library is not asked. What it decides is decided once more, in `calls`, with sides and estimates that are calculated
//! here, in `sides`. In `tally` each estimate that is made is compared with its side, and it is seen that no side that
//! is left to its low word is too large for it.
//!
//! Signs that are taken in one plane, or of the edges of a flat triangle, are not counted. Of a listing those pairs
//! are counted whose boxes have a point in common; the library's candidates are a few more.

mod calls;
mod sides;
mod tally;

use crate::inputs::lists::{self, Listed};
use crate::inputs::{self, Pair, PairsInput};
use crate::listings::{told_calls, Lists};
use crate::ordinary::{is_narrow, SEGMENT_NUMBERS, TRIANGLE_NUMBERS};
use crate::scaling::Input;
use crate::timing::say;
use crate::verdicts::{PAIRS_SEEDS, SEGMENTS_SEEDS};
use calls::{listed_pair, pair_call, segment_call, Way};
use sides::{Point, Triangle};
use tally::Tally;

const HEAD: &str = "signs told by low words without an estimate (both lists of a listing within 2^19, or in the pair call a narrow normal), by the estimate, and by low words after an estimate that can't tell; of a listing in the pairs near, whose boxes have a point in common (the library's candidates are a few more)";

/// Prints a line for each input. The last line to print; it is an error where an estimate is too far from its side, or
/// a side that is left to its low word is too large.
pub fn count() -> Result<String, String> {
    say(HEAD);
    let mut all = Tally::default();
    for input in inputs::timed::<TRIANGLE_NUMBERS>(PAIRS_SEEDS) {
        all.add(&counted_pairs("pair call", &input, count_pair)?);
    }
    for input in inputs::timed::<SEGMENT_NUMBERS>(SEGMENTS_SEEDS) {
        all.add(&counted_pairs("segment call", &input, count_segment)?);
    }
    for input in lists::timed() {
        all.add(&counted_listing(&input)?);
    }
    Ok(format!(
        "every estimate is within the bound, the sign of each sure one is right, and each side that is left to its low word is small enough: {}",
        all.told_error()
    ))
}

// ---- Pairs, of two triangles or of a segment and a triangle ----

fn counted_pairs<const N: usize>(
    call: &str,
    input: &PairsInput<N>,
    count: impl Fn(&mut Tally, &Pair<N>) -> Result<(), String>,
) -> Result<Tally, String> {
    let mut tally = Tally::default();
    for pair in &input.content {
        count(&mut tally, pair).map_err(|message| format!("{call}, {}: {message}", input.name))?;
    }
    say(&format!(
        "{call}, {}, {} pairs: {}",
        input.name,
        input.content.len(),
        tally.told()
    ));
    Ok(tally)
}

fn count_pair(tally: &mut Tally, pair: &Pair<TRIANGLE_NUMBERS>) -> Result<(), String> {
    pair_call(tally, points(&pair.first), points(&pair.second))
}

fn count_segment(tally: &mut Tally, pair: &Pair<SEGMENT_NUMBERS>) -> Result<(), String> {
    segment_call(tally, points(&pair.first), points(&pair.second))
}

// ---- Listings ----

fn counted_listing(input: &Input<Listed>) -> Result<Tally, String> {
    let calls = input.content.calls();
    let mut tally = Tally::default();
    let mut near = 0;
    for &lists in &calls {
        near += count_call(&mut tally, lists).map_err(|message| format!("listing, {}: {message}", input.name))?;
    }
    say(&format!(
        "listing, {}, {}, {near} pairs near: {}",
        input.name,
        told_calls(&calls),
        tally.told()
    ));
    Ok(tally)
}

/// Counts the signs of one call, and gives how many of its pairs have boxes with a point in common.
fn count_call(tally: &mut Tally, lists: Lists) -> Result<usize, String> {
    let way = if lists.iter().all(|list| is_narrow(list)) {
        Way::NarrowListing
    } else {
        Way::WideListing
    };
    let [first, second] = lists.map(triangles);
    let mut near = 0;
    for &one in &first {
        for &other in second.iter().filter(|&&other| boxes_touch(one, other)) {
            listed_pair(tally, way, one, other)?;
            near += 1;
        }
    }
    Ok(near)
}

fn triangles(list: &[i32]) -> Vec<Triangle> {
    list.chunks_exact(TRIANGLE_NUMBERS).map(points).collect()
}

fn boxes_touch(first: Triangle, second: Triangle) -> bool {
    let low = |[a, b, c]: Triangle, axis: usize| a[axis].min(b[axis]).min(c[axis]);
    let high = |[a, b, c]: Triangle, axis: usize| a[axis].max(b[axis]).max(c[axis]);
    (0..3).all(|axis| low(first, axis) <= high(second, axis) && low(second, axis) <= high(first, axis))
}

/// The points that a list of numbers gives, three for each.
fn points<const N: usize>(numbers: &[i32]) -> [Point; N] {
    std::array::from_fn(|k| [0, 1, 2].map(|axis| numbers[3 * k + axis]))
}
