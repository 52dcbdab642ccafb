//! Own verdicts by separating axes alone, for very long comparisons: nothing is allocated, and narrow shapes are judged
//! in 64 bits. The lists must have the right lengths, and every number must be on the grid.

use super::{Answer, FLAT_SHAPE};
use crate::geometry::axes::{self, Overlap, NARROW};
use crate::geometry::{points_in, signs, FlatTriangle};

/// How two shapes lie, or the refusal.
pub type Verdict = Result<Overlap, Answer>;

pub fn answer_of(verdict: Verdict) -> Answer {
    verdict.map_or_else(
        |refusal| refusal,
        |overlap| Answer::served(u64::from(overlap != Overlap::Apart)),
    )
}

/// Flat triangles of the plane are refused, the first before the second.
pub fn flat(first: &[i32], second: &[i32]) -> Verdict {
    for (side, list) in (0..).zip([first, second]) {
        let [a, b, c] = points_in(list);
        if signs::turn_by_formula(a, b, c) == 0 {
            return Err(Answer::refused(FLAT_SHAPE, side, 0));
        }
    }
    let (first, second): (FlatTriangle<i64>, FlatTriangle<i64>) = (points_in(first), points_in(second));
    Ok(axes::flat_overlap(&first, &second))
}

/// Of a segment (N = 2) or a triangle (N = 3) and a triangle of space; neither is refused.
pub fn space<const N: usize>(first: &[i32], second: &[i32]) -> Verdict {
    let is_narrow = |list: &[i32]| list.iter().all(|n| (-NARROW..=NARROW).contains(n));
    Ok(if is_narrow(first) && is_narrow(second) {
        axes::overlap::<i64, N>(&points_in(first), &points_in(second))
    } else {
        axes::overlap::<i128, N>(&points_in(first), &points_in(second))
    })
}
