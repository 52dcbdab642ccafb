//! Which signs the pair call, the listing and the segment call take, in their order, and for which of them they ask an
//! estimate. The corners p1, q1, r1 and p2, q2, r2 of two triangles are document 000's.

use crate::ordinary::{Alone, Stand};

use super::sides::{sides_over, Segment, Side, Triangle};
use super::tally::Tally;

/// The calls on two triangles, by when they ask an estimate.
#[derive(Clone, Copy)]
pub enum Way {
    /// The pair call: of a standing where the normal is not narrow, and of the last signs always.
    Pair,
    /// A listing whose numbers all lie within NARROW: never.
    NarrowListing,
    /// Another listing: always.
    WideListing,
}

// ---- Two triangles ----

/// The first triangle is asked first, and the second also where the first is in its plane.
pub fn pair_call(tally: &mut Tally, first: Triangle, second: Triangle) -> Result<(), String> {
    let of_first = standing(tally, Way::Pair, first, second)?;
    if matches!(of_first, Stand::Beside) {
        return Ok(());
    }
    let of_second = standing(tally, Way::Pair, second, first)?;
    if let (Stand::Across(of_first), Stand::Across(of_second)) = (of_first, of_second) {
        last_signs(tally, Way::Pair, [first, second], [of_first, of_second])?;
    }
    Ok(())
}

/// A pair of a listing, whose second triangle is asked first.
pub fn listed_pair(tally: &mut Tally, way: Way, first: Triangle, second: Triangle) -> Result<(), String> {
    let Stand::Across(of_second) = standing(tally, way, second, first)? else {
        return Ok(());
    };
    if let Stand::Across(of_first) = standing(tally, way, first, second)? {
        last_signs(tally, way, [first, second], [of_first, of_second])?;
    }
    Ok(())
}

/// How a triangle stands to the plane of the other. Alone is the first corner whose side no other corner is on; if there
/// is none, two corners are on one side, and alone is the third, which is on the plane.
fn standing(tally: &mut Tally, way: Way, triangle: Triangle, other: Triangle) -> Result<Stand, String> {
    let signs = standing_signs(tally, way, sides_over(other, triangle))?;
    let [sign, ..] = signs;
    if signs == [sign; 3] {
        return Ok(if sign == 0 { Stand::Within } else { Stand::Beside });
    }
    let is_alone = |&k: &usize| signs[k] != 0 && signs.iter().filter(|&&sign| sign == signs[k]).count() == 1;
    let alone = match (0..3).find(is_alone) {
        Some(corner) => Alone {
            corner,
            below: signs[corner] < 0,
        },
        None => Alone {
            corner: (0..3).find(|&k| signs[k] == 0).expect("one corner is on the plane"),
            below: signs.contains(&1),
        },
    };
    Ok(Stand::Across(alone))
}

/// The signs of three corners, whose sides are over one plane.
fn standing_signs(tally: &mut Tally, way: Way, sides: [Side; 3]) -> Result<[i128; 3], String> {
    match way {
        Way::NarrowListing => tally.signs_by_low_words(sides),
        Way::Pair if sides[0].has_narrow_normal() => tally.signs_by_low_words(sides),
        Way::Pair | Way::WideListing => tally.signs_by_estimate(sides),
    }
}

/// [p1,q1,p2,q2] and [p1,r1,r2,p2], where each triangle has a corner alone.
fn last_signs(
    tally: &mut Tally,
    way: Way,
    [first, second]: [Triangle; 2],
    [of_first, of_second]: [Alone; 2],
) -> Result<(), String> {
    let [p1, q1, r1] = reordered(first, of_first.corner, of_second.below);
    let [p2, q2, r2] = reordered(second, of_second.corner, of_first.below);
    let [[one], [two]] = [sides_over([p1, q1, p2], [q2]), sides_over([p1, r1, r2], [p2])];
    match way {
        Way::NarrowListing => tally.signs_by_low_words([one, two])?,
        Way::Pair | Way::WideListing => tally.signs_by_estimate([one, two])?,
    };
    Ok(())
}

/// The corner that is alone comes first. Swapping the last two flips the signs of the other triangle's corners.
fn reordered(triangle: Triangle, first_corner: usize, are_swapped: bool) -> Triangle {
    let [p, q, r] = [0, 1, 2].map(|k| triangle[(first_corner + k) % 3]);
    if are_swapped {
        [p, r, q]
    } else {
        [p, q, r]
    }
}

// ---- A segment and a triangle ----

/// The estimate is asked for every sign. Where both ends are strictly on one side of the triangle's plane, or both in
/// it, no sign more is counted; else the segment comes through the plane.
pub fn segment_call(tally: &mut Tally, [p, q]: Segment, triangle: Triangle) -> Result<(), String> {
    let [of_p, of_q] = tally.signs_by_estimate(sides_over(triangle, [p, q]))?;
    if of_p == of_q {
        return Ok(());
    }
    let from_higher_end = if of_p < of_q { [q, p] } else { [p, q] };
    edge_signs(tally, from_higher_end, triangle)
}

/// The signs that tell whether a segment passes an edge on the outside. The plane through the segment and the
/// triangle's first corner serves two edges.
fn edge_signs(tally: &mut Tally, [high, low]: Segment, [a, b, c]: Triangle) -> Result<(), String> {
    let [one, two] = sides_over([high, low, a], [b, c]);
    let [three] = sides_over([high, low, b], [c]);
    tally.signs_by_estimate([one, two, three])?;
    Ok(())
}
