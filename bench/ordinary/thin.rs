//! Segments, and flat triangles, whose corners lie on one line. Such a triangle is what its edges are, a
//! segment or, where all corners are equal, a point. Two of them are the whole of it: so it meets what one
//! of two edges meets.

use super::{coordinates_kept, flat, flattened, side, Point, Shape, Triangle, Whole};
use std::cmp::Ordering::{Equal, Greater, Less};

/// Its ends may be equal.
pub type Segment = [Point; 2];

/// Whether two shapes have a point in common of which at least one is flat.
pub fn meet<W: Whole>(first: &Shape, second: &Shape) -> bool {
    let (thin, other) = if first.is_flat {
        (first, second)
    } else {
        (second, first)
    };
    parts_of(thin).into_iter().any(|part| segment_meets::<W>(part, other))
}

/// Two edges, which are the whole of a flat triangle.
fn parts_of(shape: &Shape) -> [Segment; 2] {
    let [a, b, c] = shape.corners;
    [[a, b], [b, c]]
}

fn edges_of(shape: &Shape) -> [Segment; 3] {
    let [a, b, c] = shape.corners;
    [[a, b], [b, c], [c, a]]
}

pub fn segment_meets<W: Whole>(segment: Segment, shape: &Shape) -> bool {
    if shape.is_flat {
        parts_of(shape)
            .into_iter()
            .any(|part| segments_meet::<W>(segment, part))
    } else {
        reaches::<W>(segment, shape)
    }
}

/// Whether a segment has a point in common with a triangle that is not flat: by the sides of the
/// triangle's plane that its ends are on, and where these differ, from the higher end by the edges.
fn reaches<W: Whole>([p, q]: Segment, shape: &Shape) -> bool {
    let [a, b, c] = shape.corners;
    let zero = W::from(0);
    let [side_of_p, side_of_q] = [p, q].map(|end| side::<W>(a, b, c, end).cmp(&zero));
    match (side_of_p, side_of_q) {
        (Greater, Greater) | (Less, Less) => false,
        (Equal, Equal) => reaches_in_plane::<W>([p, q], shape.corners),
        (_, Greater) | (Less, _) => passes_edges::<W>([q, p], shape),
        _ => passes_edges::<W>([p, q], shape),
    }
}

/// Whether a segment that starts on the positive side of a triangle's plane, or on it, and ends on the
/// other, or on it, passes no edge on the outside.
fn passes_edges<W: Whole>([p, q]: Segment, shape: &Shape) -> bool {
    edges_of(shape)
        .iter()
        .all(|&[x, y]| side::<W>(p, q, x, y) <= W::from(0))
}

fn reaches_in_plane<W: Whole>(segment: Segment, triangle: Triangle) -> bool {
    let kept = coordinates_kept::<W>(triangle);
    flat::segment_meets::<W>(flattened(segment, kept), flattened(triangle, kept))
}

/// Two segments are apart where in some coordinate their stretches are, where their four ends lie in no
/// plane, and where along some axis the ends of one are seen strictly on one side of the other's line.
fn segments_meet<W: Whole>([p, q]: Segment, [r, s]: Segment) -> bool {
    (0..3).all(|k| p[k].min(q[k]) <= r[k].max(s[k]) && r[k].min(s[k]) <= p[k].max(q[k]))
        && side::<W>(p, q, r, s) == W::from(0)
        && [[1, 2], [2, 0], [0, 1]]
            .iter()
            .all(|&kept| seen_meeting::<W>(flattened([p, q, r, s], kept)))
}

fn seen_meeting<W: Whole>([p, q, r, s]: [flat::Point; 4]) -> bool {
    let zero = W::from(0);
    let on_one_side = |a, b, c, d| {
        let sides = [flat::turn::<W>(a, b, c).cmp(&zero), flat::turn::<W>(a, b, d).cmp(&zero)];
        sides == [Greater; 2] || sides == [Less; 2]
    };
    !on_one_side(r, s, p, q) && !on_one_side(p, q, r, s)
}
