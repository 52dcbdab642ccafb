//! A segment and a triangle of space, and two triangles of space, by clipping: what is left of a segment when all of it
//! outside the triangle is cut off. This looks for a common point. Segments with equal ends, and triangles with their
//! corners on one line, are clipped, and clip, as what they are.

use super::signs::{shadow_turn, side_by_formula, turn_by_formula, without};
use super::thin::{is_flat, longest_edge};
use super::{edges_of, minus, Segment, Space, Triangle};
use std::cmp::Ordering;

/// How much of a segment lies in a triangle.
#[derive(Clone, Copy, PartialEq, Eq, PartialOrd, Ord, Debug)]
pub enum Reach {
    Nothing,
    Point,
    Stretch,
}

/// How much of a segment lies in a triangle.
pub fn reach(segment: &Segment, triangle: &Triangle) -> Reach {
    let part = if is_flat(triangle) {
        part_on(segment, &longest_edge(triangle))
    } else {
        part_inside(segment, triangle)
    };
    let [p, q] = segment;
    match part {
        None => Reach::Nothing,
        Some(part) if p != q && part.from.is_below(part.to) => Reach::Stretch,
        Some(_) => Reach::Point,
    }
}

/// How much of some edge of the first triangle lies in the second, at most.
///
/// Two triangles have a common point exactly when an edge of one reaches the other. For their common points are a
/// closed convex set, so they have an extreme point. Where that is on no edge it is inner to both triangles, which
/// then share either a piece of the line where their planes cross, on both sides of the point, or a piece of their
/// one plane all around it; and an extreme point is not between two others. So nothing is special about triangles of
/// one plane. A triangle with its corners on one line is its longest edge.
pub fn edge_reach(first: &Triangle, second: &Triangle) -> Reach {
    if is_flat(first) {
        return reach(&longest_edge(first), second);
    }
    edges_of(first)
        .map(|edge| reach(&edge, second))
        .into_iter()
        .fold(Reach::Nothing, Reach::max)
}

/// A triangle that isn't flat is the common part of five half-spaces: the two sides of its plane, and the inner sides
/// of three walls. A wall stands over an edge, along an axis that the plane doesn't contain. Along that axis no two
/// points of the plane cover each other, so a point of the plane lies in the triangle exactly when it is in the
/// triangle's shadow. No case is special: a segment within the plane keeps all of itself between the plane's sides, one
/// within a wall, on the line of an edge, keeps all of itself at that wall, and the others cut it; of one that only
/// touches, a point is left; and one with equal ends is kept or cut off as a whole.
///
/// A height is at most 3 * 2^94 in size, and a place at a wall, which is a turn, at most 2^63.
fn part_inside(segment: &Segment, triangle: &Triangle) -> Option<Part> {
    let [a, b, c] = *triangle;
    let height = |point: Space| side_by_formula(a, b, c, point);
    let heights = segment.map(height);
    let mut part = Part::WHOLE.kept(heights)?.kept(heights.map(|h| -h))?;
    let axis = (0..3).max_by_key(|axis| shadow_turn(triangle, *axis).abs())?;
    let inner_side = shadow_turn(triangle, axis).signum();
    for [start, end] in edges_of(triangle).map(|edge| edge.map(|corner| without(corner, axis))) {
        let place = |point: Space| inner_side * turn_by_formula(start, end, without(point, axis));
        part = part.kept(segment.map(place))?;
    }
    Some(part)
}

/// The other segment is the points r + u (s - r) with u from 0 to 1. At the coordinate in which it is longest, a point
/// x of the segment tells what u must be, (x - r) / (s - r) there. So x is on the other segment where this u is from 0
/// to 1 and the other two coordinates agree with it, all of which is linear in x. Where r is s, x must be r in each
/// coordinate. No number here is above 2^63 in size.
fn part_on(segment: &Segment, [r, s]: &Segment) -> Option<Part> {
    let step = minus(*s, *r);
    let longest = (0..3).max_by_key(|k| step[*k].abs())?;
    let whole = step[longest];
    let mut part = Part::WHOLE;
    for k in 0..3 {
        let off = |x: Space| match whole {
            0 => x[k] - r[k],
            _ => (x[k] - r[k]) * whole - (x[longest] - r[longest]) * step[k],
        };
        let offs = segment.map(off);
        part = part.kept(offs)?.kept(offs.map(|off| -off))?;
    }
    let along = segment.map(|x| (x[longest] - r[longest]) * whole.signum());
    part.kept(along)?.kept(along.map(|n| whole.abs() - n))
}

/// The points p + t (q - p) of a segment with t from `from` to `to`, which is not below `from`.
struct Part {
    from: Fraction,
    to: Fraction,
}

impl Part {
    const WHOLE: Part = Part {
        from: Fraction { over: 0, under: 1 },
        to: Fraction { over: 1, under: 1 },
    };

    /// What is left where a linear function isn't negative, from its values at p and q.
    fn kept(mut self, [at_p, at_q]: [i128; 2]) -> Option<Part> {
        let rise = at_q - at_p;
        match rise.cmp(&0) {
            Ordering::Greater => self.from.raise(-at_p, rise),
            Ordering::Less => self.to.lower(at_p, -rise),
            Ordering::Equal if at_p < 0 => return None,
            Ordering::Equal => {}
        }
        (!self.to.is_below(self.from)).then_some(self)
    }
}

/// A fraction over / under, with under above zero.
///
/// With heights the numbers are at most 3 * 2^94 over 6 * 2^94, and their products may have no room. Then two fractions
/// are compared by their whole parts and, where these are equal, by what is left of each, turned upside down. Each turn
/// makes the numbers smaller.
#[derive(Clone, Copy)]
struct Fraction {
    over: i128,
    under: i128,
}

impl Fraction {
    fn is_below(self, other: Fraction) -> bool {
        let products =
            [(self.over, other.under), (other.over, self.under)].map(|(over, under)| over.checked_mul(under));
        if let [Some(product), Some(other_product)] = products {
            return product < other_product;
        }
        let [whole, other_whole] = [self, other].map(|fraction| fraction.over.div_euclid(fraction.under));
        if whole != other_whole {
            return whole < other_whole;
        }
        let [rest, other_rest] = [self, other].map(|fraction| fraction.over.rem_euclid(fraction.under));
        if rest == 0 || other_rest == 0 {
            return other_rest != 0;
        }
        let upside_down = |over, under| Fraction { over, under };
        upside_down(other.under, other_rest).is_below(upside_down(self.under, rest))
    }

    fn raise(&mut self, over: i128, under: i128) {
        let other = Fraction { over, under };
        if self.is_below(other) {
            *self = other;
        }
    }

    fn lower(&mut self, over: i128, under: i128) {
        let other = Fraction { over, under };
        if other.is_below(*self) {
            *self = other;
        }
    }
}
