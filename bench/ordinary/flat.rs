//! The flat test: whether two triangles in the plane, neither with its corners on one line, have a
//! point in common. The corners p1, q1, r1 and p2, q2, r2 are document 000's, and so are the tests,
//! but where docs/DECISIONS.md names a fault in its words. A segment and such a triangle are told apart
//! by a line between them.

use super::Whole;

pub type Point = [i32; 2];
type Triangle = [Point; 3];

/// [a,b,c]: above zero where a, b, c turn left.
pub fn turn<W: Whole>(a: Point, b: Point, c: Point) -> W {
    let minus = |a: i32, b: i32| W::from(a) - W::from(b);
    minus(a[0], c[0]) * minus(b[1], c[1]) - minus(a[1], c[1]) * minus(b[0], c[0])
}

/// Whether c lies strictly right of the line from a to b.
fn right<W: Whole>(a: Point, b: Point, c: Point) -> bool {
    turn::<W>(a, b, c) < W::from(0)
}

fn in_left_order<W: Whole>([p, q, r]: Triangle) -> Triangle {
    if right::<W>(p, q, r) {
        [p, r, q]
    } else {
        [p, q, r]
    }
}

/// The first corner of the first triangle is sorted by its signs against the edges of the second,
/// and the second is turned so that the edges which that corner is strictly right of come last.
pub fn meet<W: Whole>(first: Triangle, second: Triangle) -> bool {
    let first = in_left_order::<W>(first);
    let [p, q, r] = in_left_order::<W>(second);
    let past = |a: Point, b: Point| right::<W>(a, b, first[0]);
    match [past(p, q), past(q, r), past(r, p)] {
        [false, false, false] => true,
        [false, false, true] => past_one::<W>(first, [p, q, r]),
        [true, false, false] => past_one::<W>(first, [q, r, p]),
        [false, true, false] => past_one::<W>(first, [r, p, q]),
        [false, true, true] => past_two::<W>(first, [p, q, r]),
        [true, false, true] => past_two::<W>(first, [q, r, p]),
        [true, true, false] => past_two::<W>(first, [r, p, q]),
        [true, true, true] => unreachable!("no point is right of every edge of a triangle in left-turn order"),
    }
}

/// p1 is strictly right of r2 to p2 only.
fn past_one<W: Whole>([p1, q1, r1]: Triangle, [p2, _, r2]: Triangle) -> bool {
    if right::<W>(r2, p2, q1) {
        return !right::<W>(r2, p2, r1) && !right::<W>(p1, p2, r1) && !right::<W>(q1, r1, r2);
    }
    if right::<W>(r2, p1, q1) {
        return false;
    }
    !right::<W>(p1, p2, q1) || contains_corner::<W>([p1, q1, r1], p2)
}

/// p1 is strictly right of q2 to r2 and of r2 to p2.
fn past_two<W: Whole>([p1, q1, r1]: Triangle, [p2, q2, r2]: Triangle) -> bool {
    if right::<W>(r2, p2, q1) {
        if right::<W>(r2, p2, r1) {
            return false;
        }
        if right::<W>(q1, r1, r2) {
            return !right::<W>(q1, r1, q2) && !right::<W>(q2, r2, r1);
        }
        return !right::<W>(r1, p1, p2);
    }
    if right::<W>(q2, r2, q1) {
        return !right::<W>(q2, p1, q1) && !right::<W>(q2, r2, r1) && !right::<W>(q1, r1, q2);
    }
    if right::<W>(p1, p2, q1) {
        return contains_corner::<W>([p1, q1, r1], p2);
    }
    !right::<W>(q2, p1, q1)
}

/// Whether p2 is in the first triangle, where it is known to be left of p1 to q1.
fn contains_corner<W: Whole>([p1, q1, r1]: Triangle, p2: Point) -> bool {
    !right::<W>(p1, p2, r1) && !right::<W>(q1, r1, p2)
}

/// Whether a segment, its ends equal or not, has a point in common with a triangle. Where it has none,
/// the line of one of the four edges, the segment's or a triangle's, has the other shape strictly on
/// one side, and of a triangle's on the right.
pub fn segment_meets<W: Whole>([p, q]: [Point; 2], triangle: Triangle) -> bool {
    let [a, b, c] = in_left_order::<W>(triangle);
    let beyond = |from: Point, to: Point| right::<W>(from, to, p) && right::<W>(from, to, q);
    let all_right = |from: Point, to: Point| [a, b, c].iter().all(|&corner| right::<W>(from, to, corner));
    let is_apart = beyond(a, b) || beyond(b, c) || beyond(c, a) || all_right(p, q) || all_right(q, p);
    !is_apart
}
