//! Two triangles of space, and a segment and a triangle, judged by the signs of sides alone, whatever finds the signs:
//! so the verdict can be had of a library that gets some signs wrong, or with one sign put in the place of another.
//!
//! Of two triangles the corners of each are asked for their sides of the other's plane, then two signs of edges that
//! pass each other. This is one more way to the verdict, and with exact signs it must agree with the others.

use super::estimate::{exact_sign, Four};
use super::{Segment, Space, Triangle};

/// Tells on which side of the plane of the first three points the fourth lies: -1, 0 or 1.
pub type Sides<'a> = &'a dyn Fn(Four) -> i8;

/// Nothing where by these signs all corners of a shape lie in the other's plane, as those of a flat one seem to; then
/// signs in space don't tell.
pub fn triangles_meet(first: &Triangle, second: &Triangle, side: Sides) -> Option<bool> {
    let first_sides = sides_over(first, second, side);
    if is_beside(&first_sides) {
        return Some(false);
    }
    let second_sides = sides_over(second, first, side);
    if is_beside(&second_sides) {
        return Some(false);
    }
    let (lone, other_lone) = (Lone::of(first_sides)?, Lone::of(second_sides)?);
    // Each now has a corner of its own on the upper side of the other's plane, and the others on the lower one.
    let [p, q, r] = lone.put_first(first, other_lone.is_above);
    let [s, t, u] = other_lone.put_first(second, lone.is_above);
    Some(side([p, q, s, t]) <= 0 && side([p, r, u, s]) <= 0)
}

fn sides_over(corners: &Triangle, [a, b, c]: &Triangle, side: Sides) -> [i8; 3] {
    corners.map(|corner| side([*a, *b, *c, corner]))
}

fn is_beside(sides: &[i8]) -> bool {
    sides[0] != 0 && sides.iter().all(|side| *side == sides[0])
}

/// The corner that is alone on its side of a plane, that side and the plane itself taken together or the other way.
struct Lone {
    corner: usize,
    is_above: bool,
}

impl Lone {
    /// Nothing where all are on the plane. The sides must not be all above it or all below.
    fn of(sides: [i8; 3]) -> Option<Lone> {
        let others = |corner: usize| [sides[(corner + 1) % 3], sides[(corner + 2) % 3]];
        let alone = |own: fn(i8) -> bool, other: fn(i8) -> bool| {
            (0..3).find(|corner| own(sides[*corner]) && others(*corner).into_iter().all(other))
        };
        let above = alone(|side| side > 0, |side| side <= 0).or(alone(|side| side == 0, |side| side < 0));
        let below = alone(|side| side < 0, |side| side >= 0).or(alone(|side| side == 0, |side| side > 0));
        let lone = |is_above: bool| move |corner: usize| Lone { corner, is_above };
        above.map(lone(true)).or(below.map(lone(false)))
    }

    /// The other two in their order, or swapped to turn the plane over.
    fn put_first(&self, triangle: &Triangle, in_order: bool) -> Triangle {
        let [p, q, r] = [0, 1, 2].map(|k| triangle[(self.corner + k) % 3]);
        if in_order {
            [p, q, r]
        } else {
            [p, r, q]
        }
    }
}

/// Nothing where by these signs the segment lies in the triangle's plane.
pub fn segment_meets([p, q]: &Segment, [a, b, c]: &Triangle, side: Sides) -> Option<bool> {
    match [p, q].map(|end| side([*a, *b, *c, *end])) {
        [0, 0] => return None,
        [one, other] if one == other => return Some(false),
        _ => {}
    }
    let past = [[a, b], [b, c], [c, a]].map(|[from, to]| side([*p, *q, *from, *to]));
    Some(past.iter().all(|side| *side >= 0) || past.iter().all(|side| *side <= 0))
}

/// The exact signs, but for four points in whatever order.
pub fn with_sign(four: Four, sign: i8) -> impl Fn(Four) -> i8 {
    move |asked: Four| match turn_between(four, asked) {
        Some(turn) => turn * sign,
        None => exact_sign(asked),
    }
}

/// 1 where the same points stand in an order that an even number of swaps makes, -1 where an odd one does; nothing
/// where they are other points.
fn turn_between(four: Four, mut asked: Four) -> Option<i8> {
    let mut turn = 1;
    for (place, point) in four.iter().enumerate() {
        let found = (place..4).find(|k| asked[*k] == *point)?;
        if found != place {
            asked.swap(place, found);
            turn = -turn;
        }
    }
    Some(turn)
}

/// Whether a verdict is yes with one sign of the four points and no with another.
pub fn hangs_on(four: Four, verdict: impl Fn(Sides) -> Option<bool>) -> bool {
    let verdicts = [-1, 0, 1].map(|sign| verdict(&with_sign(four, sign)));
    [true, false].iter().all(|wanted| verdicts.contains(&Some(*wanted)))
}

/// All orders of three things, by their places.
pub const ORDERS_OF_THREE: [[usize; 3]; 6] = [[0, 1, 2], [1, 2, 0], [2, 0, 1], [0, 2, 1], [2, 1, 0], [1, 0, 2]];

pub fn orders_of(triangle: &Triangle) -> [Triangle; 6] {
    ORDERS_OF_THREE.map(|order| order.map(|place| triangle[place]))
}

/// All 24 orders of four points.
pub fn orders_of_four(four: Four) -> Vec<Four> {
    let with_last = |last: usize| -> Vec<Four> {
        let others: Vec<Space> = (0..4).filter(|place| *place != last).map(|place| four[place]).collect();
        let orders = orders_of(&[others[0], others[1], others[2]]).into_iter();
        orders.map(|[a, b, c]| [a, b, c, four[last]]).collect()
    };
    (0..4).flat_map(with_last).collect()
}
