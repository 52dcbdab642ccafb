//! Two shapes by separating axes, in the plane and in space. This looks for a direction in which the shapes are apart.
//!
//! The shadow of a shape on an axis is the interval of its corners' products with the axis. Where two shadows are
//! apart, so are the shapes. The other way, the differences of a point of one shape and a point of the other are a
//! polytope, of which 0 is no point when the shapes are apart; then 0 is beyond one of its facets, or the polytope
//! lies in a plane that 0 isn't in. The axes named below include one across each facet, and one across that plane.
//! Shapes that touch, at a corner or along an edge, have no axis on which the shadows are apart: no case of its own.
//! No other axis can do harm, so the coordinates, on which shadows are found soonest, come before them.

use super::thin::Core;
use super::{dot, is_zero, product, steps, Flat, FlatTriangle, Point, Space, Triangle, Whole};

#[derive(Clone, Copy, PartialEq, Eq, PartialOrd, Ord, Debug)]
pub enum Overlap {
    Apart,
    /// A common point, but none that is inner to both shapes (not on the border of either, nor at a segment's end). A
    /// single point is inner to itself.
    BorderOnly,
    InnerPoints,
}

/// The differences of two triangles of the plane have facets that each go along an edge of one of them. So an axis
/// across each edge is enough. Steps are at most 2^31 in size, so no shadow goes beyond 2^62, which 64 bits hold too.
pub fn flat_overlap<Number: Whole>(first: &FlatTriangle<Number>, second: &FlatTriangle<Number>) -> Overlap {
    let across = |[x, y]: Flat<Number>| [-y, x];
    let all_steps = steps(first).into_iter().chain(steps(second));
    let mut shadows = Shadows::of(first, second);
    let met = shadows.meet_along_coordinates() && shadows.meet_on(all_steps.map(across));
    shadows.overlap_where(met)
}

/// No coordinate of a narrow shape is above this in size.
pub const NARROW: i32 = 1 << 14;

/// The same for a segment (N = 2) or a triangle (N = 3) and a triangle of space, which may be flat.
///
/// Steps are at most 2^31 in size, their products 2^63 and those of a product and a step 2^95, so a shadow is at most
/// 3 * 2^125, below 2^127. Of narrow shapes these are 2^15, 2^31, 2^47 and 3 * 2^61, below 2^63, so that 64 bits have
/// room.
pub fn overlap<Number: Whole, const N: usize>(first: &[Space<Number>; N], second: &Triangle<Number>) -> Overlap {
    let (first, second) = (Core::of(first), Core::of(second));
    let mut shadows = Shadows::of(first.corners(), second.corners());
    let met = shadows.meet_along_coordinates()
        && shadows.meet_on(products(&first, &second))
        && meet_within_a_plane(&mut shadows, &first, &second);
    shadows.overlap_where(met)
}

/// Across each two steps.
///
/// Each edge of the differences goes along a step of one of the shapes, of which a wire has a single one and a pin has
/// none. Where the differences fill space, each facet is parallel to an area, whose normal is across it; or it is
/// spanned by a step of each shape, and the product of both is across it. Where they lie in one plane, and not on one
/// line, one of these axes is across that plane. An axis of zero, which parallel steps give and the normal of a wire
/// is, tells nothing: all shadows on it are 0.
fn products<'a, Number: Whole>(
    first: &'a Core<Number>,
    second: &'a Core<Number>,
) -> impl Iterator<Item = Space<Number>> + 'a {
    let of_both = first.steps().iter();
    let of_both = of_both.flat_map(|step| second.steps().iter().map(|other| product(*step, *other)));
    [second.normal, first.normal].into_iter().chain(of_both)
}

/// On the axes for differences that don't fill space, where they don't.
///
/// Where they lie in one plane, and not on one line, some product of two steps is across it; each facet goes along a
/// step, and the product of that product and the step is across it. Where they lie on one line, along a step, the step
/// is an axis, and the products of the step with the axes of space tell each point off the line from those on it. Where
/// they are one point, the coordinates have told it from 0.
fn meet_within_a_plane<Number: Whole>(
    shadows: &mut Shadows<Number, 3>,
    first: &Core<Number>,
    second: &Core<Number>,
) -> bool {
    let mut all_steps = first.steps().iter().chain(second.steps()).copied();
    let Some(normal) = products(first, second).find(|product| !is_zero(*product)) else {
        let [one, zero] = [1, 0].map(Number::from);
        let axes_of_space = [[one, zero, zero], [zero, one, zero], [zero, zero, one]];
        return all_steps.all(|step| {
            let off_line = axes_of_space.map(|axis| product(step, axis));
            shadows.meet_on(off_line.into_iter().chain([step]))
        });
    };
    let is_within = |step: Space<Number>| dot(normal, step) == Number::from(0);
    !all_steps.clone().all(is_within) || shadows.meet_on(all_steps.map(|step| product(normal, step)))
}

/// What the shadows of two shapes say, on the axes looked at so far: one axis where they are apart is enough. Shadows
/// that only touch, and aren't one and the same point, leave only border points in common; where the shapes share only
/// such, a facet shows it as above.
struct Shadows<'a, Number, const D: usize> {
    first: &'a [Point<D, Number>],
    second: &'a [Point<D, Number>],
    only_touch: bool,
}

impl<'a, Number: Whole, const D: usize> Shadows<'a, Number, D> {
    fn of(first: &'a [Point<D, Number>], second: &'a [Point<D, Number>]) -> Shadows<'a, Number, D> {
        Shadows {
            first,
            second,
            only_touch: false,
        }
    }

    /// Whether they meet on each coordinate.
    fn meet_along_coordinates(&mut self) -> bool {
        (0..D).all(|k| self.meet_by(|corner| corner[k]))
    }

    /// Whether they meet on each of these axes.
    fn meet_on(&mut self, mut axes: impl Iterator<Item = Point<D, Number>>) -> bool {
        axes.all(|axis| self.meet_by(|corner| dot(corner, axis)))
    }

    /// Whether they meet on the axis on which each point has this place.
    fn meet_by(&mut self, place: impl Fn(Point<D, Number>) -> Number) -> bool {
        let (low, high) = shadow(self.first, &place);
        let (other_low, other_high) = shadow(self.second, &place);
        let touch = high == other_low || other_high == low;
        self.only_touch |= touch && (low, other_low) != (high, other_high);
        low <= other_high && other_low <= high
    }

    fn overlap_where(&self, met: bool) -> Overlap {
        match (met, self.only_touch) {
            (false, _) => Overlap::Apart,
            (true, true) => Overlap::BorderOnly,
            (true, false) => Overlap::InnerPoints,
        }
    }
}

fn shadow<Number: Whole, const D: usize>(
    corners: &[Point<D, Number>],
    place: impl Fn(Point<D, Number>) -> Number,
) -> (Number, Number) {
    let start = place(corners[0]);
    let others = corners[1..].iter().map(|corner| place(*corner));
    others.fold((start, start), |(low, high), place| (low.min(place), high.max(place)))
}
