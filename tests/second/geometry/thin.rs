//! What a segment or a triangle of space really is: an area, a wire or a pin. A triangle whose corners lie on one line
//! is a wire, and where they are all equal a pin; a segment is a wire, and where its ends are equal a pin.
//!
//! With coordinates of at most 2^31 no number here is above 2^99 in size.

use super::{dot, is_zero, minus, product, steps, Segment, Space, Triangle, Whole};

/// Each has one dimension more than the one before.
#[derive(Clone, Copy, PartialEq, Eq, PartialOrd, Ord, Debug)]
pub enum Kind {
    Pin,
    Wire,
    Area,
}

pub fn kind_of<const N: usize>(corners: &[Space; N]) -> Kind {
    Core::of(corners).kind
}

/// Whether a segment (N = 2) or a triangle (N = 3) is less than it could be.
pub fn is_flat<const N: usize>(corners: &[Space; N]) -> bool {
    (kind_of(corners) as usize) < N - 1
}

/// All of a shape and nothing more: an area has three corners, a wire two ends, and a pin is one point.
pub struct Core<Number = i128> {
    kind: Kind,
    corners: Triangle<Number>,
    steps: [Space<Number>; 3],
    /// Across an area; zero for a wire or a pin.
    pub normal: Space<Number>,
}

impl<Number: Whole> Core<Number> {
    pub fn of<const N: usize>(corners: &[Space<Number>; N]) -> Core<Number> {
        let steps = steps(corners);
        let normal = product(steps[0], steps[1]);
        if is_zero(normal) {
            return Core::of_edge(longest_edge(corners), normal);
        }
        Core {
            kind: Kind::Area,
            corners: std::array::from_fn(|i| corners[i % N]),
            steps: std::array::from_fn(|i| steps[i % N]),
            normal,
        }
    }

    fn of_edge([from, to]: Segment<Number>, no_normal: Space<Number>) -> Core<Number> {
        let step = minus(to, from);
        Core {
            kind: if is_zero(step) { Kind::Pin } else { Kind::Wire },
            corners: [from, to, to],
            steps: [step; 3],
            normal: no_normal,
        }
    }

    pub fn corners(&self) -> &[Space<Number>] {
        &self.corners[..=self.kind as usize]
    }

    /// An area has three, a wire one, and a pin none.
    pub fn steps(&self) -> &[Space<Number>] {
        match self.kind {
            Kind::Pin => &[],
            Kind::Wire => &self.steps[..1],
            Kind::Area => &self.steps,
        }
    }
}

/// The longest edge. Of a wire or a pin it is all.
pub fn longest_edge<Number: Whole, const N: usize>(corners: &[Space<Number>; N]) -> Segment<Number> {
    let edge = |i: usize| [corners[i], corners[(i + 1) % N]];
    let square = |[p, q]: &Segment<Number>| dot(minus(*q, *p), minus(*q, *p));
    (1..N).map(edge).fold(edge(0), |longest, edge| {
        if square(&edge) > square(&longest) {
            edge
        } else {
            longest
        }
    })
}

/// Whether two shapes together are a point, or lie on one line, in one plane or in space only: 0, 1, 2 or 3.
pub fn span_of(first: &[Space], second: &[Space]) -> usize {
    let corners = first.iter().chain(second);
    let steps: Vec<Space> = corners.map(|corner| minus(*corner, first[0])).collect();
    dimensions_of(&steps)
}

/// How many dimensions all that has to which the steps lead, in whatever order and however often each is taken.
fn dimensions_of(steps: &[Space]) -> usize {
    let Some(along) = steps.iter().find(|step| !is_zero(**step)) else {
        return 0;
    };
    let mut products = steps.iter().map(|step| product(*along, *step));
    let Some(normal) = products.find(|product| !is_zero(*product)) else {
        return 1;
    };
    2 + usize::from(steps.iter().any(|step| dot(normal, *step) != 0))
}
