//! Pairs of shapes whose verdict hangs on one aimed sign: a corner of one at the other's plane, with its other corners
//! on one side; or two edges that pass each other, each with the rest of its triangle on another side of both. And
//! pairs of one plane, where every sign is 0 and the estimates are not, and pairs at a thin layer.

use super::stands::{weights_beyond, weights_within, Aim, Stand, AIMS};
use super::HALVES;
use crate::answers::GRID;
use crate::geometry::by_signs::{hangs_on, orders_of, segment_meets, triangles_meet, Sides, ORDERS_OF_THREE};
use crate::geometry::estimate::{exact_sign, Four};
use crate::geometry::{Segment, Space, Triangle};
use crate::inputs::lattice::sum;
use crate::random::Random;

/// So many are made at one stand until the verdict on one hangs on the sign, and at so many stands.
const TRIES: usize = 8;
const STANDS: usize = 4;

/// What the aimed sign is of.
#[derive(Clone, Copy, PartialEq, Eq, PartialOrd, Ord, Debug)]
pub enum Way {
    /// A corner of the second and the plane of the first.
    Corner,
    /// An end of the second, which is a wire, and the plane of the first.
    WireEnd,
    /// An edge of each.
    Edges,
    /// Corners of the second and the plane of the first, each aimed by itself.
    Corners,
    /// The same, and all lie in that plane.
    OnePlane,
    /// Points of a sliver within a layer across an axis, and of a triangle that passes through the layer or ends in it,
    /// all by chance. Normals of such points may be too large for one word in one number alone.
    Layer,
}

const AT_STANDS: [Way; 9] = [
    Way::Corner,
    Way::Corner,
    Way::Corner,
    Way::Edges,
    Way::Edges,
    Way::Edges,
    Way::WireEnd,
    Way::Corners,
    Way::OnePlane,
];
/// One pair in so many is at a layer.
const LAYER_ONCE_IN: u64 = 8;

#[derive(Clone)]
pub struct AimedPair {
    pub first: Triangle,
    pub second: Triangle,
    /// The points whose sign was aimed at.
    pub four: Four,
    pub way: Way,
    /// Whether the verdict is another where that sign is.
    pub hangs: bool,
}

pub struct AimedSegment {
    pub segment: Segment,
    pub triangle: Triangle,
    pub four: Four,
}

impl AimedPair {
    pub fn any(random: &mut Random) -> AimedPair {
        if random.once_in(LAYER_ONCE_IN) {
            return AimedPair::at_layer(random);
        }
        let mut last = None;
        for tried in 1.. {
            let half = random.pick(&HALVES);
            let stand = Stand::any(random, half);
            last = AimedPair::at(random, &stand).or(last);
            if last.as_ref().is_some_and(|pair| pair.is_as_wanted() || tried >= STANDS) {
                break;
            }
        }
        last.expect("a pair at one of the stands")
    }

    /// One that hangs on the sign, where one is found soon. Of the first triangle there are four at most for a stand,
    /// the sides of its tetrahedron.
    pub fn at(random: &mut Random, stand: &Stand) -> Option<AimedPair> {
        let (way, aim) = (random.pick(&AT_STANDS), random.pick(&AIMS));
        let mut last = None;
        for _ in 0..TRIES {
            let Some(pair) = AimedPair::made(random, stand, way, aim) else {
                break;
            };
            if pair.is_as_wanted() {
                return Some(pair);
            }
            last = Some(pair);
        }
        last
    }

    fn is_as_wanted(&self) -> bool {
        self.hangs || self.way >= Way::Corners
    }

    fn made(random: &mut Random, stand: &Stand, way: Way, aim: Aim) -> Option<AimedPair> {
        let second = match way {
            Way::Edges => {
                let (first, second, four) = edges_at(random, stand, aim)?;
                return Some(AimedPair::of(first, second, four, way));
            }
            Way::Corner | Way::WireEnd => corner_at(random, stand, way, aim)?,
            _ => corners_at(random, stand, way)?,
        };
        let [a, b, c] = stand.corners;
        Some(AimedPair::of(stand.corners, second, [a, b, c, second[0]], way))
    }

    /// The first has an edge that is as short as it can be.
    fn at_layer(random: &mut Random) -> AimedPair {
        let (axis, half) = (random.index(3), random.pick(&[GRID / 2, GRID - 1]));
        let within = |random: &mut Random, half: i32, thickness: i32| -> Space {
            let mut point = [(); 3].map(|()| i128::from(random.between(-half, half)));
            point[axis] = random.between(-thickness, thickness).into();
            point
        };
        let [p, q, s] = [(); 3].map(|()| within(random, half, 1));
        let r = sum(p, within(random, 1, 1), 1);
        let thickness = random.pick(&[10, 100, 1 << 20, GRID]);
        let [t, u] = [(); 2].map(|()| within(random, half, thickness));
        let second = random.pick(&[[s, t, u], [s, t, p], [q, t, u], [p, t, u], [r, t, u]]);
        AimedPair::of([p, q, r], second, [p, q, s, t], Way::Layer)
    }

    fn of(first: Triangle, second: Triangle, four: Four, way: Way) -> AimedPair {
        let mut pair = AimedPair {
            first,
            second,
            four,
            way,
            hangs: false,
        };
        pair.hangs = match pair.way {
            Way::WireEnd => hangs_on(four, |side| segment_meets(&[second[0], second[1]], &first, side)),
            _ => hangs_on(four, |side| pair.verdict(side)),
        };
        pair
    }

    /// By these signs; nothing of a wire.
    pub fn verdict(&self, side: Sides) -> Option<bool> {
        triangles_meet(&self.first, &self.second, side)
    }

    /// With the corners of both in all orders, and the triangles in either.
    pub fn in_all_orders(&self) -> Vec<AimedPair> {
        let (firsts, seconds) = (orders_of(&self.first), orders_of(&self.second));
        let pairs = firsts
            .iter()
            .flat_map(|one| seconds.iter().map(move |other| (*one, *other)));
        let both = pairs.flat_map(|(one, other)| [(one, other), (other, one)]);
        let in_order = |(first, second)| AimedPair {
            first,
            second,
            ..self.clone()
        };
        both.map(in_order).collect()
    }
}

/// An aimed corner, and others on one side of the stand's plane: mostly on that of the corner, so that the triangle
/// just stays off the plane.
fn corner_at(random: &mut Random, stand: &Stand, way: Way, aim: Aim) -> Option<Triangle> {
    let weights = weights_within(random);
    let corner = stand.point(random, aim, weights)?;
    let [a, b, c] = stand.corners;
    let sign = match exact_sign([a, b, c, corner]) {
        0 => random.pick(&[1, -1]),
        sign => i128::from(sign) * random.pick(&[1, 1, 1, -1]),
    };
    let [one, other] = [stand.point_beside(random, sign)?, stand.point_beside(random, sign)?];
    Some([corner, one, if way == Way::WireEnd { corner } else { other }])
}

/// An edge of the stand with its apex, and one that leads from the corner off that edge to a point beyond it, with a
/// point on the other side than the apex. And the four ends of both edges.
fn edges_at(random: &mut Random, stand: &Stand, aim: Aim) -> Option<(Triangle, Triangle, Four)> {
    let (order, beyond) = (random.pick(&ORDERS_OF_THREE), weights_beyond(random));
    let mut weights = [0; 3];
    order
        .iter()
        .zip(beyond)
        .for_each(|(place, weight)| weights[*place] = weight);
    let [p, q, r] = order.map(|place| stand.corners[place]);
    let s = stand.point(random, aim, weights)?;
    let away = stand.point_beside(random, -stand.apex_sign)?;
    // The same edge always in one order, so that there are few different triangles.
    let [p, q] = [p.min(q), p.max(q)];
    Some(([p, q, stand.apex], [r, s, away], [p, q, r, s]))
}

fn corners_at(random: &mut Random, stand: &Stand, way: Way) -> Option<Triangle> {
    let mut corners = [[0; 3]; 3];
    for corner in &mut corners {
        let aim = match way {
            Way::OnePlane => Aim::Zero,
            _ => random.pick(&AIMS),
        };
        let weights = match random.below(3) {
            0 => weights_beyond(random),
            _ => weights_within(random),
        };
        *corner = stand.point(random, aim, weights)?;
    }
    Some(corners)
}

impl AimedSegment {
    pub fn any(random: &mut Random) -> AimedSegment {
        let pair = AimedPair::any(random);
        let [p, q, r] = pair.second;
        AimedSegment {
            segment: match pair.way {
                Way::Corner | Way::WireEnd | Way::Edges => [p, q],
                _ => random.pick(&[[p, q], [q, r], [p, r]]),
            },
            triangle: pair.first,
            four: pair.four,
        }
    }

    pub fn hangs(&self) -> bool {
        hangs_on(self.four, |side| self.verdict(side))
    }

    /// By these signs.
    pub fn verdict(&self, side: Sides) -> Option<bool> {
        segment_meets(&self.segment, &self.triangle, side)
    }

    pub fn in_all_orders(&self) -> Vec<AimedSegment> {
        let ([p, q], four) = (self.segment, self.four);
        let in_order = |segment: Segment| {
            move |triangle: Triangle| AimedSegment {
                segment,
                triangle,
                four,
            }
        };
        let orders = [[p, q], [q, p]].map(|segment| orders_of(&self.triangle).map(in_order(segment)));
        orders.into_iter().flatten().collect()
    }
}
