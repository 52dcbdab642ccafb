//! Four points of space, of which the fourth has an aimed determinant over the first three.

use super::stands::{far_point, weights_within, Stand, AIMS};
use super::HALVES;
use crate::geometry::estimate::Four;
use crate::random::Random;

/// Mostly near the plane; else anywhere, or as far away as there is room.
pub fn aimed_points(random: &mut Random) -> Four {
    loop {
        let half = random.pick(&HALVES);
        let stand = Stand::any(random, half);
        let point = match random.below(8) {
            0 => Some(far_point(random, half)),
            1 => Some(stand.farthest_point(random.pick(&[1, -1]))),
            _ => {
                let (aim, weights) = (random.pick(&AIMS), weights_within(random));
                stand.point(random, aim, weights)
            }
        };
        if let Some(point) = point {
            let [a, b, c] = stand.corners;
            return [a, b, c, point];
        }
    }
}
