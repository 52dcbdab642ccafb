//! Triangles whose boxes all overlap, so that no pair is told apart by its boxes: some that cross each
//! other, and layers of which no two meet.

use super::{box_list, List};
use crate::ordinary::listing::MOST_TRIANGLES;
use crate::ordinary::NARROW;
use crate::random::Random;

/// The corners of a layer lie around these, seen along z, each coordinate at most SIDEWAYS off.
const LAYER_CORNERS: [[i32; 2]; 3] = [[-200_000, -200_000], [200_000, 0], [0, 200_000]];
const SIDEWAYS: i32 = 40_000;
/// A layer lies so much above the one before, and its corners at most BUMP above or below its plane. Twice
/// that is less than a step, so that each layer keeps to itself.
const STEP: i32 = 8;
const BUMP: i32 = 3;

/// A triangle anywhere within NARROW whose box holds the middle of the grid.
pub fn crossing_triangle(random: &mut Random) -> List {
    loop {
        let list = box_list(random, -NARROW, NARROW);
        if holds_middle(&list) {
            return list;
        }
    }
}

/// Whether the box of a triangle holds the middle of the grid.
fn holds_middle(list: &List) -> bool {
    (0..3).all(|axis| {
        let numbers = || list[axis..].iter().step_by(3);
        numbers().any(|&number| number <= 0) && numbers().any(|&number| number >= 0)
    })
}

/// Two lists of layers, which lie above each other by turns. Their planes are z = x + y + height but for
/// the bumps: tilted so much that each box holds the middle of the grid, whatever the height.
pub fn layers(seed: u64) -> [Vec<i32>; 2] {
    let mut random = Random::new(seed, 0);
    let mut lists = [Vec::new(), Vec::new()];
    for layer in 0..2 * MOST_TRIANGLES {
        let corners = LAYER_CORNERS.map(|corner| layer_corner(&mut random, corner, STEP * layer as i32));
        lists[layer % 2].extend(corners.as_flattened());
    }
    lists
}

fn layer_corner(random: &mut Random, corner: [i32; 2], height: i32) -> [i32; 3] {
    let [x, y] = corner.map(|number| number + random.between(-SIDEWAYS, SIDEWAYS));
    [x, y, x + y + height + random.between(-BUMP, BUMP)]
}
