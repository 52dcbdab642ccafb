//! Scenes of parts that are closed shells, or nearly: one swallowed by another, in its hollow, beside it in line with
//! it, or touching; several shells in one part; on tiny grids, where a ray from a corner runs through corners and edges
//! and along walls, and spread from there to the ends of the grid.

use super::measured::tetrahedra_at_wall;
use super::solids::{any_solid, block, is_sound, large_solid, tetrahedron_of, turned, Bounds, Facet, Shell, Vertex};
use crate::answers::plate::SLOTS;
use crate::answers::GRID;
use crate::random::Random;
use std::collections::HashMap;

/// All triangles of a part.
pub type Body = Vec<Facet>;

/// Two bodies or more, with no more triangles than there are slots.
pub fn any_scene(random: &mut Random, tiny: bool) -> Vec<Body> {
    let mut bodies = loop {
        let bodies = small_or_vast_scene(random, tiny);
        if bodies.iter().flatten().count() <= SLOTS {
            break bodies;
        }
    };
    if random.once_in(8) {
        let number = random.index(bodies.len());
        spoil(random, &mut bodies[number]);
    }
    let facets = bodies.iter_mut().flatten();
    facets.for_each(|facet| *facet = turned(*facet, random.index(3)));
    bodies
}

fn small_or_vast_scene(random: &mut Random, tiny: bool) -> Vec<Body> {
    if tiny {
        let bodies = small_scene(random);
        return with_axes_turned(random, bodies);
    }
    let bodies = match random.below(10) {
        0 => pins_in_vast_block(random),
        1 => pin_at_slanted_wall(random),
        2..=4 => {
            let bodies = small_scene(random);
            spread(random, bodies)
        }
        _ => small_scene(random),
    };
    with_axes_turned(random, bodies)
}

fn small_scene(random: &mut Random) -> Vec<Body> {
    match random.below(16) {
        0..=3 => swallowed(random),
        4..=7 => hollow(random),
        8 => dolls(random),
        9..=12 => in_line(random),
        13..=14 => several_in_one(random),
        _ => loose(random),
    }
}

fn cube(low: i32, high: i32) -> Bounds {
    [[low; 3], [high; 3]]
}

/// The shells as one part, each with its triangles facing out or in.
fn body(random: &mut Random, shells: Vec<Shell>) -> Body {
    let mut body = Body::new();
    for shell in shells {
        let is_turned = random.once_in(2);
        let facing = |[a, b, c]: Facet| if is_turned { [a, c, b] } else { [a, b, c] };
        body.extend(shell.into_iter().map(facing));
    }
    body
}

/// Each shell a part of its own.
fn bodies_of(random: &mut Random, shells: Vec<Shell>) -> Vec<Body> {
    shells.into_iter().map(|shell| body(random, vec![shell])).collect()
}

// ---- Small scenes ----

/// A shell where a large one has its inner points, mostly; and a second such one, or one outside and of the same part.
fn swallowed(random: &mut Random) -> Vec<Body> {
    let size = random.between(3, 8);
    let within = cube(1, size - 1);
    let shells = vec![large_solid(random, cube(0, size)), any_solid(random, within)];
    let mut bodies = bodies_of(random, shells);
    match random.below(4) {
        0 => bodies.push(any_solid(random, within)),
        1..=2 => add_one_outside(random, &mut bodies[1], size),
        _ => {}
    }
    bodies
}

/// A shell below or above all shells of that size, along any axis.
fn add_one_outside(random: &mut Random, body: &mut Body, size: i32) {
    let axis = random.index(3);
    let mut bounds = cube(0, size);
    (bounds[0][axis], bounds[1][axis]) = random.pick(&[(-3, -1), (size + 1, size + 4)]);
    body.extend(any_solid(random, bounds));
}

/// A block with a hollow, and a pin in the hollow, in what is around it, or in both.
fn hollow(random: &mut Random) -> Vec<Body> {
    let (size, axis) = (random.between(5, 8), random.pick(&[0, 0, 1, 2]));
    let [mut around, mut within] = [cube(1, size - 1), cube(2, size - 2)];
    let mut inner = around;
    let is_thick = random.below(4) > 0;
    if is_thick {
        (inner[0][axis], within[0][axis], around[1][axis]) = (3, 4, 2);
    }
    let skins = [cube(0, size), inner].map(|bounds| block(random, bounds));
    let mut bodies = vec![body(random, skins.to_vec())];
    if is_thick {
        bodies.push(any_solid(random, around));
    }
    if within[0][axis] < within[1][axis] && (!is_thick || random.once_in(2)) {
        bodies.push(any_solid(random, within));
    }
    bodies
}

/// Blocks one in another; neighbours need not be of different parts.
fn dolls(random: &mut Random) -> Vec<Body> {
    let dolls = random.between(3, 5);
    let mut bodies = vec![Vec::new(); 2 + random.index(2)];
    for (k, doll) in (0..dolls).enumerate() {
        let shell = block(random, cube(doll, 2 * dolls - 1 - doll));
        let number = if k < bodies.len() {
            k
        } else {
            random.index(bodies.len())
        };
        bodies[number].extend(body(random, vec![shell]));
    }
    bodies
}

/// Shells beside each other along x, with the same few values of y and z; some touch.
fn in_line(random: &mut Random) -> Vec<Body> {
    let (size, gap) = (random.pick(&[1, 2, 2, 3, 4, 5]), random.pick(&[0, 1, 1, 1, 1, 2]));
    let shells = (0..2 + random.between(0, 1)).map(|k| {
        let start = k * (size + gap);
        let bounds = [[start, 0, 0], [start + size, size, size]];
        if random.once_in(2) {
            any_solid(random, bounds)
        } else {
            large_solid(random, bounds)
        }
    });
    let shells = shells.collect();
    bodies_of(random, shells)
}

/// Two shells in one part: apart, with a common corner, a common edge or a common side, or crossing each other. Another
/// part is in one of them, or anywhere.
fn several_in_one(random: &mut Random) -> Vec<Body> {
    let size = random.between(3, 5);
    let low = match random.below(6) {
        0..=1 => [size + 1, random.between(-1, 1), 0],
        2 => [size; 3],
        3 => [size, size, 0],
        4 => [size, 0, 0],
        _ => [random.between(1, size), 1, random.between(-1, 1)],
    };
    let beside: Bounds = [low, low.map(|n| n + size)];
    let other = if random.once_in(3) {
        any_solid(random, beside)
    } else {
        block(random, beside)
    };
    let shells = vec![block(random, cube(0, size)), other];
    let mut bodies = vec![body(random, shells)];
    for _ in 0..1 + random.index(2) {
        let bounds = match random.below(4) {
            0 => cube(1, size - 1),
            1 => [low.map(|n| n + 1), low.map(|n| n + size - 1)],
            2 => [[-2; 3], [0, size, size]],
            _ => cube(-1, 2 * size + 1),
        };
        bodies.push(any_solid(random, bounds));
    }
    if random.once_in(2) {
        add_one_outside(random, &mut bodies[1], 2 * size + 1);
    }
    bodies
}

/// Up to four shells on a few places, most of which meet.
fn loose(random: &mut Random) -> Vec<Body> {
    let size = random.pick(&[2, 3, 4, 8, 8]);
    let bodies = 2 + random.index(3);
    let shells = (0..bodies).map(|_| any_solid(random, cube(0, size))).collect();
    bodies_of(random, shells)
}

// ---- On the whole grid ----

/// A block of any size up to that of the grid, and small pins anywhere in it, or close to a wall, an edge or a corner.
fn pins_in_vast_block(random: &mut Random) -> Vec<Body> {
    let low = [0; 3].map(|_| random.pick(&[-GRID, -GRID, 1 - GRID, -100_000, -2_000_000]));
    let high = [0; 3].map(|_| random.pick(&[GRID, GRID, GRID - 1, 100_003, 2_000_003]));
    let mut shells = vec![block(random, [low, high])];
    for _ in 0..1 + random.index(3) {
        let size = random.pick(&[1, 2, 3, 1_000]);
        let start = std::array::from_fn(|k| {
            let any = random.between(low[k] + 1, high[k] - size - 1);
            random.pick(&[low[k] + 1, high[k] - size - 1, any, any])
        });
        shells.push(any_solid(random, [start, start.map(|n| n + size)]));
    }
    bodies_of(random, shells)
}

/// A vast tetrahedron, and a small one with its tip in a wall of it, or as near to the wall as a whole point can be.
fn pin_at_slanted_wall(random: &mut Random) -> Vec<Body> {
    loop {
        let shells = tetrahedra_at_wall(random).map(tetrahedron_of);
        if shells.iter().all(|shell| is_sound(shell)) {
            return bodies_of(random, shells.to_vec());
        }
    }
}

/// The scene made large or moved far: to the ends of the grid, or anywhere on it.
fn spread(random: &mut Random, bodies: Vec<Body>) -> Vec<Body> {
    let coordinates = |axis: usize| {
        bodies
            .iter()
            .flatten()
            .flatten()
            .map(move |corner| i64::from(corner[axis]))
    };
    let low: [i64; 3] = [0, 1, 2].map(|axis| coordinates(axis).min().unwrap_or(0));
    let high: [i64; 3] = [0, 1, 2].map(|axis| coordinates(axis).max().unwrap_or(1));
    let (grid, way) = (i64::from(GRID), random.below(4));
    let ends: [[i64; 2]; 3] = std::array::from_fn(|k| {
        let extent = match way {
            0 => high[k] - low[k],
            1 => i64::from(random.between(100, GRID)),
            _ => 2 * grid,
        };
        let start = i64::from(random.between(-GRID, (grid - extent) as i32));
        let start = random.pick(&[-grid, grid - extent, start]);
        [start, start + extent]
    });
    let placed = |n: i64, k: usize| ends[k][0] + (n - low[k]) * (ends[k][1] - ends[k][0]) / (high[k] - low[k]).max(1);
    let bodies = with_corners(bodies, |corner| {
        std::array::from_fn(|k| placed(i64::from(corner[k]), k) as i32)
    });
    if way == 3 {
        jiggled(random, bodies)
    } else {
        bodies
    }
}

/// Each corner moved a little, the same one always in the same way.
fn jiggled(random: &mut Random, bodies: Vec<Body>) -> Vec<Body> {
    let most = random.pick(&[1, 3, 1_000]);
    let mut moved: HashMap<Vertex, Vertex> = HashMap::new();
    for corner in bodies.iter().flatten().flatten() {
        let nearby = corner.map(|n| (n + random.between(-most, most)).clamp(-GRID, GRID));
        moved.entry(*corner).or_insert(nearby);
    }
    with_corners(bodies, |corner| moved[&corner])
}

/// The axes in another order, and some of them the other way round.
fn with_axes_turned(random: &mut Random, bodies: Vec<Body>) -> Vec<Body> {
    let (turns, ways) = (random.pick(&[0, 0, 1, 2]), [0; 3].map(|_| random.pick(&[1, 1, -1])));
    with_corners(bodies, |corner| {
        std::array::from_fn(|k| ways[k] * corner[(k + turns) % 3])
    })
}

fn with_corners(mut bodies: Vec<Body>, place: impl Fn(Vertex) -> Vertex) -> Vec<Body> {
    let facets = bodies.iter_mut().flatten();
    facets.for_each(|facet| *facet = facet.map(&place));
    bodies
}

// ---- Faults ----

/// A triangle is missing, turned round or there twice, or has a corner elsewhere.
fn spoil(random: &mut Random, body: &mut Body) {
    let number = random.index(body.len());
    match random.below(4) {
        0 => {
            body.swap_remove(number);
        }
        1 => body[number].swap(0, 1),
        2 if body.len() < SLOTS / 2 => body.push(body[number]),
        _ => {
            let (corner, axis) = (random.index(3), random.index(3));
            let moved = body[number][corner][axis] + random.pick(&[-1, 1]);
            body[number][corner][axis] = moved.clamp(-GRID, GRID);
        }
    }
}
