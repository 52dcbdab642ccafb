//! What a question of parts can meet: skins that meet, open shells, a part swallowed by another, and the rays from
//! corners that take care to count.

use super::cases::Met;
use crate::answers::clashes::triangles_of;
use crate::answers::plate::Step;
use crate::answers::shells::{corners_of, PartsFindings};
use crate::answers::GRID;
use crate::geometry::rays::crosses;
use crate::geometry::signs::shadow_turn;
use crate::geometry::{Space, Triangle};

/// The cases, and then the finer ones.
pub fn shell_cases(step: &Step) -> [Met; 2] {
    let Some(parts) = &step.parts else {
        let [names, finer_names] = [&CASES[..], &FINER_CASES];
        return [names, finer_names].map(|names| names.iter().map(|name| (*name, false)).collect());
    };
    let triangles = parts.parts.map(|part| triangles_of(&step.before, part));
    let rays = if parts.is_asked() {
        Rays::of(&triangles)
    } else {
        Rays::default()
    };
    [
        CASES.into_iter().zip(met_cases(parts, &triangles, &rays)).collect(),
        FINER_CASES
            .into_iter()
            .zip(met_finer_cases(parts, &triangles, &rays))
            .collect(),
    ]
}

const CASES: [&str; 12] = [
    "parts with skins meeting",
    "parts with skins meeting and an open shell",
    "a part against itself with a closed shell",
    "a part against itself with an open shell",
    "closed parts clear of each other",
    "a part swallowed: the first in the second",
    "a part swallowed: the second in the first",
    "a part swallowed at the end of the grid",
    "a ray through an edge or a corner, of parts clear of each other",
    "a ray through an edge or a corner, of a part swallowed",
    "a ray along an upright triangle",
    "a corner outside with two triangles ahead or more",
];

fn met_cases(parts: &PartsFindings, triangles: &[Vec<Triangle>; 2], rays: &Rays) -> [bool; 12] {
    let is_itself = parts.parts[0] == parts.parts[1];
    let is_open = parts.open.contains(&true);
    let swallowed = parts.inside.each_ref().map(|corners| corners.contains(&true));
    let is_swallowed = swallowed.contains(&true);
    let is_clear = parts.is_asked() && !is_swallowed;
    let mut numbers = triangles.iter().flatten().flatten().flatten();
    [
        parts.skins_meet,
        parts.skins_meet && is_open,
        is_itself && !is_open,
        is_itself && is_open,
        is_clear,
        swallowed[0],
        swallowed[1],
        is_swallowed && numbers.any(|number| number.abs() == i128::from(GRID)),
        is_clear && rays.meets_border,
        is_swallowed && rays.meets_border,
        rays.runs_along,
        is_clear && rays.most_crossed >= 2,
    ]
}

const FINER_CASES: [&str; 3] = [
    "a part swallowed without its first corner",
    "a part swallowed without its last corner",
    "a corner inside with three triangles ahead or more",
];

fn met_finer_cases(parts: &PartsFindings, triangles: &[Vec<Triangle>; 2], rays: &Rays) -> [bool; 3] {
    let is_without = |side: usize, corner: Option<&Space>| {
        let inside = &parts.inside[side];
        let mut corners = corners_of(&triangles[side]).into_iter().zip(inside);
        inside.contains(&true) && corners.any(|(at, is_inside)| Some(&at) == corner && !is_inside)
    };
    let corners = |side: usize| triangles[side].iter().flatten();
    [
        (0..2).any(|side| is_without(side, corners(side).next())),
        (0..2).any(|side| is_without(side, corners(side).last())),
        parts.is_asked() && parts.value() == 1 && rays.most_crossed >= 3,
    ]
}

/// What the rays in the +x direction meet, from all corners of two parts.
#[derive(Default)]
struct Rays {
    meets_border: bool,
    runs_along: bool,
    /// The most triangles that one of them crosses.
    most_crossed: usize,
}

impl Rays {
    fn of([p, q]: &[Vec<Triangle>; 2]) -> Rays {
        let mut rays = Rays::default();
        for (triangles, other) in [(p, q), (q, p)] {
            for corner in corners_of(triangles) {
                rays.note(corner, other);
            }
        }
        rays
    }

    fn note(&mut self, corner: Space, triangles: &[Triangle]) {
        let mut crossed = 0;
        for triangle in triangles {
            let is_beyond = triangle.iter().all(|[x, ..]| *x > corner[0]);
            match crosses(corner, [1, 0, 0], triangle) {
                Some(times) => crossed += times,
                None if shadow_turn(triangle, 0) == 0 => self.runs_along |= is_beyond,
                None => self.meets_border |= is_beyond,
            }
        }
        self.most_crossed = self.most_crossed.max(crossed);
    }
}
