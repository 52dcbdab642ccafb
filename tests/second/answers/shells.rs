//! How two parts of a plate lie to each other, as request Q-4 of document 02 asks it: whether a shell is open, and
//! which corners of one part are inside the other; each by two methods.

use super::plate::SHELL_IS_OPEN;
use super::{Answer, Triangle};
use crate::geometry::{ahead, edges_of, rays, Segment, Space};
use std::collections::{BTreeSet, HashMap};

/// What Parts has to know of two parts that are on the plate, by one of the methods. Of two things the first is of p,
/// the second of q.
pub struct PartsFindings {
    pub parts: [u32; 2],
    /// No for a part against itself.
    pub skins_meet: bool,
    pub open: [bool; 2],
    /// Of each corner of p whether it is inside q, and of each of q whether it is inside p. Of none where that isn't
    /// asked: of a part against itself, where the skins meet, and where a shell is open.
    pub inside: [Vec<bool>; 2],
}

/// The two questions that each method answers in its own way.
struct Method {
    is_open: fn(&[Triangle]) -> bool,
    is_inside: fn(Space, &[Triangle]) -> bool,
}

const METHODS: [Method; 2] = [
    Method {
        is_open: is_open_by_counting,
        is_inside: ahead::is_odd_number_ahead,
    },
    Method {
        is_open: is_open_by_sorting,
        is_inside: rays::is_inside,
    },
];

/// By either method, from the triangles of each part and from what either method says of the skins.
pub fn findings(parts: [u32; 2], triangles: [&[Triangle]; 2], skins_meet: [bool; 2]) -> [PartsFindings; 2] {
    [0, 1].map(|k| METHODS[k].findings(parts, triangles, skins_meet[k]))
}

impl Method {
    fn findings(&self, parts: [u32; 2], [p, q]: [&[Triangle]; 2], skins_meet: bool) -> PartsFindings {
        let open = [p, q].map(self.is_open);
        let is_asked = parts[0] != parts[1] && !skins_meet && open == [false; 2];
        let inside = |one: &[Triangle], other: &[Triangle]| {
            let corners = if is_asked { corners_of(one) } else { BTreeSet::new() };
            let is_inside = |corner: Space| (self.is_inside)(corner, other);
            corners.into_iter().map(is_inside).collect()
        };
        PartsFindings {
            parts,
            skins_meet,
            open,
            inside: [inside(p, q), inside(q, p)],
        }
    }
}

impl PartsFindings {
    /// Whether corners had to be looked at.
    pub fn is_asked(&self) -> bool {
        self.inside != [vec![], vec![]]
    }

    /// What is left to refuse of parts that are there: a shell that is open, where it matters.
    pub fn faults(&self) -> Vec<Answer> {
        let [p, q] = self.parts;
        if p == q || self.skins_meet {
            return Vec::new();
        }
        let sides = (0..).zip(self.parts).zip(self.open);
        sides
            .filter(|(_, is_open)| *is_open)
            .map(|((side, part), _)| Answer::refused(SHELL_IS_OPEN, side, u64::from(part)))
            .collect()
    }

    /// Whether the parts clash, 0 or 1, where nothing is refused. A part doesn't clash with itself.
    pub fn value(&self) -> u64 {
        u64::from(self.skins_meet || self.inside.concat().contains(&true))
    }
}

pub fn corners_of(triangles: &[Triangle]) -> BTreeSet<Space> {
    triangles.iter().flatten().copied().collect()
}

// ---- Open shells ----

fn directed_edges(triangles: &[Triangle]) -> impl Iterator<Item = Segment> + '_ {
    triangles.iter().flat_map(edges_of)
}

/// Each edge must have been seen once, and once the other way.
fn is_open_by_counting(triangles: &[Triangle]) -> bool {
    let mut times: HashMap<Segment, usize> = HashMap::new();
    directed_edges(triangles).for_each(|edge| *times.entry(edge).or_default() += 1);
    let is_single = |edge: Segment| times.get(&edge) == Some(&1);
    !times
        .keys()
        .all(|[from, to]| is_single([*from, *to]) && is_single([*to, *from]))
}

/// The edges and their reverses must be the same ones, and no two of them alike.
fn is_open_by_sorting(triangles: &[Triangle]) -> bool {
    let mut edges: Vec<Segment> = directed_edges(triangles).collect();
    let mut reverses: Vec<Segment> = edges.iter().map(|[from, to]| [*to, *from]).collect();
    edges.sort_unstable();
    reverses.sort_unstable();
    edges != reverses || edges.windows(2).any(|pair| pair[0] == pair[1])
}
