//! How many pairs of triangles on a plate clash, and how two parts lie to each other, by both own methods. All pairs
//! are looked at each time; only the verdict of two triangles is remembered, by their numbers, since it depends on
//! nothing else.

use super::listing::meet;
use super::plate::{pieces_of, Corners, Slots};
use super::shells::{self, PartsFindings};
use super::{points_of, Triangle};
use std::collections::HashMap;

/// What each of the two methods says.
type Verdict = [bool; 2];

/// The different triangles seen, and the verdicts found so far: those of a triangle with itself and with the ones seen
/// before it, by their numbers in the order of being seen.
#[derive(Default)]
pub struct Clashes {
    numbers: HashMap<Corners, usize>,
    triangles: Vec<Triangle>,
    verdicts: Vec<Vec<Option<Verdict>>>,
}

impl Clashes {
    /// The pairs of filled slots with different parts whose triangles meet, each pair once; by either method.
    pub fn count(&mut self, slots: &Slots) -> [u64; 2] {
        let filled = slots.iter().flatten();
        let pieces: Vec<(u32, usize)> = filled
            .map(|piece| (piece.part, self.number_of(&piece.corners)))
            .collect();
        let mut counts = [0; 2];
        for (k, (part, one)) in pieces.iter().enumerate() {
            for (other_part, other) in &pieces[..k] {
                if part != other_part {
                    let verdict = self.verdict(*one, *other);
                    (0..2).for_each(|method| counts[method] += u64::from(verdict[method]));
                }
            }
        }
        counts
    }

    /// How two parts that are on the plate lie to each other, by either method.
    pub fn parts(&mut self, slots: &Slots, p: u32, q: u32) -> [PartsFindings; 2] {
        let skins_meet = self.skins_meet(slots, p, q);
        let [of_p, of_q] = [p, q].map(|part| triangles_of(slots, part));
        shells::findings([p, q], [&of_p, &of_q], skins_meet)
    }

    /// Whether some triangle of one part meets some triangle of the other. A part doesn't meet itself.
    fn skins_meet(&mut self, slots: &Slots, p: u32, q: u32) -> Verdict {
        let mut skins_meet = [false; 2];
        if p == q {
            return skins_meet;
        }
        for (_, one) in pieces_of(slots, p) {
            for (_, other) in pieces_of(slots, q) {
                let (one, other) = (self.number_of(&one.corners), self.number_of(&other.corners));
                let verdict = self.verdict(one, other);
                (0..2).for_each(|method| skins_meet[method] |= verdict[method]);
            }
        }
        skins_meet
    }

    fn number_of(&mut self, corners: &Corners) -> usize {
        let next = self.triangles.len();
        let number = *self.numbers.entry(*corners).or_insert(next);
        if number == next {
            self.triangles.push(points_of(corners));
            self.verdicts.push(vec![None; next + 1]);
        }
        number
    }

    fn verdict(&mut self, one: usize, other: usize) -> Verdict {
        let (later, earlier) = (one.max(other), one.min(other));
        let triangles = &self.triangles;
        *self.verdicts[later][earlier].get_or_insert_with(|| meet(&triangles[later], &triangles[earlier]))
    }
}

pub fn triangles_of(slots: &Slots, part: u32) -> Vec<Triangle> {
    pieces_of(slots, part)
        .map(|(_, piece)| points_of(&piece.corners))
        .collect()
}
