//! The own answer to a listing: its pairs by two methods, its refusals, and what it had to deal with.

use super::faults::{first_refusal, list_faults, FlatShapes, ListFaults};
use super::{axes, points_of, reaches, thin};
use super::{Answer, Findings, Opinion, Outcome, Overlap, Reach, Triangle};
use super::{START_BEYOND_END, TOO_LITTLE_ROOM, TRIANGLE_NUMBERS};
use std::collections::HashMap;

pub const MOST_TRIANGLES: usize = 1_024;

type Pairs = Vec<[u32; 2]>;

/// Two lists with all that is to be said of them whatever the buffer; found once, since inputs that lend just enough
/// room, or just too little, have to know it before there is a buffer.
pub struct JudgedLists {
    pub first: Vec<i32>,
    pub second: Vec<i32>,
    faults: [ListFaults; 2],
    /// By edges that reach the other triangle, and by separating axes; none where a list is bad.
    pairs: Pairs,
    second_pairs: Pairs,
    flat_pairs: [u64; 2],
}

pub struct Listing {
    pub lists: JudgedLists,
    pub buffer_length: usize,
    pub start: u64,
}

/// What a listing had to deal with.
pub struct ListingFindings {
    pub triangles: [usize; 2],
    /// None where a list is bad.
    pub pairs: usize,
    /// Pairs of triangles of which one is flat, apart and meeting; none where a list is bad.
    pub flat_pairs: [u64; 2],
    pub start: u64,
    /// How many numbers the buffer has from the start on; nothing where the start is beyond its end.
    pub room: Option<u64>,
}

impl JudgedLists {
    pub fn new(first: Vec<i32>, second: Vec<i32>) -> JudgedLists {
        let faults = [triangles_faults(&first), triangles_faults(&second)];
        let are_good = faults.iter().all(|list| list.number_alone() == 0);
        let (mut pairs, mut second_pairs, mut flat_pairs) = Default::default();
        if are_good {
            (pairs, second_pairs) = pairs_by_both(&Distinct::of(&first), &Distinct::of(&second));
            let triangles = [&first, &second].map(|list| list.len() / TRIANGLE_NUMBERS);
            flat_pairs = pairs_with_a_flat_one(triangles, &faults, &pairs);
        }
        JudgedLists {
            first,
            second,
            faults,
            pairs,
            second_pairs,
            flat_pairs,
        }
    }

    pub fn pair_count(&self) -> usize {
        self.pairs.len()
    }
}

fn triangles_faults(list: &[i32]) -> ListFaults {
    let right_length = list.len() % TRIANGLE_NUMBERS == 0 && list.len() <= TRIANGLE_NUMBERS * MOST_TRIANGLES;
    let is_flat = |numbers: &[i32]| thin::is_flat::<3>(&points_of(numbers));
    list_faults(list, TRIANGLE_NUMBERS, right_length, is_flat, FlatShapes::Served)
}

impl Listing {
    pub fn own_opinion(&self) -> Opinion {
        let JudgedLists { first, second, .. } = &self.lists;
        let findings = ListingFindings {
            triangles: [first, second].map(|list| list.len() / TRIANGLE_NUMBERS),
            pairs: self.lists.pair_count(),
            flat_pairs: self.lists.flat_pairs,
            start: self.start,
            room: self.room(),
        };
        Opinion {
            outcome: self.outcome(&self.lists.pairs),
            second_outcome: self.outcome(&self.lists.second_pairs),
            faults: self.lists.faults.to_vec(),
            findings: Some(Findings::Listing(findings)),
        }
    }

    fn room(&self) -> Option<u64> {
        (self.buffer_length as u64).checked_sub(self.start)
    }

    fn outcome(&self, pairs: &Pairs) -> Outcome {
        let Some(room) = self.room() else {
            return Answer::refused(START_BEYOND_END, 0, self.buffer_length as u64).into();
        };
        if let Some(refusal) = first_refusal(&self.lists.faults) {
            return refusal.into();
        }
        let needed = pairs.len() as u64;
        if room < 2 * needed {
            return Answer::refused(TOO_LITTLE_ROOM, 0, needed).into();
        }
        Outcome {
            answer: Answer::served(needed),
            pairs: pairs.clone(),
        }
    }
}

// ---- Pairs ----

/// The different triangles of a list, and which of them stands at each index: a long list that repeats a few is judged
/// as fast as a short one.
struct Distinct {
    triangles: Vec<Triangle>,
    at_index: Vec<usize>,
}

impl Distinct {
    fn of(list: &[i32]) -> Distinct {
        let mut numbers_seen = HashMap::new();
        let mut triangles = Vec::new();
        let mut number_of = |numbers| {
            *numbers_seen.entry(numbers).or_insert_with(|| {
                triangles.push(points_of(numbers));
                triangles.len() - 1
            })
        };
        let at_index = list.chunks(TRIANGLE_NUMBERS).map(&mut number_of).collect();
        Distinct { triangles, at_index }
    }
}

/// Each verdict is found by both methods, on its own and with the triangles as they stand.
fn pairs_by_both(first: &Distinct, second: &Distinct) -> (Pairs, Pairs) {
    let verdicts =
        |one: &Triangle| -> Vec<[bool; 2]> { second.triangles.iter().map(|other| meet(one, other)).collect() };
    let rows: Vec<_> = first.triangles.iter().map(verdicts).collect();
    let (mut pairs, mut second_pairs) = (Vec::new(), Vec::new());
    for (i, one) in (0..).zip(&first.at_index) {
        for (j, other) in (0..).zip(&second.at_index) {
            let [by_edges, by_axes] = rows[*one][*other];
            if by_edges {
                pairs.push([i, j]);
            }
            if by_axes {
                second_pairs.push([i, j]);
            }
        }
    }
    (pairs, second_pairs)
}

/// How many pairs have at least one flat triangle: those apart, and those meeting.
fn pairs_with_a_flat_one([first, second]: [usize; 2], faults: &[ListFaults; 2], meeting: &Pairs) -> [u64; 2] {
    let [first_flat, second_flat] = faults.each_ref().map(|list| &list.flat_shapes);
    let all = first * second - (first - first_flat.len()) * (second - second_flat.len());
    // The indices of flat triangles rise.
    let has_flat = |[i, j]: &&[u32; 2]| {
        first_flat.binary_search(&(*i as usize)).is_ok() || second_flat.binary_search(&(*j as usize)).is_ok()
    };
    let meeting = meeting.iter().filter(has_flat).count();
    [all - meeting, meeting].map(|pairs| pairs as u64)
}

pub fn meet(one: &Triangle, other: &Triangle) -> [bool; 2] {
    let by_edges = reaches(one, other) != [Reach::Nothing; 2];
    let by_axes = axes::overlap(one, other) != Overlap::Apart;
    [by_edges, by_axes]
}
