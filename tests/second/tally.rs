//! Counts of the cases met by each call, the lines that report them, and the cases that were missed.

pub mod aimed;
pub mod byte_pairs;
mod listings;
mod meetings;
pub mod plates;
pub mod sheets;
mod thin;

use crate::answers::{Opinion, OFF_GRID, START_BEYOND_END, WRONG_LENGTH};
use crate::answers::{FLAT_TRIANGLE_NUMBERS, SEGMENT_NUMBERS, SIDE_NUMBERS, TRIANGLE_NUMBERS, TURN_NUMBERS};
use crate::inputs::LONGEST_BAD_LIST;
use meetings::Meetings;
use std::collections::BTreeSet;

/// What the values 0, 1, 2 of a call mean (2 and more, of a listing), which refusals it knows, how many numbers each of
/// its lists should hold, and what shapes these make.
pub struct Cases {
    pub call: &'static str,
    /// What its inputs are called, in plural.
    pub inputs: &'static str,
    pub list_numbers: &'static [usize],
    pub values: &'static [&'static str],
    pub refusals: &'static [u64],
    pub shapes: Shapes,
}

#[derive(Clone, Copy)]
pub enum Shapes {
    Points,
    FlatTriangles,
    SegmentAndTriangle,
    Triangles,
    /// Any number of triangles in each list.
    Runs,
}

pub const TURN: Cases = Cases {
    call: "turn",
    inputs: "turns",
    list_numbers: &[TURN_NUMBERS],
    values: &["-1", "0", "1"],
    refusals: &[1, 3],
    shapes: Shapes::Points,
};
pub const SIDE: Cases = Cases {
    call: "side",
    inputs: "sides",
    list_numbers: &[SIDE_NUMBERS],
    ..TURN
};
pub const FLAT: Cases = Cases {
    call: "flat",
    inputs: "flat pairs",
    list_numbers: &[FLAT_TRIANGLE_NUMBERS, FLAT_TRIANGLE_NUMBERS],
    values: &["apart", "meeting"],
    refusals: &[1, 2, 3],
    shapes: Shapes::FlatTriangles,
};
pub const SEGMENT: Cases = Cases {
    call: "segment",
    inputs: "segment pairs",
    list_numbers: &[SEGMENT_NUMBERS, TRIANGLE_NUMBERS],
    refusals: &[1, 3],
    shapes: Shapes::SegmentAndTriangle,
    ..FLAT
};
pub const PAIR: Cases = Cases {
    call: "pair",
    inputs: "space pairs",
    list_numbers: &[TRIANGLE_NUMBERS, TRIANGLE_NUMBERS],
    refusals: &[1, 3],
    shapes: Shapes::Triangles,
    ..FLAT
};

pub const LIST: Cases = Cases {
    call: "list",
    inputs: "listings",
    list_numbers: &[TRIANGLE_NUMBERS, TRIANGLE_NUMBERS],
    values: &["no pair", "one pair", "more pairs"],
    refusals: &[1, 3, 4, 5],
    shapes: Shapes::Runs,
};

const REFUSAL_NUMBERS: usize = 6;
/// What a list can be refused for: nothing, or 1 to 3.
const LIST_FAULTS: usize = 4;

/// The number, side and place of a refusal.
type Refusal = (u64, u64, u64);

/// A case and how often it was met.
type Count = (String, u64);

/// How many of the finer cases came up.
fn finer_cases(finer: &[Count]) -> Count {
    let met = finer.iter().filter(|(_, count)| *count > 0).count();
    (format!("finer cases (of {})", finer.len()), met as u64)
}

/// The counts in one line.
fn listed(counts: Vec<Count>) -> String {
    let counted = counts.into_iter().map(|(name, count)| format!("{name} {count}"));
    counted.collect::<Vec<_>>().join(", ")
}

pub struct Tally {
    cases: Cases,
    pub compared: u64,
    too_short: u64,
    values: [u64; 3],
    refusals: [[u64; 2]; REFUSAL_NUMBERS],
    refused: BTreeSet<Refusal>,
    mixtures: FaultMixtures,
    meetings: Meetings,
}

/// What only calls with two lists can show of faults.
#[derive(Default)]
struct FaultMixtures {
    /// By the fault of the first list alone and that of the second alone.
    pairs: [[u64; LIST_FAULTS]; LIST_FAULTS],
    /// Refused for the grid, with a shape that is flat as well, a fault or not; by side.
    off_grid_and_flat: [u64; 2],
}

impl Tally {
    pub fn new(cases: Cases) -> Tally {
        let (values, refusals, refused, mixtures) = Default::default();
        let meetings = Meetings::of(cases.shapes);
        Tally {
            cases,
            compared: 0,
            too_short: 0,
            values,
            refusals,
            refused,
            mixtures,
            meetings,
        }
    }

    pub fn name(&self) -> &'static str {
        self.cases.call
    }

    pub fn inputs(&self) -> &'static str {
        self.cases.inputs
    }

    pub fn note(&mut self, opinion: &Opinion, too_short: bool) {
        self.compared += 1;
        if too_short {
            // The door showed no answer, so the case doesn't count as met.
            self.too_short += 1;
            return;
        }
        let answer = &opinion.outcome.answer;
        if answer.number == 0 {
            self.values[answer.value.min(2) as usize] += 1;
        } else {
            self.refusals[answer.number as usize][answer.side as usize] += 1;
            self.refused.insert((answer.number, answer.side, answer.place));
        }
        self.mixtures.note(opinion);
        self.meetings.note(opinion);
    }

    /// One line for the reader.
    pub fn line(&self) -> String {
        let (call, counts) = (self.cases.call, listed(self.counts(true)));
        format!("{call}: {} compared: {counts}", self.compared)
    }

    /// The cases that a large run must have met and didn't.
    pub fn missed(&self, with_refusals: bool, with_finer: bool) -> Vec<String> {
        let mut counts = self.counts(with_refusals);
        if with_finer {
            counts.extend(self.meetings.fine_counts());
        }
        if with_refusals && self.sides() == 2 {
            counts.extend(self.mixtures.counts(self.cases.refusals));
        }
        if with_refusals && with_finer {
            counts.extend(self.meetings.fine_mixtures());
        }
        let missed = counts.into_iter().filter(|(_, count)| *count == 0);
        let mut missed: Vec<String> = missed.map(|(name, _)| format!("{}: {name}", self.cases.call)).collect();
        // The places of many triangles are so many that they are finer cases.
        if with_refusals && (with_finer || !matches!(self.cases.shapes, Shapes::Runs)) {
            missed.extend(self.missed_refusals());
        }
        missed
    }

    fn sides(&self) -> usize {
        self.cases.list_numbers.len()
    }

    fn missed_refusals(&self) -> Vec<String> {
        let missed = self.wanted_refusals().into_iter();
        missed
            .filter(|refusal| !self.refused.contains(refusal))
            .map(|(number, side, place)| format!("{}: refusal {number} side {side} place {place}", self.cases.call))
            .collect()
    }

    /// Each position of a list must have been the lowest bad one, and each wrong length given.
    fn wanted_refusals(&self) -> Vec<Refusal> {
        let mut wanted = Vec::new();
        for (side, &numbers) in (0..).zip(self.cases.list_numbers) {
            if let Shapes::Runs = self.cases.shapes {
                wanted.extend(listings::wanted_refusals(side));
                continue;
            }
            let lengths = (0..=LONGEST_BAD_LIST).filter(|length| *length != numbers);
            wanted.extend((0..numbers).map(|place| (OFF_GRID, side, place as u64)));
            wanted.extend(lengths.map(|length| (WRONG_LENGTH, side, length as u64)));
        }
        wanted
    }

    fn counts(&self, with_refusals: bool) -> Vec<Count> {
        let names = self.cases.values.iter().map(|name| name.to_string());
        let mut counts: Vec<_> = names.zip(self.values).collect();
        counts.extend(self.meetings.counts());
        if with_refusals {
            for &number in self.cases.refusals {
                // What a buffer is refused for has one side only.
                let sides = if number < START_BEYOND_END { self.sides() } else { 1 };
                for side in 0..sides {
                    let count = self.refusals[number as usize][side];
                    counts.push((format!("refusal {number} side {side}"), count));
                }
            }
        }
        counts.push(("answer too short".to_string(), self.too_short));
        counts
    }
}

/// What the first list and the second can be refused for, each alone, in a call that knows these refusals; 0 for
/// nothing.
fn fault_pairs(refusals: &[u64]) -> Vec<[usize; 2]> {
    let known = |fault: &usize| *fault == 0 || refusals.contains(&(*fault as u64));
    let faults = || (0..LIST_FAULTS).filter(known);
    faults()
        .flat_map(|first| faults().map(move |second| [first, second]))
        .collect()
}

impl FaultMixtures {
    fn note(&mut self, opinion: &Opinion) {
        let [first, second] = &opinion.faults[..] else {
            return;
        };
        self.pairs[first.number_alone() as usize][second.number_alone() as usize] += 1;
        let (number, side) = (opinion.outcome.answer.number, opinion.outcome.answer.side as usize);
        if number == OFF_GRID && opinion.faults[side].first_is_flat() {
            self.off_grid_and_flat[side] += 1;
        }
    }

    fn counts(&self, refusals: &[u64]) -> Vec<Count> {
        let mut counts = Vec::new();
        for [first, second] in fault_pairs(refusals) {
            counts.push((
                format!("fault {first} in the first list with fault {second} in the second"),
                self.pairs[first][second],
            ));
        }
        for side in 0..2 {
            counts.push((
                format!("off the grid and flat at once, side {side}"),
                self.off_grid_and_flat[side],
            ));
        }
        counts
    }
}
