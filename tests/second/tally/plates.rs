//! Counts of what the stories of plates met, the line that reports them, and the cases that were missed.

pub(super) mod cases;
mod shells;

use super::{finer_cases, listed, Count};
use crate::answers::plate::{PlateCall, Step, MOST_REACH, PARTS, SLOTS};
use crate::answers::plate::{NOTHING_TO_UNDO, NO_SUCH_PART, NO_SUCH_SLOT, PART_IS_ABSENT};
use crate::answers::plate::{SHELL_IS_OPEN, SHIFT_OFF_GRID, SLOT_IS_EMPTY, SLOT_IS_FILLED};
use crate::answers::{FLAT_SHAPE, OFF_GRID, TRIANGLE_NUMBERS};
use crate::story::Story;
use cases::{call_cases, is_served, kind_name, story_cases, Past};
use shells::shell_cases;
use std::collections::BTreeMap;

/// A kind of call, with the number and the side of a refusal.
type Refusal = (&'static str, u64, u64);

const REFUSALS: [Refusal; 17] = [
    ("place", NO_SUCH_SLOT, 0),
    ("place", NO_SUCH_PART, 0),
    ("place", OFF_GRID, 0),
    ("place", FLAT_SHAPE, 0),
    ("place", SLOT_IS_FILLED, 0),
    ("lift", NO_SUCH_SLOT, 0),
    ("lift", SLOT_IS_EMPTY, 0),
    ("shift", NO_SUCH_PART, 0),
    ("shift", PART_IS_ABSENT, 0),
    ("shift", SHIFT_OFF_GRID, 0),
    ("undo", NOTHING_TO_UNDO, 0),
    ("parts", NO_SUCH_PART, 0),
    ("parts", NO_SUCH_PART, 1),
    ("parts", PART_IS_ABSENT, 0),
    ("parts", PART_IS_ABSENT, 1),
    ("parts", SHELL_IS_OPEN, 0),
    ("parts", SHELL_IS_OPEN, 1),
];

/// Which of these one call can have at once: the one that counts, and one that it hides.
const HIDDEN: [(usize, usize); 14] = [
    (0, 1),
    (0, 2),
    (0, 3),
    (1, 2),
    (1, 3),
    (1, 4),
    (2, 3),
    (2, 4),
    (3, 4),
    (11, 12),
    (11, 14),
    (12, 13),
    (13, 14),
    (15, 16),
];

/// What must be met at every place below a number: a kind of call, and the number of its refusal or 0.
const PLACES: [(&str, u64, usize); 8] = [
    ("place", 0, SLOTS),
    ("place", OFF_GRID, TRIANGLE_NUMBERS),
    ("place", SLOT_IS_FILLED, SLOTS),
    ("lift", 0, SLOTS),
    ("lift", SLOT_IS_EMPTY, SLOTS),
    ("shift", 0, PARTS as usize),
    ("shift", PART_IS_ABSENT, PARTS as usize),
    ("shift", SHIFT_OFF_GRID, SLOTS),
];

#[derive(Default)]
pub struct PlateTally {
    pub stories: u64,
    calls: u64,
    largest_count: u64,
    largest_reach: u64,
    most_standing: usize,
    call_cases: Vec<(&'static str, u64)>,
    shell_cases: Vec<(&'static str, u64)>,
    finer_shell_cases: Vec<(&'static str, u64)>,
    story_cases: Vec<(&'static str, u64)>,
    refusals: BTreeMap<Refusal, u64>,
    hidden: BTreeMap<(Refusal, Refusal), u64>,
    /// By the kind of call, the number of its refusal or 0, and the slot, the part or the position concerned.
    places: BTreeMap<(&'static str, u64, u64), u64>,
}

impl PlateTally {
    pub fn note(&mut self, story: &Story, steps: &[Step]) {
        self.stories += 1;
        self.calls += steps.len() as u64;
        let mut past = Past::default();
        for step in steps {
            add(&mut self.call_cases, &call_cases(step, &past));
            let [of_shells, finer_of_shells] = shell_cases(step);
            add(&mut self.shell_cases, &of_shells);
            add(&mut self.finer_shell_cases, &finer_of_shells);
            self.note_answer(step);
            past.note(step);
        }
        add(&mut self.story_cases, &story_cases(story, steps.len()));
    }

    fn note_answer(&mut self, step: &Step) {
        let (kind, told) = (kind_name(&step.call), &step.told);
        self.largest_count = self.largest_count.max(told.count);
        self.largest_reach = self.largest_reach.max(told.reach);
        self.most_standing = self.most_standing.max(step.standing);
        let place = if is_served(step) {
            place_served(&step.call)
        } else {
            told.answer.place
        };
        *self.places.entry((kind, told.answer.number, place)).or_default() += 1;
        let mut faults = step.faults.iter().map(|fault| (kind, fault.number, fault.side));
        if let Some(counting) = faults.next() {
            *self.refusals.entry(counting).or_default() += 1;
            faults.for_each(|hidden| *self.hidden.entry((counting, hidden)).or_default() += 1);
        }
    }

    /// One line for the reader.
    pub fn line(&self) -> String {
        let mut counts = self.counts();
        counts.push(finer_cases(&self.fine_counts()));
        format!(
            "plate: {} stories of {} calls compared: largest count {}, largest reach {}, most changes standing {}, {}",
            self.stories,
            self.calls,
            self.largest_count,
            self.largest_reach,
            self.most_standing,
            listed(counts)
        )
    }

    /// The cases that a large run must have met and didn't.
    pub fn missed(&self, with_finer: bool) -> Vec<String> {
        let mut counts = self.counts();
        if with_finer {
            counts.extend(self.fine_counts());
        }
        let missed = counts.into_iter().filter(|(_, count)| *count == 0);
        let mut missed: Vec<String> = missed.map(|(name, _)| format!("plate: {name}")).collect();
        if self.largest_reach < MOST_REACH {
            missed.push(format!("plate: a reach of {MOST_REACH}"));
        }
        missed
    }

    fn counts(&self) -> Vec<Count> {
        let cases = self.call_cases.iter().chain(&self.shell_cases).chain(&self.story_cases);
        let mut counts: Vec<Count> = cases.map(|(name, count)| (name.to_string(), *count)).collect();
        for refusal in REFUSALS {
            counts.push((refusal_name(refusal), count_of(&self.refusals, &refusal)));
        }
        counts
    }

    /// The rarer cases of shells, each fault that hides another, and each slot, part and position.
    fn fine_counts(&self) -> Vec<Count> {
        let cases = self.finer_shell_cases.iter();
        let mut counts: Vec<Count> = cases.map(|(name, count)| (name.to_string(), *count)).collect();
        for (counting, hidden) in HIDDEN.map(|(one, other)| (REFUSALS[one], REFUSALS[other])) {
            let name = format!("{}, hiding {} side {}", refusal_name(counting), hidden.1, hidden.2);
            counts.push((name, count_of(&self.hidden, &(counting, hidden))));
        }
        for (kind, number, places) in PLACES {
            for place in 0..places as u64 {
                let name = format!("{kind} with number {number} at {place}");
                counts.push((name, count_of(&self.places, &(kind, number, place))));
            }
        }
        counts
    }
}

pub(super) fn add(counts: &mut Vec<(&'static str, u64)>, met: &[(&'static str, bool)]) {
    if counts.is_empty() {
        counts.extend(met.iter().map(|(name, _)| (*name, 0)));
    }
    for ((_, count), (_, is_met)) in counts.iter_mut().zip(met) {
        *count += u64::from(*is_met);
    }
}

pub(super) fn count_of<Key: Ord>(counts: &BTreeMap<Key, u64>, key: &Key) -> u64 {
    counts.get(key).copied().unwrap_or(0)
}

/// The slot or the part that a served call concerns.
fn place_served(call: &PlateCall) -> u64 {
    match call {
        PlateCall::Place { slot: number, .. } | PlateCall::Lift { slot: number } => u64::from(*number),
        PlateCall::Shift { part: number, .. } | PlateCall::Parts { p: number, .. } => u64::from(*number),
        PlateCall::Undo => 0,
    }
}

fn refusal_name((kind, number, side): Refusal) -> String {
    format!("{kind} refused with {number} side {side}")
}
