//! Counts of aimed pairs of triangles, and of aimed segments and triangles.

use super::{with_verdicts, Count, Wrong};
use crate::geometry::by_signs::{orders_of_four, Sides};
use crate::geometry::estimate::{estimate, Four};
use crate::inputs::aimed::pairs::{AimedPair, Way};
use crate::tally::meetings::named;

#[derive(Default)]
pub struct PairsTally {
    pairs: u64,
    pub calls: u64,
    /// All these by the verdict.
    verdicts: [u64; 2],
    /// Those that hang on the aimed sign, by what it is of.
    hanging: [[u64; 2]; HANGING.len()],
    /// Those that hang on one whose estimate is on the limit or next to it, in some order of the points.
    hanging_at_limit: [u64; 2],
    one_plane: [u64; 2],
    in_layer: [u64; 2],
    wrong: Wrong,
}

const HANGING: [(Way, &str); 3] = [
    (Way::Corner, "the sign of a corner"),
    (Way::WireEnd, "the sign of a wire's end"),
    (Way::Edges, "the sign of two edges"),
];

impl PairsTally {
    pub fn note(&mut self, pair: &AimedPair, meeting: bool) {
        let verdict = usize::from(meeting);
        self.pairs += 1;
        self.verdicts[verdict] += 1;
        self.one_plane[verdict] += u64::from(pair.way == Way::OnePlane);
        self.in_layer[verdict] += u64::from(pair.way == Way::Layer);
        if !pair.hangs {
            return;
        }
        self.hanging_at_limit[verdict] += u64::from(is_at_limit(pair.four));
        if let Some(kind) = HANGING.iter().position(|(way, _)| *way == pair.way) {
            self.hanging[kind][verdict] += 1;
        }
    }

    /// One call, with the verdict as signs lead to it in the order of its points.
    pub fn note_call(&mut self, meeting: bool, verdict: impl Fn(Sides) -> Option<bool>) {
        self.calls += 1;
        self.wrong.note_verdict(meeting, verdict);
    }

    pub(super) fn counts(&self) -> Vec<Count> {
        let [apart, meeting] = self.verdicts;
        let mut counts = named([("pairs", self.pairs), ("apart", apart), ("meeting", meeting)]);
        for ((_, name), met) in HANGING.iter().zip(self.hanging) {
            counts.extend(with_verdicts(&format!("hanging on {name}"), met));
        }
        counts.extend(with_verdicts("hanging on a sign at the limit", self.hanging_at_limit));
        counts.extend(with_verdicts("in one plane", self.one_plane));
        counts.extend(with_verdicts("at a layer", self.in_layer));
        counts.extend(self.wrong.counts());
        counts
    }
}

fn is_at_limit(four: Four) -> bool {
    let mut orders = orders_of_four(four).into_iter();
    orders.any(|order| estimate(order).at_limit().is_some())
}

#[derive(Default)]
pub struct SegmentsTally {
    segments: u64,
    pub calls: u64,
    verdicts: [u64; 2],
    hanging: [u64; 2],
    wrong: Wrong,
}

impl SegmentsTally {
    pub fn note(&mut self, hangs: bool, meeting: bool) {
        self.segments += 1;
        self.verdicts[usize::from(meeting)] += 1;
        self.hanging[usize::from(meeting)] += u64::from(hangs);
    }

    /// One call, as above.
    pub fn note_call(&mut self, meeting: bool, verdict: impl Fn(Sides) -> Option<bool>) {
        self.calls += 1;
        self.wrong.note_verdict(meeting, verdict);
    }

    pub(super) fn counts(&self) -> Vec<Count> {
        let [apart, meeting] = self.verdicts;
        let mut counts = named([("segments", self.segments), ("apart", apart), ("meeting", meeting)]);
        counts.extend(with_verdicts("hanging on one sign", self.hanging));
        counts.extend(self.wrong.counts());
        counts
    }
}
