//! Counts of what the inputs aimed at the quick estimate of request Q-7 met, the lines that report them, and the cases
//! that were missed. Among them is how often a library with a fault there would have been wrong: never is a fault of
//! the inputs.

mod listings;
mod points;
mod shapes;

use super::meetings::VERDICTS;
use super::{finer_cases, listed, Count};
use crate::geometry::by_signs::Sides;
use crate::geometry::estimate::{sign_by_estimate_alone, sign_in_one_word, sign_with_limit, Four, LIMIT};
pub use listings::{ListingsTally, NarrowTally};
use points::PointsTally;
use shapes::{PairsTally, SegmentsTally};

#[derive(Default)]
pub struct AimedTally {
    pub points: PointsTally,
    pub pairs: PairsTally,
    pub segments: SegmentsTally,
    pub listings: ListingsTally,
    pub narrow: NarrowTally,
}

/// What one kind of calls met.
struct Part {
    name: &'static str,
    compared: u64,
    counts: Vec<Count>,
    /// Cases that come up too seldom for a small run.
    finer: Vec<Count>,
}

impl AimedTally {
    pub fn lines(&self) -> Vec<String> {
        let line = |part: Part| {
            let finer = (!part.finer.is_empty()).then(|| finer_cases(&part.finer));
            let counts = listed(part.counts.into_iter().chain(finer).collect());
            format!("aimed {}: {} compared: {counts}", part.name, part.compared)
        };
        self.parts().into_iter().map(line).collect()
    }

    /// How many calls there were.
    pub fn compared(&self) -> u64 {
        self.parts().iter().map(|part| part.compared).sum()
    }

    /// The cases that a large run must have met and didn't.
    pub fn missed(&self, with_finer: bool) -> Vec<String> {
        let mut missed = Vec::new();
        for part in self.parts() {
            let finer = part.finer.into_iter().filter(|_| with_finer);
            let never = part.counts.into_iter().chain(finer).filter(|(_, count)| *count == 0);
            missed.extend(never.map(|(case, _)| format!("aimed {}: {case}", part.name)));
        }
        missed
    }

    fn parts(&self) -> [Part; 5] {
        let part = |name, compared, counts, finer| Part {
            name,
            compared,
            counts,
            finer,
        };
        let Self {
            points,
            pairs,
            segments,
            listings,
            narrow,
        } = self;
        [
            part("sides", points.calls, points.counts(), points.fine_counts()),
            part("pairs", pairs.calls, pairs.counts(), Vec::new()),
            part("segments", segments.calls, segments.counts(), Vec::new()),
            part("listings", listings.listings, listings.counts(), Vec::new()),
            part(
                "narrow listings",
                narrow.listings,
                narrow.counts(),
                narrow.fine_counts(),
            ),
        ]
    }
}

/// A wrong way to find signs.
type Fault = fn(Four) -> i8;

/// The faults that the inputs must be able to show, and what they are called.
const FAULTS: [(Fault, &str); 4] = [
    (sign_by_estimate_alone, "without the exact sum"),
    (|four| sign_with_limit(four, 0.0), "with a limit of 0"),
    (|four| sign_with_limit(four, LIMIT / 6.0), "with a sixth of the limit"),
    (sign_in_one_word, "by sums of one word"),
];

/// How often a library with each fault would have been wrong.
#[derive(Default)]
struct Wrong([u64; FAULTS.len()]);

impl Wrong {
    fn note(&mut self, is_wrong: impl Fn(Fault) -> bool) {
        for (count, (fault, _)) in self.0.iter_mut().zip(FAULTS) {
            *count += u64::from(is_wrong(fault));
        }
    }

    /// By the verdict that the signs lead to, where they lead to one.
    fn note_verdict(&mut self, exact: bool, verdict: impl Fn(Sides) -> Option<bool>) {
        self.note(|fault| is_wrong(fault, exact, &verdict));
    }

    fn counts(&self) -> Vec<Count> {
        let counts = FAULTS.iter().zip(self.0);
        counts
            .map(|((_, name), count)| (format!("wrong {name}"), count))
            .collect()
    }
}

fn is_wrong(fault: Fault, exact: bool, verdict: impl Fn(Sides) -> Option<bool>) -> bool {
    verdict(&fault).is_some_and(|found| found != exact)
}

fn with_verdicts(name: &str, counts: [u64; 2]) -> [Count; 2] {
    [0, 1].map(|verdict| (format!("{name} and {}", VERDICTS[verdict]), counts[verdict]))
}
