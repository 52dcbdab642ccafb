//! Compares verdicts alone, for very long comparisons: of four families of shapes, each straight from the library with
//! the own one by separating axes. Only where the library is linked in can it be called straight.
//!
//! The work is cut into jobs, each of one family and one call, with a stream of random numbers of its own. Threads take
//! the jobs in turn; which inputs there are depends on the seed and their number alone.

mod counts;
mod desk;
mod listings;

use crate::answers::verdicts::{flat, space, Verdict};
use crate::call::Call;
use crate::door::{Function, PutStraight};
use crate::inputs::families::Family;
use crate::random::Random;
use crate::tally::{self, Cases};
use crate::PAIRS_TO_A_LISTING;
use counts::Counts;
use desk::Desk;
use std::sync::atomic::{AtomicU64, Ordering};
use std::thread;

/// A job is of so many pairs, or of the listings that go with so many.
const JOB_PAIRS: u64 = 100_000;
/// The jobs' streams of the seed are those from this one on.
const STREAM: u64 = 1 << 32;
const MOST_THREADS: usize = 4;
/// No run has so many jobs; threads that count on from here find none.
const NO_JOB: u64 = u64::MAX / 2;
/// From this many pairs on, a family with none apart or none meeting is a fault of the inputs.
const PAIRS_THAT_MEET_BOTH: u64 = 1_000;

/// A call on two shapes, how its inputs are made, and how they are answered by own means.
struct ShapeCall {
    cases: &'static Cases,
    function: Function,
    fill: fn(Family, &mut Random, &mut [&mut [i32]; 2]),
    own: fn(&[i32], &[i32]) -> Verdict,
    call: fn(Vec<i32>, Vec<i32>) -> Call,
}

const SHAPE_CALLS: [ShapeCall; 3] = [
    ShapeCall {
        cases: &tally::FLAT,
        function: Function::Flat,
        fill: Family::fill::<2>,
        own: flat,
        call: Call::Flat,
    },
    ShapeCall {
        cases: &tally::SEGMENT,
        function: Function::Segment,
        fill: Family::fill::<3>,
        own: space::<2>,
        call: Call::Segment,
    },
    ShapeCall {
        cases: &tally::PAIR,
        function: Function::Pair,
        fill: Family::fill::<3>,
        own: space::<3>,
        call: Call::Pair,
    },
];

/// The shape calls, and then the listing.
const CALLS: usize = SHAPE_CALLS.len() + 1;
/// What is told of each family and call.
const LINES: usize = Family::ALL.len() * CALLS;

/// The counts of each.
#[derive(Default)]
pub struct Tallies([Counts; LINES]);

struct Job {
    number: u64,
    pairs: u64,
}

impl Job {
    /// The jobs go through all families and calls, time and again; nothing where there are so many pairs by then.
    fn numbered(number: u64, all_pairs: u64) -> Option<Job> {
        let before = (number / LINES as u64).saturating_mul(JOB_PAIRS);
        let pairs = all_pairs.saturating_sub(before).min(JOB_PAIRS);
        (pairs > 0).then_some(Job { number, pairs })
    }

    fn line(&self) -> usize {
        (self.number % LINES as u64) as usize
    }

    fn compare(&self, put: PutStraight, seed: u64) -> Result<Counts, String> {
        let (family, call) = (Family::ALL[self.line() / CALLS], self.line() % CALLS);
        let mut desk = Desk::open(put, family, seed, STREAM + self.number)?;
        match SHAPE_CALLS.get(call) {
            Some(call) => desk.compare_shapes(call, self.pairs),
            None => desk.compare_listings(self.pairs.div_ceil(PAIRS_TO_A_LISTING)),
        }
    }
}

/// Compares so many pairs of each family and call; the error tells the first disagreement.
pub fn compare_many(put: PutStraight, seed: u64, pairs: u64) -> Result<Tallies, String> {
    let (next, processors) = (AtomicU64::new(0), thread::available_parallelism());
    let work = || compare_in_turn(&next, put, seed, pairs);
    let outcomes: Vec<_> = thread::scope(|scope| {
        let threads = processors.map_or(1, |number| number.get().min(MOST_THREADS));
        let threads: Vec<_> = (0..threads).map(|_| scope.spawn(work)).collect();
        let outcomes = threads.into_iter().map(|thread| thread.join());
        outcomes.map(|outcome| outcome.expect("a thread that ends")).collect()
    });
    // The jobs before one that failed were all taken and ended, so the first that failed depends on the seed alone.
    let failures = outcomes.iter().filter_map(|(_, failure)| failure.as_ref());
    if let Some((_, text)) = failures.min_by_key(|(number, _)| *number) {
        return Err(text.clone());
    }
    let mut tallies = Tallies::default();
    for (other, _) in &outcomes {
        let both = tallies.0.iter_mut().zip(&other.0);
        both.for_each(|(counts, other)| counts.add(other));
    }
    Ok(tallies)
}

/// Takes jobs until there are no more or one fails, which ends the others' as well.
fn compare_in_turn(next: &AtomicU64, put: PutStraight, seed: u64, pairs: u64) -> (Tallies, Option<(u64, String)>) {
    let mut tallies = Tallies::default();
    while let Some(job) = Job::numbered(next.fetch_add(1, Ordering::Relaxed), pairs) {
        match job.compare(put, seed) {
            Ok(counts) => tallies.0[job.line()].add(&counts),
            Err(text) => {
                next.store(NO_JOB, Ordering::Relaxed);
                let text = format!("in {}, job {}: {text}", name_of(job.line()), job.number);
                return (tallies, Some((job.number, text)));
            }
        }
    }
    (tallies, None)
}

fn name_of(line: usize) -> String {
    let call = SHAPE_CALLS.get(line % CALLS).map_or(&tally::LIST, |call| call.cases);
    format!("{} {}", Family::ALL[line / CALLS].name(), call.inputs)
}

impl Tallies {
    pub fn lines(&self) -> Vec<String> {
        self.named().map(|(name, counts)| format!("{name}: {counts}")).collect()
    }

    /// How many there were, where no family lacks a case of a call.
    pub fn last_line(&self, pairs: u64) -> Result<String, String> {
        let missed: Vec<String> = self
            .named()
            .filter(|(_, counts)| counts.lack_a_case())
            .map(|(name, _)| name)
            .collect();
        if pairs >= PAIRS_THAT_MEET_BOTH && !missed.is_empty() {
            return Err(format!("none apart or none meeting: {}", missed.join("; ")));
        }
        let compared = |counts: &[Counts]| counts.iter().map(|counts| counts.compared).sum::<u64>();
        let listings = self
            .0
            .chunks(CALLS)
            .map(|family| compared(&family[CALLS - 1..]))
            .sum::<u64>();
        let verdicts = compared(&self.0) - listings;
        Ok(format!("{verdicts} verdicts and {listings} listings: no disagreement"))
    }

    fn named(&self) -> impl Iterator<Item = (String, &Counts)> {
        (0..LINES).map(name_of).zip(&self.0)
    }
}
