//! The pairs and the segments: compares the answers of `zg_pair` and `zg_segment` with those of the
//! ordinary tests, and times them.

use crate::door;
use crate::inputs::{self, Pair, PairsInput, KINDS};
use crate::ordinary::{self, is_narrow, Answer, SEGMENT_NUMBERS, TRIANGLE_NUMBERS};
use crate::scaling::compare_scaled;
use crate::timing::{best_of, nanoseconds_each, narrow_time, say, told_narrow, Goals};
use std::hint::black_box;

/// The goals of the pairs, kind by kind. Of the tiny grid many sides are zero: where it is scaled, low words tell them,
/// after estimates that are made in vain.
const PAIRS_GOALS: [Goals; KINDS] = [[0.5; 2], [0.5; 2], [0.5, 0.85]];
/// Those of the segments.
const SEGMENTS_GOALS: [Goals; KINDS] = [[0.7; 2]; KINDS];
pub const ROUNDS: usize = 101;
/// The pairs that are timed, and the faulty ones, come from these seeds.
pub const PAIRS_SEEDS: [u64; KINDS] = [1, 2, 3];
pub const FAULTY_PAIRS_SEED: u64 = 4;
/// The same of the segments.
pub const SEGMENTS_SEEDS: [u64; KINDS] = [16, 17, 18];
const FAULTY_SEGMENTS_SEED: u64 = 19;

/// The last line to print. It is an error where two answers differ, or a ratio is higher than is allowed
/// or, where each goal has to be reached, than its goal.
pub fn pairs(at_most: f64, goals: bool) -> Result<String, String> {
    let call = Call {
        name: "pair",
        goals: PAIRS_GOALS,
        door: door::pair,
        wide: ordinary::pair::<i128>,
        narrow: ordinary::pair::<i64>,
    };
    let ratios = call.compare_and_time::<TRIANGLE_NUMBERS>(PAIRS_SEEDS, FAULTY_PAIRS_SEED)?;
    call.last_line(&ratios, at_most, goals)
}

/// The same of the segments.
pub fn segments(at_most: f64, goals: bool) -> Result<String, String> {
    let call = Call {
        name: "segment",
        goals: SEGMENTS_GOALS,
        door: door::segment,
        wide: ordinary::segment::<i128>,
        narrow: ordinary::segment::<i64>,
    };
    let ratios = call.compare_and_time::<SEGMENT_NUMBERS>(SEGMENTS_SEEDS, FAULTY_SEGMENTS_SEED)?;
    call.last_line(&ratios, at_most, goals)
}

/// A call of the door, and the ordinary test that does the same, with 128-bit and with 64-bit numbers. The
/// last is asked only where no number is beyond NARROW, since else it would overflow. Each has a type of its
/// own, so that none is called by way of a pointer.
struct Call<Door, Wide, Narrow> {
    name: &'static str,
    goals: [Goals; KINDS],
    door: Door,
    wide: Wide,
    narrow: Narrow,
}

trait Test: Fn(&[i32], &[i32]) -> Answer {}

impl<F: Fn(&[i32], &[i32]) -> Answer> Test for F {}

impl<Door: Test, Wide: Test, Narrow: Test> Call<Door, Wide, Narrow> {
    /// The door's ratio on each input, if all contenders agree. The first shape of a pair has N numbers.
    fn compare_and_time<const N: usize>(&self, seeds: [u64; KINDS], faulty_seed: u64) -> Result<Vec<f64>, String> {
        let inputs = inputs::timed::<N>(seeds);
        let agreed = inputs.iter().map(|input| self.agreed_values(&input.content));
        let values: Vec<Vec<u64>> = agreed.collect::<Result<_, _>>()?;
        compare_scaled(&inputs, &values)?;
        for [first, second] in inputs::faulty::<N>(faulty_seed) {
            self.agreed_answer(&first, &second)?;
        }
        let goals = self.goals.as_flattened();
        assert_eq!(inputs.len(), goals.len(), "each kind is timed on two scales");
        let goaled = inputs.iter().zip(values).zip(goals);
        let ratios = goaled.map(|((input, values), &goal)| self.timed_ratio(input, values.iter().sum(), goal));
        Ok(ratios.collect())
    }

    fn last_line(&self, ratios: &[f64], at_most: f64, goals: bool) -> Result<String, String> {
        let highest = ratios.iter().copied().fold(0.0, f64::max);
        let judged = ratios.iter().zip(self.goals.as_flattened());
        let missed = judged.filter(|(ratio, goal)| ratio > goal).count();
        let name = self.name;
        let line = format!("all {name} answers agree; the highest ratio of the door is {highest:.3}");
        if highest > at_most {
            return Err(format!("{line}, and at most {at_most} is allowed"));
        }
        if goals && missed > 0 {
            return Err(format!("{line}; {missed} of {} goals are not reached", ratios.len()));
        }
        Ok(line)
    }

    /// Whether each pair meets, 1 or 0, if all contenders agree on every pair.
    fn agreed_values<const N: usize>(&self, pairs: &[Pair<N>]) -> Result<Vec<u64>, String> {
        let answers = pairs.iter().map(|pair| self.agreed_answer(&pair.first, &pair.second));
        answers.map(|answer| Ok(answer?.value)).collect()
    }

    fn agreed_answer(&self, first: &[i32], second: &[i32]) -> Result<Answer, String> {
        let door = (self.door)(first, second);
        let wide = (self.wide)(first, second);
        let narrow = if is_narrow(first) && is_narrow(second) {
            (self.narrow)(first, second)
        } else {
            wide
        };
        if door == wide && narrow == wide {
            return Ok(door);
        }
        let name = self.name;
        Err(format!(
            "the {name} answers differ:\n  first {first:?}\n  second {second:?}\n  door {door:?}\n  128-bit {wide:?}\n  64-bit {narrow:?}"
        ))
    }

    /// Times one input, prints its line and gives the door's ratio.
    fn timed_ratio<const N: usize>(&self, input: &PairsInput<N>, meeting: u64, goal: f64) -> f64 {
        let pairs = &input.content;
        let are_narrow = pairs
            .iter()
            .all(|pair| is_narrow(&pair.first) && is_narrow(&pair.second));
        let [door, wide, narrow] = best_of(ROUNDS, || {
            [
                time_for(pairs, &self.door),
                time_for(pairs, &self.wide),
                narrow_time(are_narrow, || time_for(pairs, &self.narrow)),
            ]
        });
        let ratio = door / wide;
        say(&format!(
            "{}: door {door:.1} ns a {}, 128-bit {wide:.1} ns, ratio {ratio:.3}, goal {goal} ({}; meeting {:.0} in 100)",
            input.name,
            self.name,
            told_narrow(narrow, wide, 2),
            100.0 * meeting as f64 / pairs.len() as f64,
        ));
        ratio
    }
}

pub fn time_for<Number, Told, const N: usize, const M: usize>(
    pairs: &[Pair<N, M, Number>],
    test: &impl Fn(&[Number], &[Number]) -> Told,
) -> f64 {
    nanoseconds_each(pairs.len(), || {
        for pair in pairs {
            black_box(test(black_box(&pair.first[..]), black_box(&pair.second[..])));
        }
    })
}
