//! The plates: compares the answers of `zg_plate` with those of the ordinary plate that keeps its count
//! and of the one that recounts all pairs at each call, and times the three.

use crate::door;
use crate::inputs::plates::{self, Run};
use crate::ordinary::plate::kept::Kept;
use crate::ordinary::plate::recounted::Recounted;
use crate::ordinary::plate::{run, ANSWER_NUMBERS, CALL_NUMBERS};
use crate::ordinary::TRIANGLE_NUMBERS;
use crate::scaling::{compare_scaled, Input};
use crate::timing::{best_of, last_line, nanoseconds_each, say};
use std::hint::black_box;

/// The highest ratio to the ordinary plate that the door should have.
const GOAL: f64 = 1.0;
/// As for the listings.
const ROUNDS: usize = 15;
/// The plate that recounts takes many times as long as the others where the plate changes, so that a few
/// rounds show it.
const RECOUNTED_ROUNDS: usize = 3;
/// So many calls of each run are compared where nothing is timed.
const QUICK_CALLS: usize = 1_000;
/// What the numbers of the answers are before the run. No answer has so high a number.
const UNWRITTEN: u64 = u64::MAX;

type Contender = fn(&[u32], &[i32], &mut [u64]) -> u64;

/// The last line to print. It is an error where two answers differ, or where each goal has to be
/// reached and one is not.
pub fn compare_and_time(goals: bool) -> Result<String, String> {
    let inputs = plates::timed();
    let answers = agreed_on_all(&inputs)?;
    compare_faulty()?;
    let reached = inputs
        .iter()
        .zip(answers)
        .filter(|(input, answers)| timed_ratio(input, &tally_of(answers)) <= GOAL)
        .count();
    last_line("plates", reached, inputs.len(), goals)
}

/// Compares the faulty runs and the first calls of those that are timed otherwise. The last line to
/// print.
pub fn compare() -> Result<String, String> {
    let mut inputs = plates::timed();
    for input in &mut inputs {
        input.content.calls.truncate(QUICK_CALLS * CALL_NUMBERS);
    }
    agreed_on_all(&inputs)?;
    compare_faulty()?;
    Ok("all plates agree; nothing is timed".into())
}

// ---- The comparison ----

/// The answers to each input, if all contenders agree on every call, on both scales.
fn agreed_on_all(inputs: &[Input<Run>]) -> Result<Vec<Vec<u64>>, String> {
    let agreed = inputs.iter().map(|input| {
        let calls = input.content.calls.len() / CALL_NUMBERS;
        agreed_answers(&input.content, calls * ANSWER_NUMBERS).map_err(|message| format!("{}: {message}", input.name))
    });
    let answers: Vec<Vec<u64>> = agreed.collect::<Result<_, _>>()?;
    compare_scaled(inputs, &answers)?;
    Ok(answers)
}

fn compare_faulty() -> Result<(), String> {
    for question in plates::faulty() {
        agreed_answers(&question.run, question.answers_length)?;
    }
    Ok(())
}

/// The answers, if all contenders make as many calls and leave the same numbers.
fn agreed_answers(asked: &Run, answers_length: usize) -> Result<Vec<u64>, String> {
    let outcome = |contender: Contender| {
        let mut answers = vec![UNWRITTEN; answers_length];
        let made = contender(&asked.calls, &asked.numbers, &mut answers);
        (made, answers)
    };
    let kept = outcome(run::<Kept>);
    for (name, contender) in [("door", door::plate as Contender), ("recounted", run::<Recounted>)] {
        let other = outcome(contender);
        if other != kept {
            return Err(difference(asked, name, other, kept));
        }
    }
    Ok(kept.1)
}

type Outcome = (u64, Vec<u64>);

/// Tells the first call on which the two differ. The last of the numbers may be too few for a call.
fn difference(asked: &Run, name: &str, other: Outcome, kept: Outcome) -> String {
    let place = (0..kept.1.len()).find(|&k| other.1[k] != kept.1[k]);
    let made = other.0.min(kept.0) as usize;
    let call = place.map_or(made, |place| place / ANSWER_NUMBERS);
    let told_outcome =
        |(made, answers): Outcome| format!("{made} calls made, answer {:?}", part(&answers, call, ANSWER_NUMBERS));
    format!(
        "the plates differ:\n  call {call} of the run {:?}\n  its numbers {:?}\n  {name} {}\n  128-bit {}",
        part(&asked.calls, call, CALL_NUMBERS),
        part(&asked.numbers, call, TRIANGLE_NUMBERS),
        told_outcome(other),
        told_outcome(kept),
    )
}

/// The numbers of one call, as far as there are any.
fn part<Number>(numbers: &[Number], call: usize, each: usize) -> &[Number] {
    numbers.chunks(each).nth(call).unwrap_or_default()
}

// ---- The times ----

/// What the answers tell of a run that is timed.
struct Tally {
    calls: usize,
    refused: usize,
    /// The count after a call, on average.
    mean_count: f64,
}

fn tally_of(answers: &[u64]) -> Tally {
    let each = || answers.chunks_exact(ANSWER_NUMBERS);
    let calls = each().len();
    Tally {
        calls,
        refused: each().filter(|answer| answer[0] != 0).count(),
        mean_count: each().map(|answer| answer[3] as f64).sum::<f64>() / calls as f64,
    }
}

/// Times one input, prints its line and gives the door's ratio.
fn timed_ratio(input: &Input<Run>, tally: &Tally) -> f64 {
    let mut answers = vec![UNWRITTEN; tally.calls * ANSWER_NUMBERS];
    let mut time = |contender: Contender| time_for(&input.content, tally.calls, &mut answers, contender);
    let [door, kept] = best_of(ROUNDS, || [time(door::plate), time(run::<Kept>)]);
    let [recounted] = best_of(RECOUNTED_ROUNDS, || [time(run::<Recounted>)]);
    let ratio = door / kept;
    say(&format!(
        "{}, {} calls, {} refused, count {:.0} on average: door {door:.1} ns a call, 128-bit {kept:.1} ns, ratio {ratio:.3}, goal {GOAL} (recounting all pairs {recounted:.1} ns, ratio {:.2}, which is {:.1} times the door)",
        input.name,
        tally.calls,
        tally.refused,
        tally.mean_count,
        recounted / kept,
        recounted / door,
    ));
    ratio
}

fn time_for(run: &Run, calls: usize, answers: &mut [u64], contender: Contender) -> f64 {
    nanoseconds_each(calls, || {
        let Run { calls, numbers } = black_box(run);
        black_box(contender(calls, numbers, black_box(answers)));
    })
}
