//! The listings: compares the answers and buffers of `zg_list` with those of the ordinary listing,
//! and times both.

use crate::door;
use crate::inputs::lists::{self, Listed, Question};
use crate::ordinary::{is_narrow, listing, Answer, TRIANGLE_NUMBERS};
use crate::scaling::{compare_scaled, Input};
use crate::timing::{best_of, last_line, nanoseconds_each, narrow_time, say, told_narrow};
use std::hint::black_box;

/// A listing is long, so fewer rounds do than for the pairs.
const ROUNDS: usize = 15;
/// What the numbers of a buffer are before the call. No index is so high.
const UNWRITTEN: u32 = u32::MAX;
/// A list with more numbers is not printed.
const LONG: usize = 100;
/// The numbers of a buffer in front of the pairs, where the contenders are compared.
const START: usize = 3;

type Contender = fn(&[i32], &[i32], &mut [u32], usize) -> Answer;
/// The two lists of a call.
pub type Lists<'a> = [&'a [i32]; 2];
/// The numbers that a call writes: two for each pair that it finds.
type Found = Vec<u32>;

/// Compares without timing. The last line to print; it is an error where two answers or buffers differ.
pub fn compare() -> Result<String, String> {
    agreed_inputs(&lists::timed())?;
    Ok("all listings agree; nothing is timed".into())
}

/// The last line to print. It is an error where two answers or buffers differ, or where each goal has
/// to be reached and one is not.
pub fn compare_and_time(goals: bool) -> Result<String, String> {
    let inputs = lists::timed();
    let found = agreed_inputs(&inputs)?;
    let reached = inputs
        .iter()
        .zip(found)
        .filter(|(input, found)| timed_ratio(input, found) <= input.content.goal)
        .count();
    last_line("listings", reached, inputs.len(), goals)
}

// ---- The comparison ----

/// What each call of each input finds, if all contenders agree, on faulty inputs and on both scales too.
fn agreed_inputs(inputs: &[Input<Listed>]) -> Result<Vec<Vec<Found>>, String> {
    for question in lists::faulty() {
        agreed_outcome(&question)?;
    }
    let found: Vec<Vec<Found>> = inputs.iter().map(agreed_calls).collect::<Result<_, _>>()?;
    compare_scaled(inputs, &found)?;
    Ok(found)
}

/// What each call of an input finds, if all contenders agree.
fn agreed_calls(input: &Input<Listed>) -> Result<Vec<Found>, String> {
    let found = input.content.calls().into_iter().map(agreed_found);
    found
        .collect::<Result<_, _>>()
        .map_err(|message: String| format!("{}: {message}", input.name))
}

/// What a call finds, if all contenders agree. They are also asked with a buffer that is one number too
/// short.
fn agreed_found(lists: Lists) -> Result<Found, String> {
    let asked = |room: usize| {
        let [first, second] = lists.map(<[i32]>::to_vec);
        agreed_outcome(&Question {
            first,
            second,
            buffer_length: START + room,
            start: START,
        })
    };
    let (answer, buffer) = asked(2 * pairs_of(lists))?;
    if answer.number != 0 {
        return Err(format!("refused, {answer:?}"));
    }
    let length = 2 * answer.value as usize;
    if length > 0 {
        asked(length - 1)?;
    }
    Ok(buffer[START..START + length].to_vec())
}

type Outcome = (Answer, Vec<u32>);

/// The answer and the buffer, if all contenders give the same and leave the same. The 64-bit listing is not
/// asked where it would overflow.
fn agreed_outcome(question: &Question) -> Result<Outcome, String> {
    let outcome = |list: Contender| {
        let mut buffer = vec![UNWRITTEN; question.buffer_length];
        let answer = list(&question.first, &question.second, &mut buffer, question.start);
        (answer, buffer)
    };
    let wide = outcome(listing::list::<i128>);
    let are_narrow = is_narrow(&question.first) && is_narrow(&question.second);
    let narrow = are_narrow.then_some(("64-bit", listing::list::<i64> as Contender));
    for (name, list) in [("door", door::list as Contender)].into_iter().chain(narrow) {
        let other = outcome(list);
        if other != wide {
            return Err(difference(question, name, other, wide));
        }
    }
    Ok(wide)
}

fn difference(question: &Question, name: &str, other: Outcome, wide: Outcome) -> String {
    let place = (0..question.buffer_length).find(|&k| other.1[k] != wide.1[k]);
    let told_outcome = |(answer, buffer): Outcome| match place {
        Some(place) => format!("{answer:?}, number {place} of the buffer is {}", buffer[place]),
        None => format!("{answer:?}"),
    };
    format!(
        "the listings differ:\n  first {}\n  second {}\n  buffer of {} numbers, start {}\n  {name} {}\n  128-bit {}",
        told_list(&question.first),
        told_list(&question.second),
        question.buffer_length,
        question.start,
        told_outcome(other),
        told_outcome(wide),
    )
}

fn told_list(list: &[i32]) -> String {
    if list.len() > LONG {
        format!("{} numbers", list.len())
    } else {
        format!("{list:?}")
    }
}

// ---- The times ----

fn triangles(list: &[i32]) -> usize {
    list.len() / TRIANGLE_NUMBERS
}

/// How many pairs the lists of a call have, meeting or not.
fn pairs_of([first, second]: Lists) -> usize {
    triangles(first) * triangles(second)
}

/// Times one input, prints its line and gives the door's ratio. The door is timed with room for just
/// the pairs that are found and with room for every pair, in which no listing can be refused, and the
/// slower counts: a caller does not know beforehand how many pairs there are.
fn timed_ratio(input: &Input<Listed>, found: &[Found]) -> f64 {
    let calls = input.content.calls();
    let are_narrow = calls.as_flattened().iter().all(|list| is_narrow(list));
    let tight: Vec<usize> = found.iter().map(Vec::len).collect();
    let ample: Vec<usize> = calls.iter().map(|&lists| 2 * pairs_of(lists)).collect();
    let mut buffer = vec![UNWRITTEN; ample.iter().copied().max().unwrap_or_default()];
    let mut time = |rooms: &[usize], list: Contender| time_for(&calls, rooms, &mut buffer, list);
    let [door_tight, door_ample, wide, narrow] = best_of(ROUNDS, || {
        [
            time(&tight, door::list),
            time(&ample, door::list),
            time(&tight, listing::list::<i128>),
            narrow_time(are_narrow, || time(&tight, listing::list::<i64>)),
        ]
    });
    let door = door_tight.max(door_ample);
    let ratio = door / wide;
    say(&format!(
        "{}, {}, {} pairs found: door {door:.3} ns a pair, 128-bit {wide:.3} ns, ratio {ratio:.4}, goal {} (room for the pairs found {door_tight:.3} ns, for every pair {door_ample:.3} ns; {})",
        input.name,
        told_calls(&calls),
        tight.iter().sum::<usize>() / 2,
        input.content.goal,
        told_narrow(narrow, wide, 3),
    ));
    ratio
}

/// The calls of an input are alike, so the first tells how long their lists are.
pub fn told_calls(calls: &[Lists]) -> String {
    let [first, second] = calls[0].map(triangles);
    let told = format!("{first} by {second} triangles");
    match calls.len() {
        1 => told,
        count => format!("{count} calls of {told}"),
    }
}

/// Each call has so much room of the buffer.
fn time_for(calls: &[Lists], rooms: &[usize], buffer: &mut [u32], list: Contender) -> f64 {
    let pairs = calls.iter().map(|&lists| pairs_of(lists)).sum();
    nanoseconds_each(pairs, || {
        for (&lists, &room) in calls.iter().zip(rooms) {
            let [first, second] = black_box(lists);
            black_box(list(first, second, black_box(&mut buffer[..room]), 0));
        }
    })
}
