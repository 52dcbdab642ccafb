//! What a call on the plate and a whole story can meet: each kind of call, what was undone, how crowded the plate was,
//! and where the story ended.

use crate::answers::plate::{leaves_grid, pieces_of, Change, Move, PlateCall, Step, MOST_REACH, SHIFT_OFF_GRID, SLOTS};
use crate::answers::{GRID, TRIANGLE_NUMBERS};
use crate::door::PLATE_ANSWER_NUMBERS;
use crate::story::{Story, CALL_COORDINATES, CALL_NUMBERS};

/// Whether a case was met, by its name.
pub type Met = Vec<(&'static str, bool)>;

/// What a story has told before a call.
#[derive(Default)]
pub struct Past {
    count: u64,
    reach: u64,
    standing: usize,
    /// Served undos since the last change.
    undos_in_a_row: u64,
    /// Slots that were filled at some time.
    filled: u64,
}

impl Past {
    pub fn note(&mut self, step: &Step) {
        self.count = step.told.count;
        self.reach = step.told.reach;
        self.standing = step.standing;
        match step.call {
            _ if !is_served(step) => {}
            PlateCall::Undo => self.undos_in_a_row += 1,
            PlateCall::Parts { .. } => {}
            PlateCall::Place { slot, .. } => {
                self.filled |= 1 << slot;
                self.undos_in_a_row = 0;
            }
            _ => self.undos_in_a_row = 0,
        }
    }
}

// ---- Cases of a call ----

pub fn call_cases(step: &Step, past: &Past) -> Met {
    let of_kinds = [
        kind_cases(step),
        change_cases(step, past),
        shift_cases(step, past),
        undo_cases(step, past),
    ];
    of_kinds.concat()
}

fn kind_cases(step: &Step) -> Met {
    let (served, value) = (is_served(step), step.told.answer.value);
    let same_part = matches!(step.call, PlateCall::Parts { p, q } if p == q);
    let kind = kind_name(&step.call);
    vec![
        ("places", served && kind == "place"),
        ("lifts", served && kind == "lift"),
        ("shifts", served && kind == "shift"),
        ("undos", served && kind == "undo"),
        ("parts that clash", served && kind == "parts" && value == 1),
        (
            "parts that don't",
            served && kind == "parts" && value == 0 && !same_part,
        ),
        ("a part against itself", served && same_part),
    ]
}

fn change_cases(step: &Step, past: &Past) -> Met {
    let is_change = is_served(step) && !matches!(step.call, PlateCall::Undo | PlateCall::Parts { .. });
    let (mut refilled, mut full) = (false, false);
    if let (true, PlateCall::Place { slot, .. }) = (is_change, step.call) {
        refilled = past.filled >> slot & 1 == 1;
        full = step.before.iter().flatten().count() == SLOTS - 1;
    }
    vec![
        ("a slot filled again", refilled),
        ("a plate made full", full),
        ("a change at reach 32", is_change && past.reach == MOST_REACH),
        ("a change after an undo", is_change && past.undos_in_a_row > 0),
        (
            "a change that raised the count",
            is_change && step.told.count > past.count,
        ),
        ("a change that lowered it", is_change && step.told.count < past.count),
        ("refused with a count", !is_served(step) && step.told.count > 0),
    ]
}

fn shift_cases(step: &Step, past: &Past) -> Met {
    let PlateCall::Shift { part, by } = step.call else {
        return shift_met([false; 9]);
    };
    let (served, leaving) = (is_served(step), step.told.answer.number == SHIFT_OFF_GRID);
    let pieces = || pieces_of(&step.before, part);
    let moved = |k: usize, corners: &[i32; TRIANGLE_NUMBERS]| i64::from(corners[k]) + i64::from(by[k % 3]);
    let at_end = pieces().any(|(_, piece)| {
        let mut places = (0..TRIANGLE_NUMBERS).filter(|k| by[k % 3] != 0);
        places.any(|k| moved(k, &piece.corners).abs() == i64::from(GRID))
    });
    let first_leaves = pieces().next().is_some_and(|(_, piece)| leaves_grid(piece, &by));
    let last_leaves = pieces().last().is_some_and(|(_, piece)| leaves_grid(piece, &by));
    shift_met([
        served && by == [0; 3],
        served && at_end,
        served && step.told.count != past.count,
        served && pieces().count() > 1,
        leaving && !first_leaves,
        leaving && !last_leaves,
        leaving && is_longest(&by),
        served && by.contains(&i32::MIN),
        served && by.contains(&i32::MAX),
    ])
}

/// Along some axis the move is as long as 32 bits allow.
fn is_longest(by: &Move) -> bool {
    by.iter().any(|n| [i32::MIN, i32::MAX].contains(n))
}

fn shift_met(met: [bool; 9]) -> Met {
    let names = [
        "a zero move",
        "a shift to the end of the grid",
        "a shift that changed the count",
        "a shift of several triangles",
        "a shift that only later triangles of the part refuse",
        "a shift that the last of the part allows and another refuses",
        "a shift by an end of the 32-bit numbers",
        "a shift by the lowest 32-bit number that is served",
        "a shift by the highest one that is served",
    ];
    names.into_iter().zip(met).collect()
}

fn undo_cases(step: &Step, past: &Past) -> Met {
    let undone = step.undone.as_ref();
    let of_shift = matches!(undone, Some(Change::Shift { .. }));
    let of_longest = matches!(undone, Some(Change::Shift { by, .. }) if is_longest(by));
    let refused = matches!(step.call, PlateCall::Undo) && !is_served(step);
    vec![
        ("undos of a place", matches!(undone, Some(Change::Place { .. }))),
        ("undos of a lift", matches!(undone, Some(Change::Lift { .. }))),
        ("undos of a shift", of_shift),
        ("undos of a shift by an end of the 32-bit numbers", of_longest),
        (
            "undos of a shift that changed the count",
            of_shift && step.told.count != past.count,
        ),
        ("undos to the empty plate", undone.is_some() && step.standing == 0),
        (
            "undo refused after 32 undos, with changes standing",
            refused && past.undos_in_a_row >= MOST_REACH && past.standing > 0,
        ),
        ("undo refused with no change standing", refused && past.standing == 0),
    ]
}

// ---- Cases of a story ----

pub fn story_cases(story: &Story, done: usize) -> Met {
    let rooms @ [calls, coordinates, answers] = story.rooms();
    let room = rooms.into_iter().min().unwrap_or(0);
    let left_over = [
        story.calls.len() % CALL_NUMBERS,
        story.coordinates.len() % CALL_COORDINATES,
        story.answers_length % PLATE_ANSWER_NUMBERS,
    ];
    vec![
        ("stopped by an unknown kind", done < room),
        ("stopped by an unknown kind at once", done == 0 && room > 0),
        ("fewest calls in the calls", calls < coordinates && calls < answers),
        (
            "fewest in the coordinates",
            coordinates < calls && coordinates < answers,
        ),
        ("fewest in the answers", answers < calls && answers < coordinates),
        ("room for no call", room == 0),
        ("part of a call left over", left_over[0] > 0 && done == calls),
        ("part of its coordinates", left_over[1] > 0 && done == coordinates),
        ("part of an answer kept", left_over[2] > 0 && done == answers),
        ("whole answers kept", answers > done),
    ]
}

// ---- Names ----

pub fn is_served(step: &Step) -> bool {
    step.told.answer.number == 0
}

pub fn kind_name(call: &PlateCall) -> &'static str {
    match call {
        PlateCall::Place { .. } => "place",
        PlateCall::Lift { .. } => "lift",
        PlateCall::Shift { .. } => "shift",
        PlateCall::Undo => "undo",
        PlateCall::Parts { .. } => "parts",
    }
}
