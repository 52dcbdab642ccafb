//! Stories of the plate with their answers as fixed numbers: bench row 16, how far undo reaches, the points of document
//! 01 that are easy to get wrong, and the shells of document 02.

mod shells;

use super::{A, ABOVE_A, END, THROUGH_A};
use crate::answers::plate::{Corners, Move, PlateAnswer, PlateCall, PARTS, SLOTS};
use crate::answers::Answer;
use crate::story::Story;

pub struct Stored {
    pub name: &'static str,
    pub story: Story,
    pub told: Vec<PlateAnswer>,
}

/// The calls that are told, each with what it must tell.
#[derive(Default)]
struct Script {
    calls: Vec<PlateCall>,
    told: Vec<PlateAnswer>,
}

impl Script {
    fn call(&mut self, call: PlateCall, answer: Answer, count: u64, reach: u64) {
        self.calls.push(call);
        self.told.push(PlateAnswer { answer, count, reach });
    }

    fn served(&mut self, call: PlateCall, count: u64, reach: u64) {
        self.call(call, Answer::served(0), count, reach);
    }

    fn stored(self, name: &'static str) -> Stored {
        let mut story = Story::new();
        self.calls.iter().for_each(|call| story.push(call, || 0));
        Stored {
            name,
            story,
            told: self.told,
        }
    }
}

pub fn stored() -> Vec<Stored> {
    let mut stored = vec![
        row_16(),
        forty_changes(),
        thirty_left(),
        zero_moves(),
        full_plate(),
        order_of_refusals(),
        questions(),
        ends_of_the_grid(),
        moves_too_long(),
        longest_moves(0),
        longest_moves(1),
        longest_moves(2),
        slot_filled_again(),
        unknown_kind(),
    ];
    stored.extend(shells::stored());
    stored
}

fn place(slot: u32, part: u32, corners: Corners) -> PlateCall {
    PlateCall::Place { slot, part, corners }
}

fn shift(part: u32, by: Move) -> PlateCall {
    PlateCall::Shift { part, by }
}

fn row_16() -> Stored {
    let mut script = Script::default();
    script.served(place(0, 0, A), 0, 1);
    script.served(place(1, 1, THROUGH_A), 1, 2);
    script.served(shift(1, [0, 0, 5]), 0, 3);
    script.served(PlateCall::Undo, 1, 2);
    script.served(PlateCall::Undo, 0, 1);
    script.served(PlateCall::Undo, 0, 0);
    script.call(PlateCall::Undo, Answer::refused(12, 0, 0), 0, 0);
    script.stored("16")
}

/// Places A so many times, as parts 0 and 1 in turn: each of one part clashes with each of the other.
fn place_in_turn(script: &mut Script, changes: u64) {
    for k in 0..changes {
        let reach = 32.min(k + 1);
        script.served(place(k as u32, k as u32 % 2, A), clashes_in_turn(k + 1), reach);
    }
}

fn clashes_in_turn(placed: u64) -> u64 {
    (placed / 2) * placed.div_ceil(2)
}

/// 40 changes, of which 32 can be undone: 8 stand.
fn forty_changes() -> Stored {
    let mut script = Script::default();
    place_in_turn(&mut script, 40);
    for undone in 1..=32 {
        script.served(PlateCall::Undo, clashes_in_turn(40 - undone), 32 - undone);
    }
    script.call(PlateCall::Undo, Answer::refused(12, 0, 0), 16, 0);
    script.call(PlateCall::Undo, Answer::refused(12, 0, 0), 16, 0);
    script.served(PlateCall::Lift { slot: 7 }, 12, 1);
    script.served(PlateCall::Undo, 16, 0);
    script.call(PlateCall::Undo, Answer::refused(12, 0, 0), 16, 0);
    script.stored("32 of 40 changes undone")
}

/// 40 changes, 5 undos and 3 changes leave a reach of 30, and 8 changes stand in the end.
fn thirty_left() -> Stored {
    let mut script = Script::default();
    place_in_turn(&mut script, 40);
    for undone in 1..=5 {
        script.served(PlateCall::Undo, clashes_in_turn(40 - undone), 32 - undone);
    }
    for (k, reach) in (35..38).zip(28..) {
        script.served(place(k as u32, k as u32 % 2, A), clashes_in_turn(k + 1), reach);
    }
    for undone in 1..=30 {
        script.served(PlateCall::Undo, clashes_in_turn(38 - undone), 30 - undone);
    }
    script.call(PlateCall::Undo, Answer::refused(12, 0, 0), 16, 0);
    script.stored("40 changes, 5 undos, 3 changes")
}

/// A zero move is a change like another: it pushes others out of reach.
fn zero_moves() -> Stored {
    let mut script = Script::default();
    script.served(place(3, 2, A), 0, 1);
    script.served(place(9, 4, THROUGH_A), 1, 2);
    (3..=34).for_each(|k| script.served(shift(4, [0; 3]), 1, 32.min(k)));
    (0..32).rev().for_each(|reach| script.served(PlateCall::Undo, 1, reach));
    script.call(PlateCall::Undo, Answer::refused(12, 0, 0), 1, 0);
    script.stored("zero moves")
}

/// All slots with A, four of each part: as many clashes as there can be, 1,920.
fn full_plate() -> Stored {
    let (mut script, mut count) = (Script::default(), 0);
    for slot in 0..SLOTS as u64 {
        let of_same_part = slot / u64::from(PARTS);
        count += slot - of_same_part;
        script.served(place(slot as u32, slot as u32 % PARTS, A), count, 32.min(slot + 1));
    }
    script.call(place(63, 0, A), Answer::refused(8, 0, 63), 1_920, 32);
    script.call(place(64, 0, A), Answer::refused(6, 0, 64), 1_920, 32);
    script.served(shift(15, [0, 0, 1]), 1_680, 32);
    script.served(PlateCall::Undo, 1_920, 31);
    script.stored("a full plate")
}

/// Of several faults of a place the first counts: 6, 7, 1, 2, 8.
fn order_of_refusals() -> Stored {
    let (line, last) = ([0, 0, 0, 1, 1, 1, 2, 2, 2], u32::MAX);
    let (high, high_line) = ([0, 0, 0, 4, 0, END + 1, 0, 4, -END - 1], [END + 1; 9]);
    let mut script = Script::default();
    script.served(place(5, 5, A), 0, 1);
    let mut refused = |call, number, place| script.call(call, Answer::refused(number, 0, place), 0, 1);
    refused(place(last, last, high_line), 6, u64::from(last));
    refused(place(64, 16, high_line), 6, 64);
    refused(place(5, 16, high_line), 7, 16);
    refused(place(5, last, A), 7, u64::from(last));
    refused(place(5, 5, high_line), 1, 0);
    refused(place(5, 5, high), 1, 5);
    refused(place(5, 5, line), 2, 0);
    refused(place(5, 5, A), 8, 5);
    refused(PlateCall::Lift { slot: 64 }, 6, 64);
    refused(PlateCall::Lift { slot: last }, 6, u64::from(last));
    refused(PlateCall::Lift { slot: 63 }, 9, 63);
    refused(shift(16, [i32::MAX; 3]), 7, 16);
    refused(shift(15, [i32::MAX; 3]), 10, 15);
    refused(shift(5, [i32::MAX; 3]), 11, 5);
    script.stored("the order of refusals")
}

/// What Parts refuses and answers; a part against itself is asked for its refusals first. Each part is a single
/// triangle, so its shell is open.
fn questions() -> Stored {
    let mut script = Script::default();
    script.served(place(0, 0, A), 0, 1);
    script.served(place(1, 1, THROUGH_A), 1, 2);
    script.served(place(2, 2, A.map(|n| n + 100)), 1, 3);
    let asked = [
        ((16, 17), Answer::refused(7, 0, 16)),
        ((0, u32::MAX), Answer::refused(7, 1, u64::from(u32::MAX))),
        ((5, 16), Answer::refused(7, 1, 16)),
        ((16, 16), Answer::refused(7, 0, 16)),
        ((5, 6), Answer::refused(10, 0, 5)),
        ((0, 6), Answer::refused(10, 1, 6)),
        ((6, 0), Answer::refused(10, 0, 6)),
        ((6, 6), Answer::refused(10, 0, 6)),
        ((0, 0), Answer::served(0)),
        ((0, 1), Answer::served(1)),
        ((1, 0), Answer::served(1)),
        ((0, 2), Answer::refused(16, 0, 0)),
        ((2, 1), Answer::refused(16, 0, 2)),
    ];
    for ((p, q), answer) in asked {
        script.call(PlateCall::Parts { p, q }, answer, 1, 3);
    }
    script.stored("questions of parts")
}

/// Both ends of the grid belong to it, and the lowest slot that would leave it is named.
fn ends_of_the_grid() -> Stored {
    let mut script = Script::default();
    script.served(place(40, 3, ABOVE_A), 0, 1);
    script.served(place(7, 3, A), 0, 2);
    script.served(place(9, 3, A), 0, 3);
    script.served(place(2, 4, ABOVE_A), 1, 4);
    script.call(shift(3, [0, 0, END]), Answer::refused(11, 0, 40), 1, 4);
    script.served(shift(3, [0, 0, END - 1]), 0, 5);
    script.call(shift(3, [END - 3, 0, 0]), Answer::refused(11, 0, 7), 0, 5);
    script.served(shift(3, [END - 4, 0, 0]), 0, 6);
    script.call(shift(3, [0, 0, -2 * END]), Answer::refused(11, 0, 7), 0, 6);
    script.served(shift(3, [0, 0, -2 * END + 1]), 0, 7);
    script.call(shift(3, [0, 0, -1]), Answer::refused(11, 0, 7), 0, 7);
    (0..2).for_each(|k| script.served(PlateCall::Undo, 0, 6 - k));
    script.served(PlateCall::Undo, 1, 4);
    script.stored("to the ends of the grid")
}

/// Moves by the ends of the 32-bit numbers, of triangles in the planes that these lead to when cut to 32 bits.
fn moves_too_long() -> Stored {
    let mut script = Script::default();
    script.served(place(1, 1, A), 0, 1);
    script.served(place(2, 2, A.map(|n| n - 1)), 0, 2);
    for (end, reach) in [i32::MIN, i32::MIN + 1, i32::MAX, i32::MAX - 1].into_iter().zip(2..) {
        let by = |axis: usize| std::array::from_fn(|k| if k == axis { end } else { 0 });
        for axis in 0..3 {
            script.call(shift(1, by(axis)), Answer::refused(11, 0, 1), 0, reach);
            script.call(shift(2, by(axis)), Answer::refused(11, 0, 2), 0, reach);
        }
        script.served(shift(2, [0, 0, -1]), 0, reach + 1);
    }
    script.stored("moves too long")
}

/// Moves by the ends of the 32-bit numbers along an axis, which lead from one end of the grid to the other or a step
/// less, and a step further are refused; and their undos, of which one is a move that has no room in 32 bits.
fn longest_moves(axis: usize) -> Stored {
    let wall = |height: i32| -> Corners {
        let high_a = [0, 0, height, 4, 0, height, 0, 4, height];
        std::array::from_fn(|k| high_a[k / 3 * 3 + (k + 2 - axis) % 3])
    };
    let along = |part: u32, by: i32| shift(part, std::array::from_fn(|k| if k == axis { by } else { 0 }));
    let refused = |slot| Answer::refused(11, 0, slot);
    let mut script = Script::default();
    script.served(place(0, 1, wall(END)), 0, 1);
    script.served(place(1, 2, wall(-END)), 0, 2);
    script.call(along(1, i32::MAX), refused(0), 0, 2);
    script.served(along(1, i32::MIN), 1, 3);
    script.call(along(1, i32::MIN), refused(0), 1, 3);
    script.served(along(1, i32::MAX), 0, 4);
    script.call(along(1, i32::MIN), refused(0), 0, 4);
    script.served(along(1, i32::MIN + 1), 1, 5);
    script.call(along(2, i32::MIN), refused(1), 1, 5);
    script.served(along(2, i32::MAX), 0, 6);
    script.call(along(2, i32::MAX), refused(1), 0, 6);
    for (reach, count) in [(5, 1), (4, 0), (3, 1), (2, 0)] {
        script.served(PlateCall::Undo, count, reach);
    }
    script.served(place(9, 3, wall(END)), 1, 3);
    script.served(along(3, i32::MIN), 1, 4);
    script.served(PlateCall::Undo, 1, 3);
    script.served(place(8, 3, wall(END - 1)), 1, 4);
    script.call(along(3, i32::MIN), refused(8), 1, 4);
    script.stored("the longest moves")
}

/// A lifted slot can be filled again, and each undo brings back the part and the triangle that stood there.
fn slot_filled_again() -> Stored {
    let mut script = Script::default();
    script.served(place(0, 0, A), 0, 1);
    script.served(place(1, 1, THROUGH_A), 1, 2);
    script.served(PlateCall::Lift { slot: 1 }, 0, 3);
    script.served(place(1, 0, THROUGH_A), 0, 4);
    script.call(PlateCall::Parts { p: 0, q: 1 }, Answer::refused(10, 1, 1), 0, 4);
    script.served(PlateCall::Undo, 0, 3);
    script.call(PlateCall::Lift { slot: 1 }, Answer::refused(9, 0, 1), 0, 3);
    script.served(PlateCall::Undo, 1, 2);
    script.call(PlateCall::Parts { p: 0, q: 1 }, Answer::served(1), 1, 2);
    script.served(shift(1, [0, 0, 5]), 0, 3);
    script.served(PlateCall::Undo, 1, 2);
    script.stored("a slot filled again")
}

/// The call of an unknown kind and those after it are not done.
fn unknown_kind() -> Stored {
    let mut script = Script::default();
    script.served(place(0, 0, A), 0, 1);
    script.served(PlateCall::Undo, 0, 0);
    script.served(place(0, 0, A), 0, 1);
    let mut stored = script.stored("an unknown kind");
    stored.story.calls[3] = 6;
    stored.told.truncate(1);
    stored
}
