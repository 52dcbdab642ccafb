//! Stories of request Q-4: a part swallowed by another, in its hollow or beside it, and open shells. The answers are
//! those of the request's words, worked out by hand.

use super::{place, shift, Script, Stored, END};
use crate::answers::plate::{Corners, Move, PlateCall, MOST_REACH};
use crate::answers::Answer;

type Point = [i32; 3];

const NO: Answer = Answer::served(0);
const YES: Answer = Answer::served(1);

pub fn stored() -> Vec<Stored> {
    vec![
        pin_in_block(),
        pin_in_hollow(),
        pin_in_line(),
        pins_inside_and_outside(),
        open_shells(),
        skins_of_open_shells(),
        shells_of_one_part(),
        block_as_large_as_the_grid(),
    ]
}

// ---- Shells ----

fn triangle([a, b, c]: [Point; 3]) -> Corners {
    std::array::from_fn(|k| [a, b, c][k / 3][k % 3])
}

/// Four triangles, from a corner as far along each axis as told.
fn pin([x, y, z]: Point, size: i32) -> Vec<Corners> {
    let (a, b, c, d) = ([x, y, z], [x + size, y, z], [x, y + size, z], [x, y, z + size]);
    [[a, c, b], [a, b, d], [b, c, d], [c, a, d]].map(triangle).to_vec()
}

/// Twelve triangles, facing out. The sides across x are cut from their lowest corner to their highest.
fn block(low: i32, high: i32) -> Vec<Corners> {
    let corner = |k: usize| [k & 1, k >> 1 & 1, k >> 2].map(|end| [low, high][end]);
    let sides = [
        [0, 4, 6, 2],
        [1, 3, 7, 5],
        [0, 1, 5, 4],
        [2, 6, 7, 3],
        [0, 2, 3, 1],
        [4, 5, 7, 6],
    ];
    let halves = sides.into_iter().flat_map(|[a, b, c, d]| [[a, b, c], [a, c, d]]);
    halves.map(|numbers| triangle(numbers.map(corner))).collect()
}

/// The same triangles from their other side.
fn turned(shell: Vec<Corners>) -> Vec<Corners> {
    let swap = |[a, b, c, d, e, f, g, h, i]: Corners| [a, b, c, g, h, i, d, e, f];
    shell.into_iter().map(swap).collect()
}

// ---- What is told ----

impl Script {
    /// The count and the reach after the last call.
    fn last(&self) -> (u64, u64) {
        self.told.last().map_or((0, 0), |told| (told.count, told.reach))
    }

    fn change(&mut self, call: PlateCall, count: u64) {
        let (_, reach) = self.last();
        self.served(call, count, MOST_REACH.min(reach + 1));
    }

    /// Triangles that meet no other part, from a slot on.
    fn place_all(&mut self, slot: u32, part: u32, shell: &[Corners]) {
        let (count, _) = self.last();
        (slot..)
            .zip(shell)
            .for_each(|(slot, corners)| self.change(place(slot, part, *corners), count));
    }

    fn lift(&mut self, slot: u32) {
        let (count, _) = self.last();
        self.change(PlateCall::Lift { slot }, count);
    }

    fn undo(&mut self) {
        let (count, reach) = self.last();
        self.served(PlateCall::Undo, count, reach - 1);
    }

    fn ask(&mut self, p: u32, q: u32, answer: Answer) {
        let (count, reach) = self.last();
        self.call(PlateCall::Parts { p, q }, answer, count, reach);
    }

    fn ask_both_ways(&mut self, p: u32, q: u32, answer: Answer) {
        self.ask(p, q, answer);
        self.ask(q, p, answer);
    }

    /// The count stays.
    fn move_and_ask(&mut self, part: u32, by: Move, other: u32, answer: Answer) {
        let (count, _) = self.last();
        self.change(shift(part, by), count);
        self.ask_both_ways(part, other, answer);
    }
}

// ---- Swallowed or not ----

/// The count is one of skins that meet, so it stays 0 while the parts clash.
fn pin_in_block() -> Stored {
    let mut script = Script::default();
    script.place_all(0, 3, &block(0, 10));
    script.place_all(40, 5, &pin([5; 3], 1));
    script.ask_both_ways(3, 5, YES);
    script.move_and_ask(5, [3, 3, 3], 3, YES);
    script.move_and_ask(5, [-7, -7, -7], 3, YES);
    script.move_and_ask(5, [-3, 0, 0], 3, NO);
    script.move_and_ask(5, [13, 0, 0], 3, NO);
    script.move_and_ask(5, [-6, -3, 0], 3, NO);
    script.undo();
    script.undo();
    script.undo();
    script.ask_both_ways(3, 5, YES);
    script.stored("a pin in a block")
}

/// In the hollow two triangles are ahead, in what is around it one or three, and outside none.
fn pin_in_hollow() -> Stored {
    let mut script = Script::default();
    script.place_all(0, 0, &block(0, 12));
    script.place_all(20, 0, &turned(block(3, 9)));
    script.place_all(50, 1, &pin([5; 3], 1));
    script.ask_both_ways(0, 1, NO);
    script.move_and_ask(1, [-4, 0, 0], 0, YES);
    script.move_and_ask(1, [9, 0, 0], 0, YES);
    script.move_and_ask(1, [-5, -4, 0], 0, YES);
    script.move_and_ask(1, [0, 4, 2], 0, NO);
    script.move_and_ask(1, [0, 0, 3], 0, YES);
    script.move_and_ask(1, [0, 0, 3], 0, NO);
    script.stored("a pin in the hollow of a block")
}

/// Rays from the pin run along the block's edges, and rays from the block through the pin's corners.
fn pin_in_line() -> Stored {
    let mut script = Script::default();
    script.place_all(0, 0, &block(0, 10));
    script.place_all(20, 1, &pin([-20, 0, 0], 10));
    script.ask_both_ways(0, 1, NO);
    script.move_and_ask(1, [31, 0, 0], 0, NO);
    script.move_and_ask(1, [-31, -10, 0], 0, NO);
    script.move_and_ask(1, [0, 0, -10], 0, NO);
    script.move_and_ask(1, [0, 10, 0], 0, NO);
    script.stored("a pin in line with a block")
}

/// Not only the first corner counts, nor only the last, nor only those of one part.
fn pins_inside_and_outside() -> Stored {
    let mut script = Script::default();
    script.place_all(10, 0, &block(0, 10));
    script.place_all(30, 1, &pin([5; 3], 1));
    script.place_all(0, 1, &pin([15; 3], 1));
    script.place_all(60, 1, &pin([-5; 3], 1));
    script.ask_both_ways(0, 1, YES);
    script.move_and_ask(1, [20, 0, 0], 0, NO);
    script.move_and_ask(1, [-30, -10, -10], 0, YES);
    script.stored("pins inside and outside of a block")
}

// ---- Open shells ----

fn open_shells() -> Stored {
    let [block_first, block_second] = [0, 1].map(|side| Answer::refused(16, side, 0));
    let [pin_first, pin_second] = [0, 1].map(|side| Answer::refused(16, side, 1));
    let mut script = Script::default();
    script.place_all(0, 0, &block(0, 10));
    script.place_all(20, 1, &pin([5; 3], 1));
    script.lift(3);
    script.ask(0, 1, block_first);
    script.ask(1, 0, block_second);
    script.ask(0, 0, NO);
    script.ask(1, 1, NO);
    script.lift(22);
    script.ask(0, 1, block_first);
    script.ask(1, 0, pin_first);
    script.ask(1, 1, NO);
    script.undo();
    script.undo();
    script.ask_both_ways(0, 1, YES);
    script.lift(20);
    script.ask(0, 1, pin_second);
    script.ask(1, 0, pin_first);
    script.change(place(20, 1, turned(pin([5; 3], 1))[0]), 0);
    script.ask(0, 1, pin_second);
    script.undo();
    script.change(place(63, 1, pin([5; 3], 1)[0]), 0);
    script.ask_both_ways(0, 1, YES);
    script.change(place(62, 1, pin([5; 3], 1)[0]), 0);
    script.ask(0, 1, pin_second);
    script.ask(2, 1, Answer::refused(10, 0, 2));
    script.ask(1, 16, Answer::refused(7, 1, 16));
    script.stored("open shells")
}

/// Where the skins meet nobody asks for shells: here the last triangle goes through one of the block's.
fn skins_of_open_shells() -> Stored {
    let mut script = Script::default();
    script.place_all(0, 0, &block(0, 10));
    script.place_all(20, 1, &pin([5; 3], 1));
    script.change(place(30, 2, [-1, 7, 2, 1, 7, 2, 1, 7, 3]), 1);
    script.ask_both_ways(0, 2, YES);
    script.ask(2, 2, NO);
    script.ask(1, 2, Answer::refused(16, 1, 2));
    script.ask(2, 1, Answer::refused(16, 0, 2));
    script.lift(11);
    script.ask_both_ways(0, 2, YES);
    script.ask(0, 1, Answer::refused(16, 0, 0));
    script.ask(1, 2, Answer::refused(16, 1, 2));
    script.stored("skins of open shells")
}

/// Two shells of a part may have a corner in common, but no edge.
fn shells_of_one_part() -> Stored {
    let mut script = Script::default();
    script.place_all(0, 0, &pin([0; 3], 4));
    script.place_all(8, 1, &pin([20; 3], 1));
    script.place_all(4, 0, &pin([0; 3], -4));
    script.ask_both_ways(0, 1, NO);
    (0..4).for_each(|_| script.undo());
    let beside = [[0, 0, 0], [4, 0, 0], [0, -4, 0], [0, 0, -4]];
    let [a, b, c, d] = beside;
    script.place_all(4, 0, &[[a, c, b], [a, b, d], [b, c, d], [c, a, d]].map(triangle));
    script.ask(0, 1, Answer::refused(16, 0, 0));
    script.ask(1, 0, Answer::refused(16, 1, 0));
    script.stored("shells of one part")
}

fn block_as_large_as_the_grid() -> Stored {
    let mut script = Script::default();
    script.place_all(0, 15, &block(-END, END));
    script.place_all(12, 14, &pin([1 - END; 3], 1));
    script.ask_both_ways(14, 15, YES);
    script.move_and_ask(14, [END - 3 + END; 3], 15, YES);
    script.move_and_ask(14, [3 - END - END, 0, 1 - END], 15, YES);
    script.stored("a block as large as the grid")
}
