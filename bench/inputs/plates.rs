//! The plates' inputs: runs of calls, five kinds that are timed, and faulty ones. Three of the five are of
//! random calls, each from a seed of its own; two are of questions whether two shells clash. All five but the
//! tiny grid are timed on both scales.

use super::lists::{small_triangle, tiny_triangle};
use super::surfaces::{octahedron, tetrahedron};
use super::{box_list, faulty_shape, shape_about, List, SMALL_HALF};
use crate::ordinary::plate::kept::Kept;
use crate::ordinary::plate::{Plate, ANSWER_NUMBERS, CALL_NUMBERS, CLASH, LIFT, PARTS, PLACE, SHIFT, SLOTS, UNDO};
use crate::ordinary::{GRID, NARROW, TRIANGLE_NUMBERS};
use crate::random::Random;
use crate::scaling::{as_it_is, on_both_scales, scaled, Input, SCALE};

/// This many calls in a run of random ones that is timed.
const CALLS: usize = 10_000;
/// This many questions in a run of questions. One takes many times as long as a random call.
const QUESTIONS: usize = 1_000;
/// Of the calls that the plate would refuse, one in so many stays in a run that is timed.
const REFUSED_ONCE_IN: u64 = 20;
/// The refusals of a number off the grid, and of a move off it.
const OFF_GRID: [u64; 2] = [1, 11];
/// The middle goes from -MIDDLE_HALF to this, which leaves room for moves.
const MIDDLE_HALF: i32 = NARROW / 4;

/// So many runs with faults, each of fewer random calls and then fewer undos than these.
const FAULTY_RUNS: usize = 2_000;
const FAULTY_CALLS: usize = 120;
const FAULTY_UNDOS: usize = 50;
/// One of them in so many starts with two shells, of which one is moved so often.
const SHELLS_ONCE_IN: u64 = 4;
const SHELL_MOVES: usize = 6;
/// One in so many starts with a triangle that goes from one end of the grid to the other, and back.
const ACROSS_ONCE_IN: u64 = 8;

/// The kinds of calls, each as often as it is drawn. Four places are drawn for one lift, and the fuller
/// the plate is the more places are refused: on average some 50 slots are filled.
const KINDS: [u32; 13] = [
    PLACE, PLACE, PLACE, PLACE, PLACE, PLACE, PLACE, PLACE, LIFT, LIFT, SHIFT, UNDO, CLASH,
];

/// A run of calls from the empty plate, as the door takes them.
#[derive(Default)]
pub struct Run {
    pub calls: Vec<u32>,
    pub numbers: Vec<i32>,
}

impl Run {
    fn push(&mut self, call: Call) {
        self.calls.extend(call.about);
        self.numbers.extend(call.numbers);
    }

    /// Asks whether the parts clash.
    fn push_question(&mut self, p: u32, q: u32) {
        self.push(Call {
            about: [CLASH, p, q],
            numbers: [0; TRIANGLE_NUMBERS],
        });
    }

    fn scaled(&self, scale: i32) -> Run {
        Run {
            calls: self.calls.clone(),
            numbers: scaled(&self.numbers, scale),
        }
    }

    /// Places the triangles of a list, from this slot on.
    fn push_places(&mut self, first_slot: u32, part: u32, list: &[i32]) {
        let triangles = list.chunks_exact(TRIANGLE_NUMBERS);
        for (slot, triangle) in (first_slot..).zip(triangles) {
            self.calls.extend([PLACE, slot, part]);
            self.numbers.extend(triangle);
        }
    }
}

/// One call: its kind and what it is about, and the triangle or the move.
struct Call {
    about: [u32; CALL_NUMBERS],
    numbers: List,
}

/// What triangles are placed, how far they are moved at most along each axis, and which end of a grid the
/// calls with faults are about.
struct Style {
    any_triangle: fn(&mut Random) -> List,
    farthest: [i32; 3],
    end: i32,
}

/// Runs of mostly served calls.
pub fn timed() -> Vec<Input<Run>> {
    let middle = of_random(9, any_middle_triangle, [MIDDLE_HALF / 8; 3]);
    let small = of_random(10, small_triangle, [SMALL_HALF; 3]);
    // They stay close, and what lies in one plane stays there.
    let tiny = of_random(11, tiny_triangle, [1, 0, 0]);
    // Seen along x they overlap, so that the way from a corner leads through the other shell.
    let beside = of_questions(
        octahedron([-240_000, 0, 0], 200_000),
        octahedron([240_000, 35_001, 52_003], 200_000),
    );
    let inside = of_questions(
        octahedron([0, 0, 0], 400_000),
        octahedron([20_001, 35_003, 52_007], 100_000),
    );
    let on_both = |name, run: Run| on_both_scales(name, |scale| run.scaled(scale));
    [
        on_both("random over the middle", middle),
        on_both("small triangles, spread", small),
        as_it_is("a tiny grid, many touching or in one plane", tiny),
        on_both("questions of two shells of 32 triangles, beside each other", beside),
        on_both("questions of two shells of 32 triangles, one inside the other", inside),
    ]
    .into_iter()
    .flatten()
    .collect()
}

/// The shells are parts 0 and 1, and they are asked about both ways in turn.
fn of_questions(shell: Vec<i32>, other: Vec<i32>) -> Run {
    let mut run = Run::default();
    run.push_places(0, 0, &shell);
    run.push_places(SLOTS as u32 / 2, 1, &other);
    for (p, q) in [(0, 1), (1, 0)].into_iter().cycle().take(QUESTIONS) {
        run.push_question(p, q);
    }
    run
}

/// The ordinary plate says which of the calls that are drawn would be refused. Such a call leaves it as
/// it is, and another is drawn in its stead, but now and then it stays. It is asked on the larger scale, so
/// that NARROW is the end of the grid for what is drawn; what is refused for that end never stays, since on the
/// smaller scale there is room beyond it. So the answers are the same on both.
fn of_random(seed: u64, any_triangle: fn(&mut Random) -> List, farthest: [i32; 3]) -> Run {
    let style = Style {
        any_triangle,
        farthest,
        end: NARROW,
    };
    let mut random = Random::new(seed, 0);
    let mut plate = Plate::<Kept>::empty();
    let mut run = Run::default();
    while run.calls.len() < CALLS * CALL_NUMBERS {
        let call = any_call(&mut random, &style);
        let answer = plate.call(&call.about, &scaled(&call.numbers, SCALE));
        let [refusal, ..] = answer.expect("only known kinds are drawn");
        if refusal == 0 || random.once_in(REFUSED_ONCE_IN) && !OFF_GRID.contains(&refusal) {
            run.push(call);
        }
    }
    run
}

fn any_call(random: &mut Random, style: &Style) -> Call {
    let kind = random.pick(&KINDS);
    let [first, second] = match kind {
        PLACE => [any_slot(random), any_part(random)],
        LIFT => [any_slot(random), 0],
        SHIFT => [any_part(random), 0],
        CLASH => [any_part(random), any_part(random)],
        _ => [0, 0],
    };
    let numbers = match kind {
        PLACE if random.once_in(20) => shape_about(random, style.end),
        PLACE => (style.any_triangle)(random),
        SHIFT => any_move(random, style.farthest, style.end),
        _ => [0; TRIANGLE_NUMBERS],
    };
    Call {
        about: [kind, first, second],
        numbers,
    }
}

pub fn any_slot(random: &mut Random) -> u32 {
    any_below(random, SLOTS as u32)
}

pub fn any_part(random: &mut Random) -> u32 {
    any_below(random, PARTS)
}

/// Now and then the number is too high.
fn any_below(random: &mut Random, end: u32) -> u32 {
    if random.once_in(40) {
        random.pick(&[end, end + 1, u32::MAX])
    } else {
        random.index(end as usize) as u32
    }
}

pub fn any_middle_triangle(random: &mut Random) -> List {
    box_list(random, -MIDDLE_HALF, MIDDLE_HALF)
}

/// Now and then a move by nothing, or by far too much for a grid with this end.
pub fn any_move(random: &mut Random, farthest: [i32; 3], end: i32) -> List {
    let mut list = [0; TRIANGLE_NUMBERS];
    for (step, farthest) in list.iter_mut().zip(farthest) {
        *step = random.between(-farthest, farthest);
    }
    if random.once_in(40) {
        list[random.index(3)] = random.pick(&[end, -2 * end, i32::MAX, i32::MIN]);
    } else if random.once_in(40) {
        list = [0; TRIANGLE_NUMBERS];
    }
    list
}

/// What the door may be asked, faulty or not.
pub struct Question {
    pub run: Run,
    pub answers_length: usize,
}

/// Short runs of calls of all kinds, refused or not, in which the numbers, the answers or the calls may
/// have too little room and a kind may be unknown. Some begin with a triangle that crosses the grid, some
/// with two shells and questions about them.
/// Many undos at the end reach back beyond what can be taken back.
pub fn faulty() -> Vec<Question> {
    let mut random = Random::new(12, 0);
    let any_question = || faulty_question(&mut random);
    std::iter::repeat_with(any_question).take(FAULTY_RUNS).collect()
}

fn faulty_question(random: &mut Random) -> Question {
    let style = Style {
        any_triangle: if random.once_in(2) { faulty_shape } else { tiny_triangle },
        farthest: [2; 3],
        end: GRID,
    };
    let mut run = Run::default();
    if random.once_in(ACROSS_ONCE_IN) {
        push_across(random, &mut run);
    }
    if random.once_in(SHELLS_ONCE_IN) {
        push_tetrahedra(random, &mut run);
    }
    for _ in 0..random.index(FAULTY_CALLS) {
        run.push(any_call(random, &style));
    }
    for _ in 0..random.index(FAULTY_UNDOS) {
        run.push(Call {
            about: [UNDO, random.next() as u32, random.next() as u32],
            numbers: box_list(random, i32::MIN, i32::MAX),
        });
    }
    if random.once_in(4) && !run.calls.is_empty() {
        let call = random.index(run.calls.len() / CALL_NUMBERS);
        run.calls[call * CALL_NUMBERS] = random.pick(&[0, CLASH + 1, u32::MAX]);
    }
    let answers_length = shortened(random, run.calls.len() / CALL_NUMBERS * ANSWER_NUMBERS);
    run.calls.truncate(shortened(random, run.calls.len()));
    run.numbers.truncate(shortened(random, run.numbers.len()));
    Question { run, answers_length }
}

/// A large tetrahedron and a small one, of which each now and then lacks a triangle. The small one is moved
/// about, inside the large one, into its skin and beside it, and before each move they are asked about both
/// ways.
fn push_tetrahedra(random: &mut Random, run: &mut Run) {
    let [p, q] = random.pick(&[[0, 1], [1, 0], [PARTS - 1, 7]]);
    for (first_slot, part, half_edge) in [(0, p, 6), (4, q, 1)] {
        let mut shell = tetrahedron(half_edge);
        if random.once_in(8) {
            shell.truncate(shell.len() - TRIANGLE_NUMBERS);
        }
        run.push_places(first_slot, part, &shell);
    }
    for _ in 0..SHELL_MOVES {
        run.push_question(p, q);
        run.push_question(q, p);
        run.push(Call {
            about: [SHIFT, q, 0],
            numbers: any_move(random, [4; 3], GRID),
        });
    }
}

/// A triangle at one end of the grid goes to the other, by as much as a move can be or by too much, and back.
/// The way back of one of these moves is 2^31, which is no 32-bit number.
fn push_across(random: &mut Random, run: &mut Run) {
    let axis = random.index(3);
    let mut triangle = [0, 0, 0, 4, 1, 2, 3, 4, 1];
    let mut step = [0; TRIANGLE_NUMBERS];
    let end = random.pick(&[GRID, -GRID]);
    triangle
        .iter_mut()
        .skip(axis)
        .step_by(3)
        .for_each(|number| *number = end);
    step[axis] = random.pick(&[i32::MIN, i32::MIN + 1, i32::MAX]);
    let part = 2; // not one of the shells'
    run.push_places(SLOTS as u32 - 1, part, &triangle);
    for kind in [SHIFT, UNDO, SHIFT] {
        run.push(Call {
            about: [kind, part, 0],
            numbers: step,
        });
    }
}

/// Now and then fewer.
fn shortened(random: &mut Random, length: usize) -> usize {
    if random.once_in(4) {
        random.index(length + 1)
    } else {
        length
    }
}
