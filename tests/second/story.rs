//! A story: calls on the plate, one after the other from the empty plate on, as the door takes them. Answered by own
//! means, put to the door, compared, and shown.

use crate::answers::clashes::Clashes;
use crate::answers::plate::{Plate, PlateAnswer, PlateCall, Step};
use crate::answers::TRIANGLE_NUMBERS;
use crate::door::{self, Door, Reply, Room, PLATE_ANSWER_NUMBERS};
use crate::random::Random;
use std::fmt;

/// So many numbers say what a call is, and so many coordinates go with it, whether it takes them or not.
pub const CALL_NUMBERS: usize = 3;
pub const CALL_COORDINATES: usize = TRIANGLE_NUMBERS;

#[derive(Clone)]
pub struct Story {
    pub calls: Vec<u32>,
    pub coordinates: Vec<i32>,
    /// How many numbers the lent answers have.
    pub answers_length: usize,
}

impl PlateCall {
    /// Nothing where the kind is unknown.
    fn read(numbers: &[u32], coordinates: &[i32]) -> Option<PlateCall> {
        let [kind, one, other] = std::array::from_fn(|k| numbers[k]);
        Some(match kind {
            1 => PlateCall::Place {
                slot: one,
                part: other,
                corners: std::array::from_fn(|k| coordinates[k]),
            },
            2 => PlateCall::Lift { slot: one },
            3 => PlateCall::Shift {
                part: one,
                by: std::array::from_fn(|k| coordinates[k]),
            },
            4 => PlateCall::Undo,
            5 => PlateCall::Parts { p: one, q: other },
            _ => return None,
        })
    }
}

impl Story {
    pub fn new() -> Story {
        Story {
            calls: Vec::new(),
            coordinates: Vec::new(),
            answers_length: 0,
        }
    }

    /// Adds a call, with room for its answer. What it doesn't take is filled with what `ignored` gives.
    pub fn push(&mut self, call: &PlateCall, mut ignored: impl FnMut() -> i32) {
        let (kind, numbers, coordinates): (u32, Vec<u32>, &[i32]) = match call {
            PlateCall::Place { slot, part, corners } => (1, vec![*slot, *part], corners),
            PlateCall::Lift { slot } => (2, vec![*slot], &[]),
            PlateCall::Shift { part, by } => (3, vec![*part], by),
            PlateCall::Undo => (4, vec![], &[]),
            PlateCall::Parts { p, q } => (5, vec![*p, *q], &[]),
        };
        self.calls.push(kind);
        self.calls.extend(&numbers);
        self.coordinates.extend(coordinates);
        let missing_numbers = CALL_NUMBERS - 1 - numbers.len();
        let missing_coordinates = CALL_COORDINATES - coordinates.len();
        self.calls.extend((0..missing_numbers).map(|_| ignored() as u32));
        self.coordinates.extend((0..missing_coordinates).map(|_| ignored()));
        self.answers_length += PLATE_ANSWER_NUMBERS;
    }

    /// How many calls each of the three runs has room for.
    pub fn rooms(&self) -> [usize; 3] {
        [
            self.calls.len() / CALL_NUMBERS,
            self.coordinates.len() / CALL_COORDINATES,
            self.answers_length / PLATE_ANSWER_NUMBERS,
        ]
    }

    /// The calls that there is room for, up to the first of an unknown kind.
    fn calls_to_do(&self) -> impl Iterator<Item = PlateCall> + '_ {
        let numbers = self.calls.chunks_exact(CALL_NUMBERS);
        let coordinates = self.coordinates.chunks_exact(CALL_COORDINATES);
        let with_room = numbers
            .zip(coordinates)
            .take(self.answers_length / PLATE_ANSWER_NUMBERS);
        with_room.map_while(|(numbers, coordinates)| PlateCall::read(numbers, coordinates))
    }

    /// The own answers; the error means that this program is at fault. The verdicts found are left for the next time.
    pub fn own_steps(&self, clashes: &mut Clashes) -> Result<Vec<Step>, String> {
        let mut plate = Plate::empty();
        let calls = self.calls_to_do();
        let steps: Vec<Step> = calls.map(|call| plate.step(call, clashes)).collect();
        match steps.iter().position(|step| step.told != step.second_told) {
            None => Ok(steps),
            Some(place) => Err(format!(
                "the two own methods differ at call {place}, so the second program is wrong\n{self}"
            )),
        }
    }

    /// Puts the story to the door and compares. The inner error tells the disagreement; the outer one, why the door
    /// failed.
    pub fn compare_door(
        &self,
        told: &[PlateAnswer],
        door: &mut Door,
        random: &mut Random,
    ) -> Result<Result<(), String>, String> {
        let room = Room::with_marks(random, self.answers_length, 0);
        // The first list goes to the door as signed numbers, bit for bit.
        let calls: Vec<i32> = self.calls.iter().map(|number| *number as i32).collect();
        let question = door::Question {
            function: door::Function::Plate,
            first: &calls,
            second: &self.coordinates,
            start: 0,
            room: &room,
        };
        let replies = door.ask(&[question])?;
        let ours = door::wanted_plate_reply(told, &room);
        Ok(replies.iter().try_for_each(|theirs| compare_replies(&ours, theirs)))
    }

    /// The story without so many of its calls from a place on, and without the room for their answers.
    pub fn without(&self, place: usize, calls: usize) -> Story {
        let mut story = self.clone();
        let numbers = CALL_NUMBERS * place..CALL_NUMBERS * (place + calls);
        let coordinates = CALL_COORDINATES * place..CALL_COORDINATES * (place + calls);
        if numbers.end <= story.calls.len() {
            story.calls.drain(numbers);
        }
        if coordinates.end <= story.coordinates.len() {
            story.coordinates.drain(coordinates);
        }
        story.answers_length = story.answers_length.saturating_sub(PLATE_ANSWER_NUMBERS * calls);
        story
    }
}

impl fmt::Display for Story {
    fn fmt(&self, f: &mut fmt::Formatter) -> fmt::Result {
        let (calls, coordinates) = (self.calls.len(), self.coordinates.len());
        let answers = self.answers_length;
        write!(
            f,
            "zg_plate\n  {calls} numbers of calls, {coordinates} coordinates, room for {answers} numbers"
        )?;
        let numbers = self.calls.chunks_exact(CALL_NUMBERS);
        let all = numbers.zip(self.coordinates.chunks_exact(CALL_COORDINATES));
        for (place, (numbers, coordinates)) in all.enumerate() {
            match PlateCall::read(numbers, coordinates) {
                Some(call) => write!(f, "\n  call {place}: {call:?}")?,
                None => write!(f, "\n  call {place}: of the unknown kind {}", numbers[0])?,
            }
        }
        Ok(())
    }
}

fn compare_replies(ours: &Reply, theirs: &Reply) -> Result<(), String> {
    if theirs == ours {
        return Ok(());
    }
    let mut text = String::new();
    if theirs.result != ours.result {
        text += &format!("\n  calls done: ours {}, theirs {}", ours.result, theirs.result);
    }
    let our_answers = ours.room.answer.part().chunks(PLATE_ANSWER_NUMBERS);
    let their_answers = theirs.room.answer.part().chunks(PLATE_ANSWER_NUMBERS);
    let mut rows = our_answers.zip(their_answers).enumerate();
    if let Some((place, (our, their))) = rows.find(|(_, (our, their))| our != their) {
        text += &format!("\n  answers differ first at call {place} (number, side, place, count, reach, value):");
        let kept = if place as u64 >= ours.result { " (kept)" } else { "" };
        text += &format!("\n    ours:   {our:?}{kept}\n    theirs: {their:?}");
    }
    if theirs.room.answer.margins() != ours.room.answer.margins() {
        text += "\n  numbers outside the lent answers were written";
    }
    if !theirs.lists_stayed {
        text += "\n  a lent list was written";
    }
    Err(text)
}
