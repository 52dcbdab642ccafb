//! One call with its lists: answered by own means, put to the door, compared, and shown.

use crate::answers::listing::Listing;
use crate::answers::{self, Opinion, Outcome};
use crate::byte_pair::BytePair;
use crate::door::{self, Function, Question, Reply, Room, ANSWER_NUMBERS};
use std::fmt;

pub enum Call {
    Turn(Vec<i32>),
    Side(Vec<i32>),
    Flat(Vec<i32>, Vec<i32>),
    Segment(Vec<i32>, Vec<i32>),
    Pair(Vec<i32>, Vec<i32>),
    List(Listing),
}

/// A list is shown whole up to so many numbers.
const SHOWN_NUMBERS: usize = 400;

impl Call {
    pub fn own_opinion(&self) -> Opinion {
        match self {
            Call::Turn(points) => answers::turn(points),
            Call::Side(points) => answers::side(points),
            Call::Flat(first, second) => answers::flat(first, second),
            Call::Segment(first, second) => answers::segment(first, second),
            Call::Pair(first, second) => answers::pair(first, second),
            Call::List(listing) => listing.own_opinion(),
        }
    }

    /// The same as bytes, where that can be asked too.
    pub fn as_bytes(&self) -> Option<BytePair> {
        match self {
            Call::Pair(first, second) => Some(BytePair::of_lists(first, second)),
            _ => None,
        }
    }

    /// How many numbers the lent buffer must have; only a listing takes one.
    pub fn buffer_length(&self) -> usize {
        match self {
            Call::List(listing) => listing.buffer_length,
            _ => 0,
        }
    }

    fn start(&self) -> u64 {
        match self {
            Call::List(listing) => listing.start,
            _ => 0,
        }
    }

    /// This call with the room to lend, as the door takes it.
    pub fn question<'a>(&'a self, room: &'a Room) -> Question<'a> {
        let (function, first, second): (_, &[i32], &[i32]) = match self {
            Call::Turn(points) => (Function::Turn, points, &[]),
            Call::Side(points) => (Function::Side, points, &[]),
            Call::Flat(first, second) => (Function::Flat, first, second),
            Call::Segment(first, second) => (Function::Segment, first, second),
            Call::Pair(first, second) => (Function::Pair, first, second),
            Call::List(listing) => (Function::List, &listing.lists.first, &listing.lists.second),
        };
        Question {
            function,
            first,
            second,
            start: self.start(),
            room,
        }
    }

    /// Compares the door's reply with the one that the outcome calls for; the error tells both.
    pub fn compare_door(&self, outcome: &Outcome, room: &Room, theirs: &Reply) -> Result<(), String> {
        let ours = door::wanted_reply(outcome, self.start(), room);
        if *theirs == ours {
            return Ok(());
        }
        let mut text = format!("{self}\n  ours:   {}\n  theirs: {}", shown(&ours), shown(theirs));
        if theirs.room.answer != ours.room.answer {
            text += &format!("\n  answer before: {:?}", room.answer.part());
            text += &format!("\n  answer after:  {:?}", theirs.room.answer.part());
        }
        text += &buffer_difference(&ours.room, &theirs.room);
        if theirs.room.answer.margins() != ours.room.answer.margins() {
            text += "\n  numbers outside the lent answer were written";
        }
        if theirs.room.buffer.margins() != ours.room.buffer.margins() {
            text += "\n  numbers outside the lent buffer were written";
        }
        if !theirs.lists_stayed {
            text += "\n  a lent list was written";
        }
        Err(text)
    }

    fn lists(&self) -> (&'static str, Vec<(&'static str, &[i32])>) {
        match self {
            Call::Turn(points) => ("turn", vec![("points", points)]),
            Call::Side(points) => ("side", vec![("points", points)]),
            Call::Flat(first, second) => ("flat", vec![("first", first), ("second", second)]),
            Call::Segment(first, second) => ("segment", vec![("first", first), ("second", second)]),
            Call::Pair(first, second) => ("pair", vec![("first", first), ("second", second)]),
            Call::List(listing) => {
                let lists = &listing.lists;
                ("list", vec![("first", &lists.first), ("second", &lists.second)])
            }
        }
    }
}

impl fmt::Display for Call {
    fn fmt(&self, f: &mut fmt::Formatter) -> fmt::Result {
        let (name, lists) = self.lists();
        write!(f, "zg_{name}")?;
        for (place, list) in lists {
            let (front, rest) = list.split_at(list.len().min(SHOWN_NUMBERS));
            write!(f, "\n  {place} ({}): {front:?}", list.len())?;
            if !rest.is_empty() {
                write!(f, " and {} more", rest.len())?;
            }
        }
        if let Call::List(listing) = self {
            let (length, start) = (listing.buffer_length, listing.start);
            write!(f, "\n  buffer of {length} numbers, start {start}")?;
        }
        Ok(())
    }
}

fn shown(reply: &Reply) -> String {
    match reply.room.answer.part() {
        [number, side, place, value, ..] => {
            format!(
                "result {}, number {number}, side {side}, place {place}, value {value}",
                reply.result
            )
        }
        _ => format!("result {}, room for fewer than {ANSWER_NUMBERS} numbers", reply.result),
    }
}

/// The first number of the lent buffer that differs, and how many do; empty where none does.
fn buffer_difference(ours: &Room, theirs: &Room) -> String {
    let places = ours.buffer.part().iter().zip(theirs.buffer.part()).enumerate();
    let mut different = places.filter(|(_, (our, their))| our != their);
    let Some((place, (our, their))) = different.next() else {
        return String::new();
    };
    let count = 1 + different.count();
    format!("\n  numbers of the buffer that differ: {count}, the first at {place}: ours {our}, theirs {their}")
}
