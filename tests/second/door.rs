//! The door: the functions of the library under check, and the room lent to them for an answer, for the answers of a
//! story, for the pairs of a listing and for the text of a sheet, filled with marks that show afterwards what was
//! written and what was left. Slices of bytes have marks around them too.
//!
//! The library is x86-64 code. A program for x86-64 has it linked in; any other reaches it through
//! a relay. Both take a batch of questions and give a batch of replies. The flag `--cfg linked`
//! links a library for the processor at hand, to try the linked way there; `--cfg relayed` asks a relay
//! on x86-64 as well, so that the relay can run under a tool that watches memory.

mod lent;
mod slice;

use crate::answers::plate::PlateAnswer;
use crate::answers::Outcome;
use crate::random::Random;
use lent::{Lent, MARGIN};
pub use slice::{start_of, LentSlice};

#[cfg(all(any(target_arch = "x86_64", linked), not(relayed)))]
mod linked;
#[cfg(all(any(target_arch = "x86_64", linked), not(relayed)))]
pub use linked::{Door, STRAIGHT};

#[cfg(any(not(any(target_arch = "x86_64", linked)), relayed))]
mod relay;
#[cfg(any(not(any(target_arch = "x86_64", linked)), relayed))]
pub use relay::{Door, STRAIGHT};

pub const ANSWER_NUMBERS: usize = 4;
/// Each call on the plate tells so many.
pub const PLATE_ANSWER_NUMBERS: usize = 6;
const LONGEST_ANSWER: usize = 8;
/// The text of a sheet is lent so many bytes of room, whatever the sheet.
pub const TEXT_BYTES: usize = 174_768;
/// What the answer of a sheet holds afterwards, where the room behind the front of its text is as it was.
const REST_STAYED: u64 = 1;

/// All that is lent to be written. Only a listing gets the buffer, and a sheet as the front of its text's room; around
/// the empty one of another call stand its margins all the same.
#[derive(Clone, PartialEq, Eq)]
pub struct Room {
    pub answer: Lent<u64>,
    pub buffer: Lent<u32>,
}

impl Room {
    pub fn with_marks(random: &mut Random, answer_length: usize, buffer_length: usize) -> Room {
        Room {
            answer: Lent::with_marks(answer_length, || random.next()),
            buffer: Lent::with_marks(buffer_length, || random.next() as u32),
        }
    }

    /// The answer mostly has room enough, with up to four numbers to spare; now and then too little.
    pub fn with_any_answer(random: &mut Random, buffer_length: usize) -> Room {
        let answer_length = if random.once_in(32) {
            random.index(ANSWER_NUMBERS)
        } else {
            ANSWER_NUMBERS + random.index(LONGEST_ANSWER - ANSWER_NUMBERS + 1)
        };
        Room::with_marks(random, answer_length, buffer_length)
    }

    pub fn is_too_short(&self) -> bool {
        self.answer.length() < ANSWER_NUMBERS
    }

    fn write(&mut self, outcome: &Outcome, start: u64) {
        self.answer.write(0, outcome.answer.numbers().into_iter());
        if !outcome.pairs.is_empty() {
            self.buffer
                .write(start as usize, outcome.pairs.iter().copied().flatten());
        }
    }
}

#[derive(Clone, Copy)]
pub enum Function {
    Turn,
    Side,
    Flat,
    Segment,
    Pair,
    List,
    Plate,
    Sheet,
    PairBytes,
}

/// A function with the lists and the room to lend it. `Turn` and `Side` take no second list. `Plate` takes the numbers
/// of its calls as the first list, unsigned ones bit for bit, its coordinates as the second, and its answers as the
/// answer.
///
/// `Sheet` takes its bytes as the first list, packed, and no second one. Its text's room is so long that the door has
/// it, with marks of its own, and looks itself whether they stay; the buffer is the front of that room, packed, which
/// holds the text. The answer isn't lent: its one number is the seed of the door's marks, and comes back as 1 where all
/// of these stayed and as 0 elsewhere.
///
/// `PairBytes` takes each slice within a list, packed, and is lent neither answer nor buffer.
pub struct Question<'a> {
    pub function: Function,
    pub first: &'a [i32],
    pub second: &'a [i32],
    /// Where the pairs of a listing start in the buffer; or how many bytes a sheet has; or how many stand before and
    /// behind the first slice and the second, a byte to each. Other calls don't take it.
    pub start: u64,
    pub room: &'a Room,
}

/// A call with all that is lent to it and no marks around that, for calls in great numbers. A sheet can't be put so, nor
/// can anything through a relay.
#[cfg_attr(any(not(any(target_arch = "x86_64", linked)), relayed), allow(dead_code))]
pub struct Straight<'a> {
    pub function: Function,
    pub first: &'a [i32],
    pub second: &'a [i32],
    pub start: u64,
    pub answer: &'a mut [u64],
    pub buffer: &'a mut [u32],
}

/// Puts a call to the library, and gives its result.
pub type PutStraight = fn(Straight) -> u64;

/// All that can be seen after a call.
#[derive(PartialEq, Eq)]
pub struct Reply {
    pub result: u64,
    pub room: Room,
    /// The lent lists still hold the numbers they held before.
    pub lists_stayed: bool,
}

/// What must be seen after a call with this start and room, given the right outcome. Where the answer is too short,
/// nothing at all is written.
pub fn wanted_reply(outcome: &Outcome, start: u64, room: &Room) -> Reply {
    let short = room.is_too_short();
    let mut room = room.clone();
    if !short {
        room.write(outcome, start);
    }
    Reply {
        result: u64::from(short),
        room,
        lists_stayed: true,
    }
}

/// What must be seen after a story with this room, given the right answers of the calls that are to be done.
pub fn wanted_plate_reply(told: &[PlateAnswer], room: &Room) -> Reply {
    let mut room = room.clone();
    room.answer.write(0, told.iter().flat_map(PlateAnswer::numbers));
    Reply {
        result: told.len() as u64,
        room,
        lists_stayed: true,
    }
}

/// What must be seen after a sheet with this room, given the right text.
pub fn wanted_sheet_reply(text: &[u8], room: &Room) -> Reply {
    let mut room = room.clone();
    let mut front = unpacked(room.buffer.part());
    front[..text.len()].copy_from_slice(text);
    room.buffer.write(0, packed(&front).into_iter());
    room.answer.write(0, std::iter::once(REST_STAYED));
    Reply {
        result: text.len() as u64,
        room,
        lists_stayed: true,
    }
}

/// What must be seen after two slices with this room, none of which is lent, given the right result.
pub fn wanted_bytes_reply(result: u64, room: &Room) -> Reply {
    Reply {
        result,
        room: room.clone(),
        lists_stayed: true,
    }
}

/// Bytes as numbers, four to one, the lowest first; the last number is filled up with 0.
pub fn packed(bytes: &[u8]) -> Vec<u32> {
    let number = |four: &[u8]| u32::from_le_bytes(std::array::from_fn(|i| four.get(i).copied().unwrap_or(0)));
    bytes.chunks(4).map(number).collect()
}

pub fn packed_list(bytes: &[u8]) -> Vec<i32> {
    packed(bytes).into_iter().map(|number| number as i32).collect()
}

pub fn unpacked(numbers: &[u32]) -> Vec<u8> {
    numbers.iter().flat_map(|number| number.to_le_bytes()).collect()
}
