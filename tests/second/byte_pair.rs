//! Two slices of bytes, each of them a triangle or what is refused for one: answered by own means, put to the door,
//! compared, and shown.

use crate::answers::bytes::{bytes_of, numbers_of, pair_of_slices};
use crate::answers::Opinion;
use crate::door::{self, Function, LentSlice, Question, Reply, Room};
use crate::random::Random;
use std::fmt;

/// A slice is shown whole up to so many bytes.
const SHOWN_BYTES: usize = 144;

#[derive(Clone)]
pub struct BytePair {
    pub first: Vec<u8>,
    pub second: Vec<u8>,
}

/// A pair with its slices as they are lent, and the margins of the room that isn't.
pub struct AskedBytePair {
    pub pair: BytePair,
    pub lent: [LentSlice; 2],
    room: Room,
}

impl BytePair {
    /// The numbers of two lists, of whatever lengths.
    pub fn of_lists(first: &[i32], second: &[i32]) -> BytePair {
        BytePair {
            first: bytes_of(first),
            second: bytes_of(second),
        }
    }

    pub fn own_opinion(&self) -> Opinion {
        pair_of_slices(&self.first, &self.second)
    }

    pub fn slices(&self) -> [&[u8]; 2] {
        [&self.first, &self.second]
    }

    /// Finds the slices places to be lent at.
    pub fn asked(self, random: &mut Random) -> AskedBytePair {
        AskedBytePair {
            lent: self.slices().map(|slice| LentSlice::with_marks(random, slice)),
            pair: self,
            room: Room::with_marks(random, 0, 0),
        }
    }
}

impl AskedBytePair {
    pub fn question(&self) -> Question<'_> {
        let [first, second] = &self.lent;
        Question {
            function: Function::PairBytes,
            first: &first.list,
            second: &second.list,
            start: door::start_of(&self.lent),
            room: &self.room,
        }
    }

    /// Compares the door's reply with the right result; the error tells both.
    pub fn compare_door(&self, result: u64, theirs: &Reply) -> Result<(), String> {
        let ours = door::wanted_bytes_reply(result, &self.room);
        if *theirs == ours {
            return Ok(());
        }
        let mut text = format!("{}\n  ours: {}, theirs: {}", self.pair, ours.result, theirs.result);
        for (slice, lent) in ["first", "second"].iter().zip(&self.lent) {
            text += &format!("\n  bytes before the {slice}: {}", lent.margins[0]);
        }
        if theirs.room != ours.room {
            text += "\n  numbers far outside all that was lent were written";
        }
        if !theirs.lists_stayed {
            text += "\n  a lent slice was written, or a byte beside one";
        }
        Err(text)
    }
}

impl fmt::Display for BytePair {
    fn fmt(&self, f: &mut fmt::Formatter) -> fmt::Result {
        write!(f, "zg_pair_bytes")?;
        for (place, slice) in ["first", "second"].iter().zip(self.slices()) {
            let (front, rest) = slice.split_at(slice.len().min(SHOWN_BYTES));
            write!(f, "\n  {place} ({} bytes): {front:?}", slice.len())?;
            if !rest.is_empty() {
                write!(f, " and {} more", rest.len())?;
            }
            write!(f, "\n    as numbers: {:?}", numbers_of(front))?;
        }
        Ok(())
    }
}
