//! A job sheet, any bytes at all: answered by own means, put to the door, compared, and shown.

use crate::answers::bytes::bytes_of;
use crate::answers::plate::PlateCall;
use crate::answers::sheet::{body_bytes, text_of, Line, Reading};
use crate::door::{self, Function, Question, Reply, Room, TEXT_BYTES};
use crate::random::Random;
use std::fmt;

/// So many runs of equal fields of a sheet are shown, and so many bytes of what is no field.
const SHOWN_RUNS: usize = 100;
const SHOWN_BYTES: usize = 64;

#[derive(Clone)]
pub struct Sheet {
    pub bytes: Vec<u8>,
}

/// A sheet with its own answer and the room to lend, packed for the door.
pub struct AskedSheet {
    pub sheet: Sheet,
    pub lines: Vec<Line>,
    packed: Vec<i32>,
    room: Room,
}

impl Sheet {
    /// Adds the field of a call; slot and part must fit a byte.
    pub fn push(&mut self, call: &PlateCall) {
        let (tag, names, numbers): (u8, Vec<u32>, &[i32]) = match call {
            PlateCall::Place { slot, part, corners } => (1, vec![*slot, *part], corners),
            PlateCall::Lift { slot } => (2, vec![*slot], &[]),
            PlateCall::Shift { part, by } => (3, vec![*part], by),
            PlateCall::Undo => (4, vec![], &[]),
            PlateCall::Parts { .. } => panic!("no field asks for parts"),
        };
        let body = body_bytes(tag).unwrap_or(0);
        self.bytes.extend([tag, body as u8, 0]);
        let names = names.into_iter().map(|name| u8::try_from(name).expect("a byte"));
        self.bytes.extend(names);
        self.bytes.extend(bytes_of(numbers));
    }

    /// Answers the sheet by own means, and finds it room; the error means that this program is at fault. The marks in
    /// the room that isn't sent come from the seed.
    pub fn asked(self, random: &mut Random, seed_of_marks: u64) -> Result<AskedSheet, String> {
        let reading = Reading::of(&self.bytes);
        let lines = reading
            .lines()
            .ok_or_else(|| format!("the two own methods differ, so the second program is wrong\n{self}"))?;
        let length = text_of(&lines).len() + random.index(100);
        let mut room = Room::with_marks(random, 1, length.min(TEXT_BYTES).div_ceil(4));
        room.answer.write(0, std::iter::once(seed_of_marks));
        Ok(AskedSheet {
            packed: door::packed_list(&self.bytes),
            sheet: self,
            lines,
            room,
        })
    }

    /// The sheet without so many of its fields from a place on.
    pub fn without(&self, place: usize, fields: usize) -> Sheet {
        let sizes: Vec<usize> = Reading::of(&self.bytes).calls.iter().map(field_bytes).collect();
        let start: usize = sizes[..place].iter().sum();
        let size: usize = sizes[place..place + fields].iter().sum();
        let mut shorter = self.clone();
        shorter.bytes.drain(start..start + size);
        shorter
    }

    /// The sheet without so many of its last bytes.
    pub fn cut_by(&self, bytes: usize) -> Sheet {
        let mut shorter = self.clone();
        shorter.bytes.truncate(self.bytes.len().saturating_sub(bytes));
        shorter
    }
}

fn field_bytes(call: &PlateCall) -> usize {
    let mut alone = Sheet { bytes: Vec::new() };
    alone.push(call);
    alone.bytes.len()
}

impl AskedSheet {
    pub fn question(&self) -> Question<'_> {
        Question {
            function: Function::Sheet,
            first: &self.packed,
            second: &[],
            start: self.sheet.bytes.len() as u64,
            room: &self.room,
        }
    }

    /// Compares the door's reply with the own answer; the error tells both.
    pub fn compare_door(&self, theirs: &Reply) -> Result<(), String> {
        let text = text_of(&self.lines);
        let ours = door::wanted_sheet_reply(&text, &self.room);
        if *theirs == ours {
            return Ok(());
        }
        let mut told = format!("\n  bytes of the text: ours {}, theirs {}", ours.result, theirs.result);
        let [our_front, their_front] = [&ours, theirs].map(|reply| door::unpacked(reply.room.buffer.part()));
        let their_length = their_front.len().min(theirs.result as usize);
        told += &line_difference(&text, &their_front[..their_length]);
        let behind = text.len().max(their_length);
        let stayed =
            our_front[behind..] == their_front[behind..] && ours.room.answer.part() == theirs.room.answer.part();
        // A text that is longer than what was sent of it is no fault of its own.
        if !stayed && theirs.result <= their_front.len() as u64 {
            told += "\n  bytes behind the text, or outside its room, were written";
        }
        if theirs.room.answer.margins() != ours.room.answer.margins()
            || theirs.room.buffer.margins() != ours.room.buffer.margins()
        {
            told += "\n  numbers far outside all that was lent were written";
        }
        if !theirs.lists_stayed {
            told += "\n  the lent sheet was written";
        }
        Err(told)
    }
}

/// The first line that differs, in both texts, as far as theirs was sent; empty where none does.
fn line_difference(ours: &[u8], theirs: &[u8]) -> String {
    let lines = |text: &[u8]| -> Vec<String> {
        let lines = text.split_inclusive(|byte| *byte == b'\n');
        lines.map(|line| format!("\"{}\"", line.escape_ascii())).collect()
    };
    let (ours, theirs) = (lines(ours), lines(theirs));
    let most = ours.len().max(theirs.len());
    let Some(place) = (0..most).find(|place| ours.get(*place) != theirs.get(*place)) else {
        return String::new();
    };
    let line = |lines: &[String]| lines.get(place).map_or("none".to_string(), String::clone);
    format!(
        "\n  lines differ first at line {place} (number, count):\n    ours:   {}\n    theirs: {}",
        line(&ours),
        line(&theirs)
    )
}

impl fmt::Display for Sheet {
    fn fmt(&self, f: &mut fmt::Formatter) -> fmt::Result {
        let Reading { calls, end, rest } = Reading::of(&self.bytes);
        write!(f, "zg_sheet\n  a sheet of {} bytes", self.bytes.len())?;
        let fields: Vec<String> = calls.iter().map(|call| format!("{call:?}")).collect();
        let mut place = 0;
        for run in fields.chunk_by(|one, next| one == next).take(SHOWN_RUNS) {
            match run.len() {
                1 => write!(f, "\n  field {place}: {}", run[0])?,
                more => write!(f, "\n  fields {place} to {}, each: {}", place + more - 1, run[0])?,
            }
            place += run.len();
        }
        if place < fields.len() {
            write!(f, "\n  and {} fields more", fields.len() - place)?;
        }
        if !rest.is_empty() {
            let (shown, hidden) = rest.split_at(rest.len().min(SHOWN_BYTES));
            write!(f, "\n  then no field ({end:?}), {} bytes: {shown:?}", rest.len())?;
            if !hidden.is_empty() {
                write!(f, " and {} more", hidden.len())?;
            }
        }
        Ok(())
    }
}
