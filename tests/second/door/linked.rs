//! The door of a library that is linked into this program.

#[path = "../../../include/zimogrud.rs"]
mod zimogrud;

use super::{packed, unpacked, Function, Lent, PutStraight, Question, Reply, Room, Straight};
use super::{MARGIN, REST_STAYED, TEXT_BYTES};
use zimogrud::{zg_flat, zg_list, zg_pair, zg_pair_bytes, zg_plate, zg_segment, zg_sheet, zg_side, zg_turn};

pub const STRAIGHT: Option<PutStraight> = Some(put_straight);

pub struct Door;

impl Door {
    pub fn open() -> Result<Door, String> {
        Ok(Door)
    }

    pub fn ask(&mut self, questions: &[Question]) -> Result<Vec<Reply>, String> {
        Ok(questions.iter().map(reply_to).collect())
    }

    pub fn close(self) -> Result<(), String> {
        Ok(())
    }
}

fn reply_to(question: &Question) -> Reply {
    // The lists are copies reached by changing pointers, so that a forbidden write can be seen.
    let (mut first, mut second) = (question.first.to_vec(), question.second.to_vec());
    let mut room = question.room.clone();
    let pointers = Pointers {
        first: (first.as_mut_ptr().cast_const(), first.len()),
        second: (second.as_mut_ptr().cast_const(), second.len()),
        start: question.start,
        answer: lent_pointer(&mut room.answer),
        buffer: lent_pointer(&mut room.buffer),
    };
    // SAFETY: each pointer leads to as many numbers as are named, that of a sheet or a slice to as many bytes, and
    // nothing else uses them meanwhile.
    let result = unsafe {
        match question.function {
            Function::Sheet => sheet_result(pointers.first.0.cast(), question.start as usize, &mut room),
            function => pointers.result(function),
        }
    };
    Reply {
        result,
        room,
        lists_stayed: first == question.first && second == question.second,
    }
}

fn put_straight(call: Straight) -> u64 {
    let pointers = Pointers {
        first: (call.first.as_ptr(), call.first.len()),
        second: (call.second.as_ptr(), call.second.len()),
        start: call.start,
        answer: (call.answer.as_mut_ptr(), call.answer.len()),
        buffer: (call.buffer.as_mut_ptr(), call.buffer.len()),
    };
    // SAFETY: each pointer leads to as many numbers as are named, and nothing else uses them meanwhile.
    unsafe { pointers.result(call.function) }
}

/// Where all that is lent to a call begins, and how many numbers each has.
struct Pointers {
    first: (*const i32, usize),
    second: (*const i32, usize),
    start: u64,
    answer: (*mut u64, usize),
    buffer: (*mut u32, usize),
}

impl Pointers {
    /// # Safety
    /// Each pointer leads to as many numbers as are named, and nothing else uses them meanwhile.
    unsafe fn result(&self, function: Function) -> u64 {
        let ((a, a_len), (b, b_len)) = (self.first, self.second);
        let ((answer, answer_len), (buffer, buffer_len)) = (self.answer, self.buffer);
        let start = self.start as usize;
        match function {
            Function::Turn => zg_turn(a, a_len, answer, answer_len).into(),
            Function::Side => zg_side(a, a_len, answer, answer_len).into(),
            Function::Flat => zg_flat(a, a_len, b, b_len, answer, answer_len).into(),
            Function::Segment => zg_segment(a, a_len, b, b_len, answer, answer_len).into(),
            Function::Pair => zg_pair(a, a_len, b, b_len, answer, answer_len).into(),
            Function::List => zg_list(a, a_len, b, b_len, buffer, buffer_len, start, answer, answer_len).into(),
            Function::Plate => zg_plate(a.cast(), a_len, b, b_len, answer, answer_len),
            Function::Sheet => unreachable!("a sheet has room of its own"),
            Function::PairBytes => {
                let [(a, a_len), (b, b_len)] = slices_in([(a, a_len), (b, b_len)], self.start);
                zg_pair_bytes(a, a_len, b, b_len).into()
            }
        }
    }
}

fn lent_pointer<Number: Copy>(lent: &mut Lent<Number>) -> (*mut Number, usize) {
    // Made from the whole run, so that a write into a margin can be seen afterwards.
    (lent.numbers.as_mut_ptr().wrapping_add(MARGIN), lent.length())
}

/// Where each slice starts within its list, and how many bytes it has.
fn slices_in(lists: [(*const i32, usize); 2], start: u64) -> [(*const u8, usize); 2] {
    let margins = start.to_le_bytes().map(usize::from);
    [0, 1].map(|side| {
        let ((list, numbers), before, behind) = (lists[side], margins[2 * side], margins[2 * side + 1]);
        (list.cast::<u8>().wrapping_add(before), 4 * numbers - before - behind)
    })
}

/// Lends a text's room whose front is the buffer, and in which the rest, with a margin on both sides, has marks.
///
/// # Safety
/// The pointer leads to so many bytes, which nothing else writes meanwhile.
unsafe fn sheet_result(sheet: *const u8, length: usize, room: &mut Room) -> u64 {
    let margin = 8 * MARGIN;
    let marks = marks(room.answer.part()[0], margin + TEXT_BYTES + margin);
    let (mut whole, front) = (marks.clone(), unpacked(room.buffer.part()));
    let front_at = margin..margin + front.len();
    whole[front_at.clone()].copy_from_slice(&front);
    let result = zg_sheet(sheet, length, whole.as_mut_ptr().wrapping_add(margin));
    room.buffer.write(0, packed(&whole[front_at.clone()]).into_iter());
    whole[front_at.clone()].copy_from_slice(&marks[front_at]);
    let stayed = if whole == marks { REST_STAYED } else { 0 };
    room.answer.write(0, std::iter::once(stayed));
    result as u64
}

/// No two eights of these bytes are alike.
fn marks(seed: u64, bytes: usize) -> Vec<u8> {
    let numbers = (0..bytes as u64 / 8).map(|k| seed.wrapping_add(k).wrapping_mul(0x9E37_79B9_7F4A_7C15));
    numbers.flat_map(u64::to_le_bytes).collect()
}
