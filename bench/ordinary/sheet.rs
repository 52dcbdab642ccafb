//! The ordinary reader of job sheets: takes what `zg_sheet` takes, puts the fields to the ordinary plate
//! that keeps its count, and gives the same lines.

use super::plate::kept::Kept;
use super::plate::Plate;
use super::{Answer, TRIANGLE_NUMBERS};

/// A longer sheet is refused.
pub const MOST_BYTES: usize = 65_536;
/// The longest answer is of so many bytes.
pub const TEXT_BYTES: usize = 174_768;

const TOO_LONG: u64 = 15;
const CUT: u64 = 14;
const UNKNOWN: u64 = 13;

/// Puts the answer in the place of the text.
/// Not inlined, so that it is called as a library's function is.
#[inline(never)]
pub fn answer(sheet: &[u8], text: &mut Vec<u8>) {
    text.clear();
    if sheet.len() > MOST_BYTES {
        put_line(text, TOO_LONG, 0);
        return;
    }
    let mut plate = Plate::<Kept>::empty();
    let mut rest = sheet;
    while !rest.is_empty() {
        match split_field(rest) {
            Ok((tag, body, after)) => {
                let number = apply(&mut plate, tag, body).map_or_else(|refusal| refusal.number, |_| 0);
                put_line(text, number, plate.count());
                rest = after;
            }
            Err(number) => {
                put_line(text, number, plate.count());
                return;
            }
        }
    }
}

/// The first field's tag and body, and what comes after it; or the number of the refusal.
fn split_field(bytes: &[u8]) -> Result<(u8, &[u8], &[u8]), u64> {
    let [tag, low, high, rest @ ..] = bytes else {
        return Err(CUT);
    };
    let length = usize::from(u16::from_le_bytes([*low, *high]));
    if length_of(*tag) != Some(length) {
        return Err(UNKNOWN);
    }
    let (body, after) = rest.split_at_checked(length).ok_or(CUT)?;
    Ok((*tag, body, after))
}

/// How long the body of a field with this tag is, if there is such a tag.
fn length_of(tag: u8) -> Option<usize> {
    match tag {
        1 => Some(38),
        2 => Some(1),
        3 => Some(13),
        4 => Some(0),
        _ => None,
    }
}

fn apply(plate: &mut Plate<Kept>, tag: u8, body: &[u8]) -> Result<u64, Answer> {
    match tag {
        1 => plate.place(
            u32::from(body[0]),
            u32::from(body[1]),
            &numbers_in::<TRIANGLE_NUMBERS>(&body[2..]),
        ),
        2 => plate.lift(u32::from(body[0])),
        3 => plate.shift(u32::from(body[0]), numbers_in(&body[1..])),
        _ => plate.undo(),
    }
}

fn numbers_in<const COUNT: usize>(bytes: &[u8]) -> [i32; COUNT] {
    std::array::from_fn(|k| i32::from_le_bytes(bytes[4 * k..4 * k + 4].try_into().unwrap()))
}

fn put_line(text: &mut Vec<u8>, number: u64, count: u64) {
    put_number(text, number);
    text.push(b' ');
    put_number(text, count);
    text.push(b'\n');
}

/// Without the machinery of `write!`, which would take most of the time of a field that is refused.
fn put_number(text: &mut Vec<u8>, number: u64) {
    if number >= 10 {
        put_number(text, number / 10);
    }
    text.push(b'0' + (number % 10) as u8);
}
