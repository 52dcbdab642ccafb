//! Breaks in job sheets: unknown tags and wrong lengths of every kind at any place, with good fields behind them, and
//! cuts at every place of a field.

use super::sheets::{blind_call, field, Fields};
use crate::answers::plate::PlateCall;
use crate::answers::sheet::{body_bytes, BODY_BYTES, HEADER_BYTES};
use crate::random::Random;

/// A body is made as long as a wrong length says up to so many bytes.
const LONGEST_BAD_BODY: usize = 600;
/// Other bytes are made up as often.
const UNKNOWN_TAGS: [u8; 8] = [0, 0, 5, 5, 6, 9, 128, 255];

/// The fields as one sheet that is broken somewhere, nearly always.
pub fn broken(random: &mut Random, mut fields: Fields) -> Vec<u8> {
    if fields.is_empty() {
        fields.push(field(&PlateCall::Undo));
    }
    let place = match random.below(4) {
        0 => 0,
        1 => random.index(fields.len()),
        _ => fields.len() - 1,
    };
    match random.below(12) {
        0..=4 => return cut(random, fields),
        5 => fields[place][0] = unknown_tag(random),
        6 => put_wrong_length(random, &mut fields[place]),
        7..=9 => fields[place] = no_field(random),
        10 => {
            let byte = random.index(HEADER_BYTES);
            fields[place][byte] ^= 1 << random.below(8);
        }
        _ => {
            let more = random.index(60);
            fields.push((0..more).map(|_| random.next() as u8).collect());
        }
    }
    let sheet = fields.concat();
    if random.once_in(3) {
        return with_cut_body(random, sheet, &fields[..=place]);
    }
    sheet
}

/// An unknown tag, or a wrong length of a known one.
pub fn no_field(random: &mut Random) -> Vec<u8> {
    let tag = random.pick(&[1, 2, 3, 4]);
    let mut field = field_of_tag(random, tag);
    if random.once_in(4) {
        field[0] = unknown_tag(random);
    } else {
        put_wrong_length(random, &mut field);
    }
    field
}

fn unknown_tag(random: &mut Random) -> u8 {
    match random.below(2) {
        0 => random.pick(&UNKNOWN_TAGS),
        _ => 5 + random.below(251) as u8,
    }
}

/// Ends the sheet within a header of any tag, or else within a body; more often a place's, which has more places to cut
/// at.
fn cut(random: &mut Random, mut fields: Fields) -> Vec<u8> {
    let (tag, bytes) = if random.once_in(5) {
        (random.pick(&[1, 2, 3, 4, 0]), 1 + random.index(HEADER_BYTES - 1))
    } else {
        let tag = random.pick(&[1, 1, 1, 1, 1, 1, 1, 1, 1, 2, 3, 3, 3]);
        (tag, HEADER_BYTES + random.index(body_bytes(tag).unwrap_or(1)))
    };
    let mut last = if tag == 0 {
        [unknown_tag(random), random.below(39) as u8, 0].to_vec()
    } else {
        field_of_tag(random, tag)
    };
    last.truncate(bytes);
    fields.push(last);
    fields.concat()
}

fn field_of_tag(random: &mut Random, tag: u8) -> Vec<u8> {
    loop {
        let field = field(&blind_call(random));
        if field[0] == tag {
            return field;
        }
    }
}

/// Ends the sheet within the body of the last of the fields, which is broken, or just behind its header.
fn with_cut_body(random: &mut Random, mut sheet: Vec<u8>, fields: &[Vec<u8>]) -> Vec<u8> {
    let end: usize = fields.iter().map(Vec::len).sum();
    let body = fields
        .last()
        .map_or(0, |field| field.len().saturating_sub(HEADER_BYTES));
    sheet.truncate(end - random.index(body + 1));
    sheet
}

/// Says another length than the tag's; the body stays as it is, or gets that length.
fn put_wrong_length(random: &mut Random, field: &mut Vec<u8>) {
    let right = body_bytes(field[0]).unwrap_or(0);
    let length = wrong_length(random, right);
    field[1..HEADER_BYTES].copy_from_slice(&length.to_le_bytes());
    if random.once_in(2) && usize::from(length) <= LONGEST_BAD_BODY {
        field.resize_with(HEADER_BYTES + usize::from(length), || random.below(5) as u8);
    }
}

/// Another tag's, one off, the same low byte with a high one, the same two bytes the wrong way round, or any.
fn wrong_length(random: &mut Random, right: usize) -> u16 {
    let right = right as u16;
    let length = match random.below(8) {
        0..=2 => random.pick(&BODY_BYTES) as u16,
        3 => right.wrapping_add(1),
        4 => right.wrapping_sub(1),
        5 => right + 256,
        6 => right.swap_bytes() + 256 * random.pick(&[0, 0, 128]),
        _ => random.next() as u16,
    };
    if length == right {
        right + 256 * (1 + random.below(255) as u16)
    } else {
        length
    }
}
