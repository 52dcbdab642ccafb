//! The own reader of job sheets. It cuts a sheet into fields first, which takes no plate, then does the fields on the
//! own plate, one after the other, and last writes the lines.

use super::bytes::number_at;
use super::clashes::Clashes;
use super::plate::{Plate, PlateCall};

pub const LONGEST_SHEET: usize = 65_536;

pub const UNKNOWN_FIELD: u64 = 13;
pub const CUT_FIELD: u64 = 14;
pub const SHEET_TOO_LONG: u64 = 15;

pub const HEADER_BYTES: usize = 3;
/// How long the body of a place, a lift, a shift and an undo is; their tags are 1, 2, 3 and 4.
pub const BODY_BYTES: [usize; 4] = [38, 1, 13, 0];

/// Why the reading of a sheet ends.
#[derive(Clone, Copy, PartialEq, Eq, Debug)]
pub enum End {
    /// After the last field, or before the first where there is none.
    Whole,
    CutHeader,
    UnknownTag,
    WrongLength,
    CutBody,
    TooLong,
}

/// The fields of a sheet that are to be done, why there are no more of them, and the bytes from there on.
pub struct Reading<'a> {
    pub calls: Vec<PlateCall>,
    pub end: End,
    pub rest: &'a [u8],
}

/// What is written of one field.
#[derive(Clone, Copy, PartialEq, Eq, Debug)]
pub struct Line {
    pub number: u64,
    pub count: u64,
}

impl End {
    /// The number of the refusal that stops the reading, if one does.
    pub fn number(self) -> Option<u64> {
        match self {
            End::Whole => None,
            End::UnknownTag | End::WrongLength => Some(UNKNOWN_FIELD),
            End::CutHeader | End::CutBody => Some(CUT_FIELD),
            End::TooLong => Some(SHEET_TOO_LONG),
        }
    }
}

impl Reading<'_> {
    pub fn of(sheet: &[u8]) -> Reading<'_> {
        let mut calls = Vec::new();
        let mut rest = sheet;
        if sheet.len() > LONGEST_SHEET {
            let end = End::TooLong;
            return Reading { calls, end, rest };
        }
        loop {
            match next_field(rest) {
                Ok((call, behind)) => {
                    calls.push(call);
                    rest = behind;
                }
                Err(end) => return Reading { calls, end, rest },
            }
        }
    }

    /// The own answer to the sheet, line by line. Nothing where the two own methods differ, so that this program is at
    /// fault.
    pub fn lines(&self) -> Option<Vec<Line>> {
        let (mut plate, mut clashes) = (Plate::empty(), Clashes::default());
        let mut lines = Vec::new();
        for call in &self.calls {
            let step = plate.step(*call, &mut clashes);
            if step.told != step.second_told {
                return None;
            }
            lines.push(Line {
                number: step.told.answer.number,
                count: step.told.count,
            });
        }
        // A sheet that is too long leaves the plate empty, so the count is 0 there.
        let count = lines.last().map_or(0, |line| line.count);
        lines.extend(self.end.number().map(|number| Line { number, count }));
        Some(lines)
    }
}

pub fn text_of(lines: &[Line]) -> Vec<u8> {
    let lines = lines.iter().map(|line| format!("{} {}\n", line.number, line.count));
    lines.collect::<String>().into_bytes()
}

/// The first field of what is left of a sheet, and what stands behind it; or why there is none.
pub fn next_field(left: &[u8]) -> Result<(PlateCall, &[u8]), End> {
    let (tag, length, body) = match left {
        [] => return Err(End::Whole),
        [tag, low, high, body @ ..] => (*tag, usize::from(*low) + 256 * usize::from(*high), body),
        _ => return Err(End::CutHeader),
    };
    let wanted = body_bytes(tag).ok_or(End::UnknownTag)?;
    if length != wanted {
        return Err(End::WrongLength);
    }
    if body.len() < wanted {
        return Err(End::CutBody);
    }
    let (body, behind) = body.split_at(wanted);
    Ok((call_of(tag, body), behind))
}

/// Nothing where the tag is unknown.
pub fn body_bytes(tag: u8) -> Option<usize> {
    let place = usize::from(tag).checked_sub(1)?;
    BODY_BYTES.get(place).copied()
}

/// The call of a field with a known tag and a body of the right length.
fn call_of(tag: u8, body: &[u8]) -> PlateCall {
    match tag {
        1 => PlateCall::Place {
            slot: body[0].into(),
            part: body[1].into(),
            corners: numbers(&body[2..]),
        },
        2 => PlateCall::Lift { slot: body[0].into() },
        3 => PlateCall::Shift {
            part: body[0].into(),
            by: numbers(&body[1..]),
        },
        _ => PlateCall::Undo,
    }
}

fn numbers<const N: usize>(bytes: &[u8]) -> [i32; N] {
    std::array::from_fn(|place| number_at(bytes, place))
}
