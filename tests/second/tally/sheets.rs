//! Counts of what the job sheets met, the line that reports them, and the cases that were missed.

use super::plates::cases::kind_name;
use super::plates::{add, count_of};
use super::{finer_cases, listed, Count};
use crate::answers::plate::{PlateCall, NO_SUCH_PART, NO_SUCH_SLOT, PARTS, SLOTS};
use crate::answers::sheet::{body_bytes, next_field, End, Line, Reading};
use crate::answers::sheet::{BODY_BYTES, CUT_FIELD, HEADER_BYTES, LONGEST_SHEET, UNKNOWN_FIELD};
use crate::sheet::Sheet;
use std::collections::BTreeMap;

/// A kind of field, and the number of its line.
const FIELD_LINES: [(&str, u64); 15] = [
    ("place", 0),
    ("place", 1),
    ("place", 2),
    ("place", 6),
    ("place", 7),
    ("place", 8),
    ("lift", 0),
    ("lift", 6),
    ("lift", 9),
    ("shift", 0),
    ("shift", 7),
    ("shift", 10),
    ("shift", 11),
    ("undo", 0),
    ("undo", 12),
];

/// As far as a byte goes.
const BEYOND_SLOTS: [u32; 2] = [SLOTS as u32, 255];
const BEYOND_PARTS: [u32; 2] = [PARTS, 255];
const UNKNOWN_TAGS: [u8; 4] = [0, 5, 9, 255];
/// A sheet is far too long from so many bytes on.
const FAR_TOO_LONG: usize = 2 * LONGEST_SHEET;
const MANY_LINES: usize = 20_000;

#[derive(Default)]
pub struct SheetTally {
    pub sheets: u64,
    fields: u64,
    largest_count: u64,
    longest_sheet: usize,
    most_lines: usize,
    cases: Vec<(&'static str, u64)>,
    /// By the kind of field and the number of its line.
    lines: BTreeMap<(&'static str, u64), u64>,
    /// By the kind of field and its slot or part, where that is refused.
    beyond: BTreeMap<(&'static str, u32), u64>,
    /// By the tag, and how many bytes of the field were there.
    cuts: BTreeMap<(u8, usize), u64>,
    unknown_tags: BTreeMap<u8, u64>,
    /// By the tag and the length.
    wrong_lengths: BTreeMap<(u8, u16), u64>,
}

impl SheetTally {
    pub fn note(&mut self, reading: &Reading, sheet: &Sheet, lines: &[Line]) {
        self.sheets += 1;
        self.fields += reading.calls.len() as u64;
        self.longest_sheet = self.longest_sheet.max(sheet.bytes.len());
        self.most_lines = self.most_lines.max(lines.len());
        for (call, line) in reading.calls.iter().zip(lines) {
            self.note_field(call, line);
        }
        let count = lines.last().map_or(0, |line| line.count);
        let met = [
            size_cases(sheet, reading),
            no_field_cases(reading, count),
            cut_cases(reading, count),
        ];
        add(&mut self.cases, &met.concat());
        self.note_end(reading);
    }

    fn note_field(&mut self, call: &PlateCall, line: &Line) {
        let kind = kind_name(call);
        self.largest_count = self.largest_count.max(line.count);
        *self.lines.entry((kind, line.number)).or_default() += 1;
        let beyond = match (line.number, call) {
            (NO_SUCH_SLOT, PlateCall::Place { slot, .. } | PlateCall::Lift { slot }) => Some(*slot),
            (NO_SUCH_PART, PlateCall::Place { part, .. } | PlateCall::Shift { part, .. }) => Some(*part),
            _ => None,
        };
        if let Some(number) = beyond {
            *self.beyond.entry((kind, number)).or_default() += 1;
        }
    }
    fn note_end(&mut self, reading: &Reading) {
        let (rest, tag) = (reading.rest, reading.rest.first().copied().unwrap_or(0));
        match reading.end {
            End::CutHeader | End::CutBody => *self.cuts.entry((tag, rest.len())).or_default() += 1,
            End::UnknownTag => *self.unknown_tags.entry(tag).or_default() += 1,
            End::WrongLength => {
                let length = u16::from_le_bytes([rest[1], rest[2]]);
                *self.wrong_lengths.entry((tag, length)).or_default() += 1;
            }
            End::Whole | End::TooLong => {}
        }
    }

    /// One line for the reader.
    pub fn line(&self) -> String {
        let mut counts = self.counts();
        counts.push(finer_cases(&self.fine_counts()));
        format!(
            "sheet: {} sheets of {} fields compared: largest count {}, longest sheet {}, most lines {}, {}",
            self.sheets,
            self.fields,
            self.largest_count,
            self.longest_sheet,
            self.most_lines,
            listed(counts)
        )
    }

    /// The cases that a large run must have met and didn't.
    pub fn missed(&self) -> Vec<String> {
        let counts = self.counts().into_iter().chain(self.fine_counts());
        let missed = counts.filter(|(_, count)| *count == 0);
        missed.map(|(name, _)| format!("sheet: {name}")).collect()
    }

    fn counts(&self) -> Vec<Count> {
        let cases = self.cases.iter();
        let mut counts: Vec<Count> = cases.map(|(name, count)| (name.to_string(), *count)).collect();
        for (kind, number) in FIELD_LINES {
            counts.push((format!("{kind} with {number}"), count_of(&self.lines, &(kind, number))));
        }
        counts
    }

    /// Each cut of each field, the slots and parts just beyond the last and at the end of a byte, the unknown tags and
    /// the wrong lengths that mean most.
    fn fine_counts(&self) -> Vec<Count> {
        let mut counts = Vec::new();
        for (kind, numbers) in [
            ("place", [BEYOND_SLOTS, BEYOND_PARTS].concat()),
            ("lift", BEYOND_SLOTS.to_vec()),
            ("shift", BEYOND_PARTS.to_vec()),
        ] {
            for number in numbers {
                let name = format!("{kind} refused for the slot or the part {number}");
                counts.push((name, count_of(&self.beyond, &(kind, number))));
            }
        }
        for tag in UNKNOWN_TAGS {
            counts.push((format!("tag {tag}"), count_of(&self.unknown_tags, &tag)));
        }
        for (tag, right) in (1..).zip(BODY_BYTES) {
            for length in telling_lengths(right) {
                let name = format!("tag {tag} with length {length}");
                counts.push((name, count_of(&self.wrong_lengths, &(tag, length))));
            }
            for bytes in 1..HEADER_BYTES + right {
                let name = format!("tag {tag} cut after {bytes} bytes");
                counts.push((name, count_of(&self.cuts, &(tag, bytes))));
            }
        }
        counts
    }
}

/// Wrong ones: each other tag's, one off, with a high byte and, where that is another one, the wrong way round.
fn telling_lengths(right: usize) -> Vec<u16> {
    let right = right as u16;
    let mut lengths: Vec<u16> = BODY_BYTES.iter().map(|length| *length as u16).collect();
    lengths.extend([right + 1, right.wrapping_sub(1), right + 256, right.swap_bytes()]);
    lengths.retain(|length| *length != right);
    lengths.sort();
    lengths.dedup();
    lengths
}

// ---- Cases of a sheet ----

/// Whether a case was met, by its name.
type Met = Vec<(&'static str, bool)>;

fn size_cases(sheet: &Sheet, reading: &Reading) -> Met {
    let bytes = sheet.bytes.len();
    let starts_well = next_field(&sheet.bytes).is_ok();
    let too_long = reading.end == End::TooLong;
    vec![
        ("empty", bytes == 0),
        ("one field", reading.end == End::Whole && reading.calls.len() == 1),
        ("more fields", reading.end == End::Whole && reading.calls.len() > 1),
        ("15", too_long),
        ("of 65,535 bytes", bytes == LONGEST_SHEET - 1),
        ("of 65,536 bytes", bytes == LONGEST_SHEET),
        ("of 65,537 bytes", bytes == LONGEST_SHEET + 1),
        ("far too long", bytes >= FAR_TOO_LONG),
        ("too long, with a good field first", too_long && starts_well),
        ("too long, with a broken field first", too_long && !starts_well),
        ("more than 20,000 lines", reading.calls.len() > MANY_LINES),
    ]
}

/// What is no field: an unknown tag or a wrong length. Its body is cut where the sheet has fewer bytes than the length
/// says.
fn no_field_cases(reading: &Reading, count: u64) -> Met {
    let (end, rest) = (reading.end, reading.rest);
    let is_no_field = end.number() == Some(UNKNOWN_FIELD);
    let [said, right] = match rest {
        [tag, low, high, ..] => [
            usize::from(u16::from_le_bytes([*low, *high])),
            body_bytes(*tag).unwrap_or(0),
        ],
        _ => [0; 2],
    };
    let cut_body = rest.len() < HEADER_BYTES + said;
    let field_behind = |body: usize| {
        let behind = rest.get(HEADER_BYTES + body..);
        behind.is_some_and(|behind| next_field(behind).is_ok())
    };
    vec![
        ("13 for an unknown tag", end == End::UnknownTag && !cut_body),
        (
            "13 for an unknown tag with a cut body",
            end == End::UnknownTag && cut_body,
        ),
        ("13 for a wrong length", end == End::WrongLength && !cut_body),
        (
            "13 for a wrong length with a cut body",
            end == End::WrongLength && cut_body,
        ),
        ("13 with a count", is_no_field && count > 0),
        ("13 at the first field", is_no_field && reading.calls.is_empty()),
        (
            "13 with a field behind the length said",
            is_no_field && field_behind(said),
        ),
        (
            "13 with a field behind the right length",
            end == End::WrongLength && field_behind(right),
        ),
    ]
}

fn cut_cases(reading: &Reading, count: u64) -> Met {
    let (end, cut) = (reading.end, reading.end.number() == Some(CUT_FIELD));
    let (header, tag) = (end == End::CutHeader, reading.rest.first());
    let known = tag.is_some_and(|tag| body_bytes(*tag).is_some());
    vec![
        ("14 for a cut header", header && known),
        ("14 for a cut header with an unknown tag", header && !known),
        ("14 for a cut body", end == End::CutBody),
        ("14 with a count", cut && count > 0),
        ("14 at the first field", cut && reading.calls.is_empty()),
    ]
}
