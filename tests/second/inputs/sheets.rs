//! Random job sheets: calls made up as for a story, fields made up blindly over a few slots, either of them broken at
//! some place or whole; short runs of bytes and longer ones that are no sheets at all; and sheets about as long as one
//! may be, and longer, which are rare since they cost.

use super::breaks::{broken, no_field};
use super::faulty::off_grid_number;
use super::stories::{any_phases, tell_phases};
use super::teller::Teller;
use crate::answers::plate::{PlateCall, PARTS, SLOTS};
use crate::answers::sheet::LONGEST_SHEET;
use crate::answers::GRID;
use crate::random::Random;
use crate::sheet::Sheet;

/// The whole fields of a sheet.
pub type Fields = Vec<Vec<u8>>;

pub fn any_sheet(random: &mut Random) -> Sheet {
    let bytes = match random.below(1_000) {
        0..=2 => long_sheet(random),
        3..=8 => too_long_sheet(random),
        9..=98 => few_bytes(random),
        99..=148 => any_bytes(random),
        149..=448 => {
            let fields = blind_fields(random);
            broken_or_whole(random, fields)
        }
        _ => {
            let fields = told_fields(random, false);
            broken_or_whole(random, fields)
        }
    };
    Sheet { bytes }
}

pub fn tiny_sheet(random: &mut Random) -> Sheet {
    let fields = told_fields(random, true);
    let bytes = broken_or_whole(random, fields);
    Sheet { bytes }
}

fn broken_or_whole(random: &mut Random, fields: Fields) -> Vec<u8> {
    if random.below(10) < 6 {
        broken(random, fields)
    } else {
        fields.concat()
    }
}

pub fn field(call: &PlateCall) -> Vec<u8> {
    let mut sheet = Sheet { bytes: Vec::new() };
    sheet.push(call);
    sheet.bytes
}

// ---- Fields that have to do with the plate ----

fn told_fields(random: &mut Random, tiny: bool) -> Fields {
    let calls = match random.below(10) {
        0..=3 => random.index(13),
        4..=8 => 10 + random.index(50),
        _ => 100 + random.index(200),
    };
    let phases = any_phases(random);
    let (mut teller, mut fields) = (Teller::new(random, tiny), Fields::new());
    tell_phases(&mut teller, phases, calls, |teller, call| {
        let call = with_bytes(&call);
        teller.perform(&call);
        fields.push(field(&call));
    });
    fields
}

/// The call with its slot and its part cut to a byte. What a sheet can't ask for becomes a shift by nothing.
fn with_bytes(call: &PlateCall) -> PlateCall {
    let byte = |number: u32| number & 0xff;
    match *call {
        PlateCall::Place { slot, part, corners } => PlateCall::Place {
            slot: byte(slot),
            part: byte(part),
            corners,
        },
        PlateCall::Lift { slot } => PlateCall::Lift { slot: byte(slot) },
        PlateCall::Shift { part, by } => PlateCall::Shift { part: byte(part), by },
        PlateCall::Undo => PlateCall::Undo,
        PlateCall::Parts { q, .. } => PlateCall::Shift {
            part: byte(q),
            by: [0; 3],
        },
    }
}

// ---- Fields made up blindly ----

fn blind_fields(random: &mut Random) -> Fields {
    let fields = random.pick(&[1, 3, 10, 30]);
    (0..fields).map(|_| field(&blind_call(random))).collect()
}

/// Over a few slots and parts, so that filled and empty ones both come up, and on the smallest grids, so that flat ones
/// and clashes do.
pub fn blind_call(random: &mut Random) -> PlateCall {
    let [slot, part] = [SLOTS as u32, PARTS].map(|count| match random.below(12) {
        0 => random.pick(&[count, count + 1, 127, 128, 254, 255]),
        1 => random.below(256) as u32,
        2 => count - 1,
        _ => random.below(5) as u32,
    });
    match random.below(8) {
        0..=3 => {
            let half = random.pick(&[1, 1, 1, 2, 3]);
            PlateCall::Place {
                slot,
                part,
                corners: std::array::from_fn(|_| blind_number(random, half)),
            }
        }
        4 => PlateCall::Lift { slot },
        5..=6 => {
            let half = random.pick(&[0, 1, 1, 2]);
            PlateCall::Shift {
                part,
                by: std::array::from_fn(|_| blind_number(random, half)),
            }
        }
        _ => PlateCall::Undo,
    }
}

fn blind_number(random: &mut Random, half: i32) -> i32 {
    match random.below(60) {
        0 => off_grid_number(random),
        1 => random.pick(&[GRID, -GRID]),
        _ => random.between(-half, half),
    }
}

// ---- No sheets at all ----

/// The bytes that mean most: tags, known and not, lengths, and ends.
const TELLING_BYTES: [u8; 12] = [0, 0, 0, 1, 1, 2, 3, 4, 5, 13, 38, 255];

fn few_bytes(random: &mut Random) -> Vec<u8> {
    let bytes = random.index(9);
    (0..bytes).map(|_| random.pick(&TELLING_BYTES)).collect()
}

fn any_bytes(random: &mut Random) -> Vec<u8> {
    let longest = random.pick(&[10, 50, 300, 1_000]);
    let bytes = random.index(longest);
    if random.once_in(2) {
        return (0..bytes).map(|_| random.next() as u8).collect();
    }
    (0..bytes).map(|_| random.pick(&TELLING_BYTES)).collect()
}

// ---- As long as can be, and longer ----

/// Just as long as may be, or a byte less.
fn long_sheet(random: &mut Random) -> Vec<u8> {
    let bytes = LONGEST_SHEET - random.index(2);
    let mut sheet = long_beginning(random);
    fill_up(random, &mut sheet, bytes);
    sheet
}

/// Nothing of it may be done, neither good fields nor a broken one at its front.
fn too_long_sheet(random: &mut Random) -> Vec<u8> {
    let bytes = match random.below(6) {
        0..=2 => LONGEST_SHEET + 1,
        3 => LONGEST_SHEET + random.index(100) + 1,
        // So that a length cut to fewer bits would be that of a short sheet.
        4 => LONGEST_SHEET * random.pick(&[2, 4, 16, 32]) + random.index(2),
        _ => LONGEST_SHEET + random.index(LONGEST_SHEET * 15),
    };
    let mut sheet = if random.once_in(3) {
        no_field(random)
    } else {
        long_beginning(random)
    };
    fill_up(random, &mut sheet, bytes);
    sheet
}

/// What a long sheet has before its many short fields.
fn long_beginning(random: &mut Random) -> Vec<u8> {
    match random.below(4) {
        0 => Vec::new(),
        1 => crowded_fields(random),
        2 => told_fields(random, false).concat(),
        _ => (0..300).flat_map(|_| field(&blind_call(random))).collect(),
    }
}

/// One triangle in all slots, four times for each part, and shifts by nothing so that no undo reaches a place: the
/// count is the largest, so the lines are the longest.
fn crowded_fields(random: &mut Random) -> Vec<u8> {
    let origin = [0; 3].map(|_| random.pick(&[0, -GRID, GRID - 4]));
    let corners = std::array::from_fn(|k| [0, 0, 0, 4, 0, 0, 0, 4, 0][k] + origin[k % 3]);
    let places = (0..SLOTS as u32).map(|slot| PlateCall::Place {
        slot,
        part: slot % PARTS,
        corners,
    });
    let (shifts, part) = (random.pick(&[32, 100]), random.below(u64::from(PARTS)) as u32);
    let shifts = (0..shifts).map(|_| PlateCall::Shift { part, by: [0; 3] });
    places.chain(shifts).flat_map(|call| field(&call)).collect()
}

/// Adds undos, and lifts where these don't come out even; or undos only, the last of them cut.
fn fill_up(random: &mut Random, sheet: &mut Vec<u8>, bytes: usize) {
    let (slot, only_undos) = (random.below(SLOTS as u64) as u32, random.once_in(3));
    let (lift, undo) = (field(&PlateCall::Lift { slot }), field(&PlateCall::Undo));
    while sheet.len() < bytes {
        let even = (bytes - sheet.len()) % undo.len() == 0;
        sheet.extend(if even || only_undos { &undo } else { &lift });
    }
    sheet.truncate(bytes);
}
