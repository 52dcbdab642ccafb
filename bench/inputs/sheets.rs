//! The sheets' inputs: job sheets, three kinds that are timed, each nearly as long as a sheet may be,
//! and faulty ones. Those that have coordinates are timed on both scales.

use super::plates::{any_middle_triangle, any_move, any_part, any_slot};
use super::{bytes_of, faulty_shape, List};
use crate::ordinary::plate::{LIFT, PARTS, PLACE, SHIFT, SLOTS, UNDO};
use crate::ordinary::sheet::MOST_BYTES;
use crate::ordinary::GRID;
use crate::random::Random;
use crate::scaling::{as_it_is, on_both_scales, scaled_number, Input};

/// A field takes so many bytes: its tag, two bytes of length, and its body.
const PLACE_BYTES: usize = 41;
const LIFT_BYTES: usize = 4;
const UNDO_BYTES: usize = 3;

/// So many sheets with faults, each of fewer fields than this.
const FAULTY_SHEETS: usize = 2_000;
const FAULTY_FIELDS: usize = 120;
/// The kinds of their fields, each as often as it is drawn.
const KINDS: [u32; 6] = [PLACE, PLACE, PLACE, LIFT, SHIFT, UNDO];

pub fn timed() -> Vec<Input<Vec<u8>>> {
    [
        on_both_scales("lifts and places in turn on a full plate", full_plate),
        on_both_scales("places, all but the first 64 into filled slots", refused_places),
        as_it_is("undos of the empty plate", refused_undos()),
    ]
    .into_iter()
    .flatten()
    .collect()
}

fn full_plate(scale: i32) -> Vec<u8> {
    let mut random = Random::new(13, 0);
    let mut sheet = Vec::new();
    for slot in 0..SLOTS as u8 {
        put_middle_place(&mut random, &mut sheet, slot, scale);
    }
    while sheet.len() + LIFT_BYTES + PLACE_BYTES <= MOST_BYTES {
        let slot = random.index(SLOTS) as u8;
        put_field(&mut sheet, LIFT, &[slot]);
        put_middle_place(&mut random, &mut sheet, slot, scale);
    }
    sheet
}

fn refused_places(scale: i32) -> Vec<u8> {
    let mut random = Random::new(14, 0);
    let mut sheet = Vec::new();
    for place in 0..MOST_BYTES / PLACE_BYTES {
        put_middle_place(&mut random, &mut sheet, (place % SLOTS) as u8, scale);
    }
    sheet
}

fn refused_undos() -> Vec<u8> {
    let mut sheet = Vec::new();
    for _ in 0..MOST_BYTES / UNDO_BYTES {
        put_field(&mut sheet, UNDO, &[]);
    }
    sheet
}

fn put_middle_place(random: &mut Random, sheet: &mut Vec<u8>, slot: u8, scale: i32) {
    let triangle = any_middle_triangle(random).map(|number| scaled_number(number, scale));
    put_place(sheet, slot, random.index(PARTS as usize) as u8, &triangle);
}

fn put_place(sheet: &mut Vec<u8>, slot: u8, part: u8, triangle: &List) {
    put_field(sheet, PLACE, &body_of(&[slot, part], triangle));
}

fn body_of(about: &[u8], numbers: &[i32]) -> Vec<u8> {
    [about, &bytes_of(numbers)].concat()
}

/// The tags are the numbers of the plate's calls.
fn put_field(sheet: &mut Vec<u8>, tag: u32, body: &[u8]) {
    sheet.push(tag as u8);
    sheet.extend((body.len() as u16).to_le_bytes());
    sheet.extend(body);
}

/// Short sheets of fields of all kinds, refused or not, many of them cut or with a byte changed, be it of
/// a tag, a length or a number; and two long ones, of which the second is one byte too long.
pub fn faulty() -> Vec<Vec<u8>> {
    let mut random = Random::new(15, 0);
    let any_sheet = || faulty_sheet(&mut random);
    let mut sheets: Vec<Vec<u8>> = std::iter::repeat_with(any_sheet).take(FAULTY_SHEETS).collect();
    for longer in [0, 1] {
        let mut sheet = refused_undos();
        sheet.resize(MOST_BYTES + longer, UNDO as u8);
        sheets.push(sheet);
    }
    sheets
}

fn faulty_sheet(random: &mut Random) -> Vec<u8> {
    let mut sheet = Vec::new();
    for _ in 0..random.index(FAULTY_FIELDS) {
        put_any_field(random, &mut sheet);
    }
    if random.once_in(2) && !sheet.is_empty() {
        let place = random.index(sheet.len());
        sheet[place] = random.next() as u8;
    }
    if random.once_in(2) {
        sheet.truncate(random.index(sheet.len() + 1));
    }
    sheet
}

fn put_any_field(random: &mut Random, sheet: &mut Vec<u8>) {
    let (slot, part) = (any_slot(random) as u8, any_part(random) as u8);
    match random.pick(&KINDS) {
        PLACE => put_place(sheet, slot, part, &faulty_shape(random)),
        LIFT => put_field(sheet, LIFT, &[slot]),
        SHIFT => put_field(sheet, SHIFT, &body_of(&[part], &any_move(random, [2; 3], GRID)[..3])),
        _ => put_field(sheet, UNDO, &[]),
    }
}
