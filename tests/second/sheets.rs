//! Compares the library's reading of job sheets with the own one: the stored sheets, and many random ones.

use crate::answers::sheet::{text_of, Reading};
use crate::bench::sheets;
use crate::door::Door;
use crate::random::Random;
use crate::sheet::{AskedSheet, Sheet};
use crate::tally::sheets::SheetTally;

/// The random numbers of the sheets are these streams of the seed, so that no other input depends on them.
const STREAM: u64 = 102;
const STORED_STREAM: u64 = 103;
const MARKS_STREAM: u64 = 104;
/// This many sheets go to the door at once. The marks behind their texts are the same, since new ones cost.
const BATCH: u64 = 50;
/// The sheets that are tried to shorten one by its fields have so many bytes at most, all together.
const BYTES_TO_SHORTEN_BY: usize = 3_000_000;

/// Compares the door, and this program as well, with the fixed answers.
pub fn compare_stored(door: &mut Door, seed: u64) -> Result<usize, String> {
    let mut random = Random::new(seed, STORED_STREAM);
    let stored = sheets::stored();
    for sheets::Stored { name, sheet, text } in &stored {
        let marks = random.next();
        let asked = sheet.clone().asked(&mut random, marks)?;
        let own = text_of(&asked.lines);
        if own != text.as_bytes() {
            let own = own.escape_ascii();
            return Err(format!(
                "the second program is wrong on the sheet {name:?}: {own}\n{sheet}"
            ));
        }
        let compared = compare(door, &asked).map_err(|text| format!("FAILURE on the sheet {name:?}: {text}"))?;
        compared.map_err(|text| format!("DISAGREEMENT on the sheet {name:?}: {sheet}{text}"))?;
    }
    Ok(stored.len())
}

/// Compares random sheets. The sheet of a given number depends on the seed alone.
pub fn compare_many(
    door: &mut Door,
    seed: u64,
    count: u64,
    any_sheet: fn(&mut Random) -> Sheet,
) -> Result<SheetTally, String> {
    let (mut random, mut marks) = (Random::new(seed, STREAM), Random::new(seed, MARKS_STREAM));
    let mut tally = SheetTally::default();
    while tally.sheets < count {
        let (size, seed_of_marks) = (BATCH.min(count - tally.sheets), marks.next());
        let asked = (0..size).map(|_| any_sheet(&mut random).asked(&mut marks, seed_of_marks));
        let asked: Vec<AskedSheet> = asked.collect::<Result<_, _>>()?;
        compare_batch(door, &mut tally, &asked)?;
    }
    Ok(tally)
}

/// Compares the sheets that follow those in the tally.
fn compare_batch(door: &mut Door, tally: &mut SheetTally, asked: &[AskedSheet]) -> Result<(), String> {
    let (first, last) = (tally.sheets + 1, tally.sheets + asked.len() as u64);
    let questions: Vec<_> = asked.iter().map(AskedSheet::question).collect();
    let replies = door.ask(&questions);
    let replies = replies.map_err(|text| format!("FAILURE on sheets {first} to {last} of zg_sheet: {text}"))?;
    for (number, (asked, reply)) in (first..).zip(asked.iter().zip(&replies)) {
        if let Err(text) = asked.compare_door(reply) {
            let (sheet, text) = shortened(door, asked.sheet.clone(), text);
            return Err(format!(
                "DISAGREEMENT on sheet {number}, without the fields that don't matter, of {sheet}{text}"
            ));
        }
        tally.note(&Reading::of(&asked.sheet.bytes), &asked.sheet, &asked.lines);
    }
    Ok(())
}

/// The inner error tells the disagreement; the outer one, why the door failed.
fn compare(door: &mut Door, asked: &AskedSheet) -> Result<Result<(), String>, String> {
    let replies = door.ask(&[asked.question()])?;
    Ok(replies.iter().try_for_each(|theirs| asked.compare_door(theirs)))
}

/// Leaves out bytes at the end and runs of fields, long ones and then shorter ones, wherever the disagreement stays. Of
/// a sheet that is long and has to be, every single field would take too long.
fn shortened(door: &mut Door, mut sheet: Sheet, mut text: String) -> (Sheet, String) {
    for bytes in [65_536, 4_096, 256, 32, 4, 1] {
        while let Some(found) = disagreement_of_shorter(door, &sheet, sheet.cut_by(bytes)) {
            (sheet, text) = found;
        }
    }
    let mut bytes_left = BYTES_TO_SHORTEN_BY;
    for fields in [4_096, 1_024, 256, 64, 16, 4, 2, 1] {
        let mut place = Reading::of(&sheet.bytes).calls.len();
        while place > 0 && bytes_left > sheet.bytes.len() {
            place -= 1;
            if place + fields > Reading::of(&sheet.bytes).calls.len() {
                continue;
            }
            bytes_left -= sheet.bytes.len();
            if let Some(found) = disagreement_of_shorter(door, &sheet, sheet.without(place, fields)) {
                (sheet, text) = found;
            }
        }
    }
    (sheet, text)
}

/// Nothing also where it is no shorter, where the door failed, or this program did.
fn disagreement_of_shorter(door: &mut Door, sheet: &Sheet, shorter: Sheet) -> Option<(Sheet, String)> {
    if shorter.bytes.len() == sheet.bytes.len() {
        return None;
    }
    let asked = shorter.asked(&mut Random::new(0, MARKS_STREAM), 2).ok()?;
    let text = compare(door, &asked).ok()?.err()?;
    Some((asked.sheet, text))
}
