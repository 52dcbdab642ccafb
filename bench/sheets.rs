//! The sheets: compares the text that `zg_sheet` writes with that of the ordinary reader, and times the
//! two.

use crate::door;
use crate::inputs::sheets;
use crate::ordinary::sheet::{answer, TEXT_BYTES};
use crate::scaling::{compare_scaled, Input};
use crate::timing::{best_of, last_line, nanoseconds_each, say};
use std::hint::black_box;

/// The highest ratio to the ordinary reader that the door should have.
const GOAL: f64 = 1.5;
/// A sheet is answered in milliseconds, and other work on the machine may disturb for longer than a few of them.
const ROUNDS: usize = 60;
/// A longer sheet is not printed.
const LONG: usize = 1_000;
/// What the bytes of the text are before the call. No line has such a byte.
const UNWRITTEN: u8 = b'?';

/// The last line to print. It is an error where two texts differ, or where each goal has to be reached
/// and one is not.
pub fn compare_and_time(goals: bool) -> Result<String, String> {
    let inputs = sheets::timed();
    compare_faulty()?;
    let texts = agreed_texts(&inputs)?;
    let reached = inputs
        .iter()
        .zip(texts)
        .filter(|(input, text)| timed_ratio(input, text) <= GOAL)
        .count();
    last_line("sheets", reached, inputs.len(), goals)
}

/// Compares the texts alone. The last line to print.
pub fn compare() -> Result<String, String> {
    compare_faulty()?;
    agreed_texts(&sheets::timed())?;
    Ok("all sheets agree; nothing is timed".into())
}

// ---- The comparison ----

fn compare_faulty() -> Result<(), String> {
    sheets::faulty()
        .iter()
        .try_for_each(|sheet| agreed_text(sheet).map(|_| ()))
}

/// The text of each input, if both write the same, on both scales.
fn agreed_texts(inputs: &[Input<Vec<u8>>]) -> Result<Vec<Vec<u8>>, String> {
    let agreed = inputs.iter().map(|input| agreed_text(&input.content));
    let texts: Vec<Vec<u8>> = agreed.collect::<Result<_, _>>()?;
    compare_scaled(inputs, &texts)?;
    Ok(texts)
}

/// The text, if both write the same and the door leaves what comes after it.
fn agreed_text(sheet: &[u8]) -> Result<Vec<u8>, String> {
    let mut text = Vec::new();
    answer(sheet, &mut text);
    let mut told = door_room();
    let length = door::sheet(sheet, &mut told);
    let is_same = told.get(..length) == Some(&text[..]);
    if is_same && told[length..].iter().all(|&byte| byte == UNWRITTEN) {
        Ok(text)
    } else {
        Err(difference(sheet, length, &told[..], &text))
    }
}

fn door_room() -> Box<[u8; TEXT_BYTES]> {
    Box::new([UNWRITTEN; TEXT_BYTES])
}

/// Tells the first line in which the two differ.
fn difference(sheet: &[u8], length: usize, told: &[u8], text: &[u8]) -> String {
    let line = |bytes: &[u8], number: usize| {
        let line = bytes.split(|&byte| byte == b'\n').nth(number).unwrap_or_default();
        String::from_utf8_lossy(&line[..line.len().min(20)]).into_owned()
    };
    let lines = text.iter().filter(|&&byte| byte == b'\n').count();
    let number = (0..lines)
        .find(|&number| line(told, number) != line(text, number))
        .unwrap_or(lines);
    let told_sheet = if sheet.len() > LONG {
        format!("of {} bytes", sheet.len())
    } else {
        format!("{sheet:?}")
    };
    format!(
        "the sheets differ:\n  sheet {told_sheet}\n  line {number}\n  door {length} bytes, {:?}\n  128-bit {} bytes, {:?}",
        line(told, number),
        text.len(),
        line(text, number),
    )
}

// ---- The times ----

/// Times one input, prints its line and gives the door's ratio.
fn timed_ratio(input: &Input<Vec<u8>>, text: &[u8]) -> f64 {
    let sheet = &input.content;
    let lines = || text.split(|&byte| byte == b'\n').filter(|line| !line.is_empty());
    let fields = lines().count();
    let mut room = door_room();
    let mut buffer = Vec::with_capacity(TEXT_BYTES);
    let [door, ordinary] = best_of(ROUNDS, || {
        [
            nanoseconds_each(fields, || {
                black_box(door::sheet(black_box(sheet), black_box(&mut room)));
            }),
            nanoseconds_each(fields, || answer(black_box(sheet), black_box(&mut buffer))),
        ]
    });
    let ratio = door / ordinary;
    say(&format!(
        "{}, {} bytes, {fields} fields, {} refused: door {door:.1} ns a field, 128-bit {ordinary:.1} ns, ratio {ratio:.3}, goal {GOAL}",
        input.name,
        sheet.len(),
        lines().filter(|line| !line.starts_with(b"0 ")).count(),
    ));
    ratio
}
