//! Random pairs of triangles as the text that the C example reads, and the words that it must answer with: the same text
//! in many spellings, with blank lines and remarks between and now and then a byte-order mark before it all, and the own
//! answers told as the example tells them, with the lines of both triangles.

use crate::answers::{Answer, GRID, OFF_GRID, TRIANGLE_NUMBERS, WRONG_LENGTH};
use crate::call::Call;
use crate::random::Random;
use std::fs::File;
use std::io::{self, BufWriter, Write};

/// The pairs and their spelling are these streams of the seed, so that no other input depends on them.
const STREAM: u64 = 200;
const SPELLING_STREAM: u64 = 201;
const BYTE_ORDER_MARK: &str = "\u{feff}";

/// Writes the text to NAME.txt, and the words, a line a pair, to NAME.words.
pub fn write_pairs(name: &str, pairs: u64, seed: u64, any_pair: fn(&mut Random) -> Call) -> io::Result<()> {
    let (mut random, mut spelling) = (Random::new(seed, STREAM), Random::new(seed, SPELLING_STREAM));
    let mut text = BufWriter::new(File::create(format!("{name}.txt"))?);
    let mut words = BufWriter::new(File::create(format!("{name}.words"))?);
    let mut lines_written = 0;
    if spelling.once_in(2) {
        text.write_all(BYTE_ORDER_MARK.as_bytes())?;
    }
    for _ in 0..pairs {
        let call = any_pair(&mut random);
        let opinion = call.own_opinion();
        opinion.compare_own(&call).map_err(io::Error::other)?;
        if let Call::Pair(first, second) = &call {
            let lists: [&[i32]; 2] = [first, second];
            let mut line_numbers = [0; 2];
            for (list, line_number) in lists.iter().zip(&mut line_numbers) {
                let lines = lines(&mut spelling, list);
                text.write_all(lines.as_bytes())?;
                // The last of them is the triangle's.
                lines_written += lines.matches('\n').count();
                *line_number = lines_written;
            }
            let [first_line, second_line] = line_numbers;
            let told = told(&opinion.outcome.answer, lists);
            writeln!(words, "lines {first_line} and {second_line}: {told}")?;
        }
    }
    text.flush()?;
    words.flush()
}

// ---- The text ----

/// The line of a triangle, now and then after lines that are passed over.
fn lines(random: &mut Random, list: &[i32]) -> String {
    let before = match random.below(20) {
        0 => random.pick(&["\n", " \t \n", "\r\n", "\n\n"]),
        1 => random.pick(&["# 1 2 3\n", "#\n", "  # (0,0,0) x \u{e9}\n", "##\r\n"]),
        _ => "",
    };
    let end = random.pick(&["\n", "\n", "\n", "\r\n", " \n", ";\n"]);
    // A list of no numbers must not look like a blank line.
    let line = match list {
        [] => random.pick(&["()", ",", "[ ]", " ; "]).to_string(),
        _ if random.once_in(2) => in_brackets(random, list),
        _ => in_a_row(random, list),
    };
    format!("{before}{line}{end}")
}

/// Three by three, as document 01 writes corners.
fn in_brackets(random: &mut Random, list: &[i32]) -> String {
    let [open, close] = random.pick(&[["(", ")"], ["(", ")"], ["[", "]"], ["{", "}"]]);
    let [inner, outer] = random.pick(&[[",", " "], [",", " "], [", ", ", "], [";", ""], [" ", "\t"]]);
    let corners = list.chunks(3).map(|corner| {
        let numbers: Vec<String> = corner.iter().map(|number| number.to_string()).collect();
        format!("{open}{}{close}", numbers.join(inner))
    });
    corners.collect::<Vec<_>>().join(outer)
}

/// With any mark before each number, and now and then with a sign and zeros that it doesn't need.
fn in_a_row(random: &mut Random, list: &[i32]) -> String {
    let mut line = String::new();
    for number in list {
        line += random.pick(&[" ", " ", " ", "  ", "\t", ",", ", ", ";", " (", ")[", "}{"]);
        line += &match random.below(10) {
            0 if *number >= 0 => format!("+{number}"),
            1 => format!("{number:011}"),
            2 if *number == 0 => "-0".to_string(),
            _ => number.to_string(),
        };
    }
    line
}

// ---- The words ----

fn told(answer: &Answer, lists: [&[i32]; 2]) -> String {
    let triangle = ["the first triangle", "the second triangle"][answer.side as usize];
    let place = answer.place as usize;
    match (answer.number, answer.value) {
        (0, 0) => "apart: they have no point in common".to_string(),
        (0, _) => "meeting: they have a point in common".to_string(),
        (OFF_GRID, _) => {
            let (corner, coordinate) = (place / 3 + 1, ["x", "y", "z"][place % 3]);
            let number = lists[answer.side as usize][place];
            format!("refused (1): {triangle}'s corner {corner} has {coordinate} = {number}, off the grid (-{GRID} to {GRID})")
        }
        (WRONG_LENGTH, _) => {
            let plural = if place == 1 { "" } else { "s" };
            format!("refused (3): {triangle} has {place} number{plural}, not {TRIANGLE_NUMBERS}")
        }
        (other, _) => format!("refused ({other})"),
    }
}
