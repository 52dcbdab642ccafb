//! The benchmark: times calls of libdoor.a beside ordinary code that does the same job by the same
//! method, on the same inputs in the same run, and gives the ratio of the two. The calls are `zg_pair`
//! ("pairs"), `zg_segment` ("segments"), `zg_list` ("listings"), `zg_plate` ("plates") and `zg_sheet`
//! ("sheets"). `zg_pair_bytes` ("bytes") is timed beside `zg_pair`, on the same pairs. A time is the
//! processor's that the process takes.
//!
//! The ordinary code has 128-bit numbers, since a determinant on the grid does not fit 64 bits. Most inputs
//! are timed twice: within 2^19, and the same scaled to the whole grid.
//! Within 2^19 the ordinary test and the ordinary listing are timed with 64-bit numbers too, to show what is
//! due to the width of the numbers alone; beyond it these would overflow, and are not asked. A plate that
//! recounts all pairs at each call is timed too, to show what keeping the count gains. With --check nothing
//! is timed: the inputs of the bytes, the listings and the sheets and a part of the plates' are compared.
//! Scaling an input may change none of its answers, and that is compared as well. With "paths" nothing is
//! timed either, and the library is not asked: it is counted how the signs are told.
//!
//! `bench/run` says how it is called, and which arguments go together.
//!
//! Exit status: 0 all agree; 1 two answers differ, or a ratio of the door is above what --at-most
//! allows for the pairs and the segments, or with --goals above its goal, or an estimate is farther from
//! its side than it may be, or a side that is left to its low word larger than it may be; 2 bad arguments.

mod bytes;
mod door;
mod inputs;
mod listings;
mod ordinary;
mod paths;
mod plates;
#[allow(dead_code)] // the second program asks it for more
#[path = "../tests/second/random.rs"]
mod random;
mod scaling;
mod sheets;
mod timing;
mod verdicts;

use std::process::ExitCode;
use timing::say;

/// What is to be timed, and how it is judged.
#[derive(Default)]
struct Asked {
    /// Nothing is timed.
    check: bool,
    /// Nothing is timed, and the paths to the signs are counted.
    paths: bool,
    pairs: bool,
    bytes: bool,
    segments: bool,
    listings: bool,
    plates: bool,
    sheets: bool,
    /// The highest ratio that is allowed for the pairs and the segments.
    at_most: Option<f64>,
    /// Whether all that is timed has to reach its goal.
    goals: bool,
}

fn main() -> ExitCode {
    let asked = match read_arguments(std::env::args().skip(1)) {
        Ok(asked) => asked,
        Err(message) => {
            eprintln!("bench: {message}");
            return ExitCode::from(2);
        }
    };
    if asked.check {
        return status(compared());
    }
    if asked.paths {
        return status(told(paths::count()));
    }
    // All are run even if one fails, and each says its last line as soon as it has it.
    let mut all_well = true;
    let at_most = asked.at_most.unwrap_or(f64::INFINITY);
    if asked.pairs {
        all_well &= told(verdicts::pairs(at_most, asked.goals));
    }
    if asked.bytes {
        all_well &= told(bytes::compare_and_time(asked.goals));
    }
    if asked.segments {
        all_well &= told(verdicts::segments(at_most, asked.goals));
    }
    if asked.listings {
        all_well &= told(listings::compare_and_time(asked.goals));
    }
    if asked.plates {
        all_well &= told(plates::compare_and_time(asked.goals));
    }
    if asked.sheets {
        all_well &= told(sheets::compare_and_time(asked.goals));
    }
    status(all_well)
}

/// Compares without timing, all even if one fails.
fn compared() -> bool {
    told(bytes::compare()) & told(listings::compare()) & told(plates::compare()) & told(sheets::compare())
}

fn status(all_well: bool) -> ExitCode {
    if all_well {
        ExitCode::SUCCESS
    } else {
        ExitCode::from(1)
    }
}

/// Prints the last line of a call's benchmark, and gives whether all was well.
fn told(outcome: Result<String, String>) -> bool {
    let all_well = outcome.is_ok();
    say(&format!("bench: {}", outcome.unwrap_or_else(|message| message)));
    all_well
}

fn read_arguments(mut arguments: impl Iterator<Item = String>) -> Result<Asked, String> {
    let mut asked = Asked::default();
    while let Some(name) = arguments.next() {
        match name.as_str() {
            "pairs" => asked.pairs = true,
            "bytes" => asked.bytes = true,
            "segments" => asked.segments = true,
            "listings" => asked.listings = true,
            "plates" => asked.plates = true,
            "sheets" => asked.sheets = true,
            "paths" => asked.paths = true,
            "--at-most" => asked.at_most = Some(read_ratio(&arguments.next().unwrap_or_default())?),
            "--goals" => asked.goals = true,
            "--check" => asked.check = true,
            _ => return Err(format!("unknown argument {name:?}")),
        }
    }
    let named = [
        &mut asked.pairs,
        &mut asked.bytes,
        &mut asked.segments,
        &mut asked.listings,
        &mut asked.plates,
        &mut asked.sheets,
    ];
    if named.iter().all(|is_asked| !**is_asked) {
        named.into_iter().for_each(|is_asked| *is_asked = true);
    }
    Ok(asked)
}

fn read_ratio(text: &str) -> Result<f64, String> {
    match text.parse() {
        Ok(ratio) if ratio > 0.0 => Ok(ratio),
        _ => Err(format!("--at-most needs a number above 0, not {text:?}")),
    }
}
