//! The second program: puts the bench rows of document 01, all patterns of ends of the grid, many random inputs, pairs
//! of triangles in space as bytes too, many inputs aimed at the quick estimate of request Q-7, many random stories of a
//! plate and many random job sheets to the library under check, finds every answer by means of its own, and compares.
//! With `--verdicts` it compares the verdicts on shapes alone, very many of them. With `--text` it asks nothing, but
//! writes pairs and their answers as text.
//! `tests/second/run` says how it is called.
//!
//! Exit status: 0 no disagreement; 1 a disagreement, a failure of the calls, or a case never met;
//! 2 bad arguments, or no way to reach the library.

mod answers;
mod bench;
mod byte_pair;
mod byte_pairs;
mod call;
mod door;
mod ends;
mod estimates;
mod geometry;
mod inputs;
mod plates;
mod random;
mod sheet;
mod sheets;
mod story;
mod tally;
mod text;
mod verdicts;

use answers::Opinion;
use byte_pair::BytePair;
use byte_pairs::BytePairs;
use call::Call;
use door::{Door, Question, Reply, Room, ANSWER_NUMBERS};
use random::Random;
use std::io::Write;
use std::process::ExitCode;
use std::time::{SystemTime, UNIX_EPOCH};
use tally::aimed::AimedTally;
use tally::byte_pairs::BytePairTally;
use tally::plates::PlateTally;
use tally::sheets::SheetTally;
use tally::{Cases, Tally};

const DEFAULT_PAIRS: u64 = 1_000_000;
/// From this many pairs on, a case that never came up is a fault of the inputs.
const PAIRS_THAT_MEET_ALL_CASES: u64 = 100_000;
/// The same of the finer cases, of how the shapes lay and of where the faults of a listing or of slices were: the
/// rarest comes up some twenty times in so many.
const PAIRS_THAT_MEET_FINER_CASES: u64 = 1_000_000;
/// A listing has many pairs, so there is one for so many pairs of each other kind.
const PAIRS_TO_A_LISTING: u64 = 20;
/// A story of a plate has many calls and each of them very many pairs, so there is one for so many pairs of each kind.
const PAIRS_TO_A_STORY: u64 = 500;
/// From this many stories on, a case of the plate that never came up is a fault of the stories.
const STORIES_THAT_MEET_ALL_CASES: u64 = 500;
/// The same of the finer cases, of which slot, part or coordinate it was and which fault hid which: the rarest comes up
/// some thirty times in so many.
const STORIES_THAT_MEET_FINER_CASES: u64 = 2_000;
/// A sheet has many fields, so there is one for so many pairs of each kind.
const PAIRS_TO_A_SHEET: u64 = 100;
/// From this many sheets on, a case of theirs that never came up is a fault of the sheets: the rarest comes up some
/// fifteen times in so many.
const SHEETS_THAT_MEET_ALL_CASES: u64 = 10_000;
/// This many inputs go to the door at once.
const BATCH: u64 = 1_000;

struct Settings {
    pairs: u64,
    stories: u64,
    sheets: u64,
    seed: u64,
    tiny: bool,
    /// How many verdicts to compare, and nothing else.
    verdicts: Option<u64>,
    /// Where to write pairs as text, instead of comparing.
    text: Option<String>,
}

fn main() -> ExitCode {
    let settings = match read_arguments(std::env::args().skip(1)) {
        Ok(settings) => settings,
        Err(message) => {
            eprintln!("second: {message}");
            return ExitCode::from(2);
        }
    };
    if let Some(name) = &settings.text {
        return write_text(name, &settings);
    }
    if let Some(pairs) = settings.verdicts {
        return compare_verdicts(pairs, settings.seed);
    }
    let door = match Door::open() {
        Ok(door) => door,
        Err(message) => {
            eprintln!("second: {message}");
            return ExitCode::from(2);
        }
    };
    let tiny = if settings.tiny { " --tiny" } else { "" };
    let Settings {
        pairs,
        stories,
        sheets,
        seed,
        ..
    } = settings;
    let run = format!("--pairs {pairs} --stories {stories} --sheets {sheets} --seed {seed}{tiny}");
    tell(&run, || compare_all(door, &settings))
}

/// Says which run it is, and how it ended.
fn tell(run: &str, compare: impl FnOnce() -> Result<String, String>) -> ExitCode {
    say(&format!("second: {run}"));
    match compare() {
        Ok(last_line) => {
            say(&format!("second: {last_line}"));
            ExitCode::SUCCESS
        }
        Err(message) => {
            say(&format!("second: {message}\n  run: second {run}"));
            ExitCode::from(1)
        }
    }
}

fn compare_verdicts(pairs: u64, seed: u64) -> ExitCode {
    let Some(put) = door::STRAIGHT else {
        eprintln!("second: --verdicts needs x86-64, where the library is linked in");
        return ExitCode::from(2);
    };
    tell(&format!("--verdicts {pairs} --seed {seed}"), || {
        let tallies = verdicts::compare_many(put, seed, pairs)?;
        tallies.lines().iter().for_each(|line| say(line));
        tallies.last_line(pairs)
    })
}

fn write_text(name: &str, settings: &Settings) -> ExitCode {
    let Settings { pairs, seed, .. } = settings;
    match text::write_pairs(name, *pairs, *seed, any_pair(settings)) {
        Ok(()) => {
            say(&format!("second: --text {name} --pairs {pairs} --seed {seed}: written"));
            ExitCode::SUCCESS
        }
        Err(error) => {
            eprintln!("second: {name}.txt and {name}.words can't be written: {error}");
            ExitCode::from(2)
        }
    }
}

/// A reader that stops listening must not change the exit status, so a failed write is passed over.
fn say(line: &str) {
    let _ = writeln!(std::io::stdout(), "{line}");
}

fn read_arguments(mut arguments: impl Iterator<Item = String>) -> Result<Settings, String> {
    let (mut pairs, mut stories, mut sheets) = (None, None, None);
    let (mut verdicts, mut seed, mut tiny, mut text) = (None, None, false, None);
    while let Some(name) = arguments.next() {
        match name.as_str() {
            "--pairs" => pairs = Some(read_number(&name, arguments.next())?),
            "--stories" => stories = Some(read_number(&name, arguments.next())?),
            "--sheets" => sheets = Some(read_number(&name, arguments.next())?),
            "--verdicts" => verdicts = Some(read_number(&name, arguments.next())?),
            "--seed" => seed = Some(read_number(&name, arguments.next())?),
            "--tiny" => tiny = true,
            "--text" => text = Some(arguments.next().ok_or_else(|| format!("{name} needs a name"))?),
            _ => return Err(format!("unknown argument {name:?}")),
        }
    }
    if [pairs, stories, sheets, verdicts].contains(&Some(0)) {
        return Err("--pairs, --stories, --sheets and --verdicts must be at least 1".to_string());
    }
    if verdicts.is_some() && (tiny || text.is_some() || [pairs, stories, sheets] != [None; 3]) {
        return Err("--verdicts goes with --seed alone".to_string());
    }
    let pairs = pairs.unwrap_or(DEFAULT_PAIRS);
    Ok(Settings {
        pairs,
        stories: stories.unwrap_or(pairs.div_ceil(PAIRS_TO_A_STORY)),
        sheets: sheets.unwrap_or(pairs.div_ceil(PAIRS_TO_A_SHEET)),
        seed: seed.unwrap_or_else(seed_from_clock),
        tiny,
        verdicts,
        text,
    })
}

fn read_number(name: &str, text: Option<String>) -> Result<u64, String> {
    let text = text.ok_or_else(|| format!("{name} needs a number"))?;
    text.parse()
        .map_err(|_| format!("{name} needs a whole number of 0 or more, not {text:?}"))
}

fn seed_from_clock() -> u64 {
    let since = SystemTime::now().duration_since(UNIX_EPOCH);
    since.map_or(1, |time| time.as_nanos() as u64)
}

/// The random inputs of one call.
struct Plan {
    cases: Cases,
    count: u64,
    any_input: fn(&mut Random) -> Call,
}

fn plans(settings: &Settings) -> Vec<Plan> {
    let plan = |cases, count, any_input| Plan {
        cases,
        count,
        any_input,
    };
    let (pairs, quarter) = (settings.pairs, settings.pairs.div_ceil(4));
    let listings = pairs.div_ceil(PAIRS_TO_A_LISTING);
    if settings.tiny {
        return vec![
            plan(tally::FLAT, pairs, inputs::tiny_flat_pair),
            plan(tally::SEGMENT, pairs, inputs::tiny_segment),
            plan(tally::PAIR, pairs, any_pair(settings)),
            plan(tally::LIST, listings, inputs::tiny_listing),
        ];
    }
    vec![
        plan(tally::FLAT, pairs, inputs::any_flat_pair),
        plan(tally::SEGMENT, pairs, inputs::any_segment),
        plan(tally::PAIR, pairs, any_pair(settings)),
        plan(tally::TURN, quarter, inputs::any_turn),
        plan(tally::SIDE, quarter, inputs::any_side),
        plan(tally::LIST, listings, inputs::any_listing),
    ]
}

fn any_pair(settings: &Settings) -> fn(&mut Random) -> Call {
    if settings.tiny {
        inputs::tiny_pair
    } else {
        inputs::any_pair
    }
}

fn compare_all(mut door: Door, settings: &Settings) -> Result<String, String> {
    compare_fixed(&mut door, settings.seed)?;
    let tallies = compare_random(&mut door, settings)?;
    door.close()?;
    tallies.lines().iter().for_each(|line| say(line));
    let missed = tallies.missed(settings);
    if !missed.is_empty() {
        return Err(format!("cases never met: {}", missed.join("; ")));
    }
    let tiny = if settings.tiny { "tiny " } else { "" };
    let counts = tallies.compared().into_iter();
    let counts: Vec<String> = counts
        .map(|(compared, inputs)| format!("{compared} {tiny}{inputs}"))
        .collect();
    Ok(format!("{}: no disagreement", counts.join(", ")))
}

/// Compares the door, and this program as well, with all fixed results.
fn compare_fixed(door: &mut Door, seed: u64) -> Result<(), String> {
    let rows = compare_bench(door, seed)?;
    let at_ends = ends::compare_all(door, seed)?;
    let byte_pairs = byte_pairs::compare_stored(door, seed)?;
    let stories = plates::compare_stored(door, seed)?;
    let sheets = sheets::compare_stored(door, seed)?;
    say(&format!(
        "bench: {rows} rows, {byte_pairs} pairs as bytes, {stories} stories and {sheets} sheets compared"
    ));
    say(&format!(
        "ends of the grid: {at_ends} calls compared, in all patterns of signs"
    ));
    Ok(())
}

fn compare_random(door: &mut Door, settings: &Settings) -> Result<Tallies, String> {
    let (mut calls, mut byte_pairs) = (Vec::new(), BytePairs::new(settings.seed));
    for (stream, plan) in (1..).zip(plans(settings)) {
        calls.push(compare_many(door, settings.seed, stream, plan, &mut byte_pairs)?);
    }
    byte_pairs.compare_many(door, settings.seed, pairs_made_of_bytes(settings))?;
    Ok(Tallies {
        aimed: compare_aimed(door, settings)?,
        calls,
        byte_pairs: byte_pairs.tally,
        plates: compare_stories(door, settings)?,
        sheets: compare_sheets(door, settings)?,
    })
}

/// A tiny run has none: its numbers are small, which few bytes make.
fn pairs_made_of_bytes(settings: &Settings) -> u64 {
    if settings.tiny {
        0
    } else {
        settings.pairs.div_ceil(4)
    }
}

/// A tiny run has none: their numbers are large.
fn compare_aimed(door: &mut Door, settings: &Settings) -> Result<Option<AimedTally>, String> {
    if settings.tiny {
        return Ok(None);
    }
    estimates::compare_many(door, settings.seed, settings.pairs).map(Some)
}

fn compare_stories(door: &mut Door, settings: &Settings) -> Result<PlateTally, String> {
    let any_story = if settings.tiny {
        inputs::tiny_story
    } else {
        inputs::any_story
    };
    plates::compare_many(door, settings.seed, settings.stories, any_story)
}

fn compare_sheets(door: &mut Door, settings: &Settings) -> Result<SheetTally, String> {
    let any_sheet = if settings.tiny {
        inputs::tiny_sheet
    } else {
        inputs::any_sheet
    };
    sheets::compare_many(door, settings.seed, settings.sheets, any_sheet)
}

/// The random inputs that were compared, of every kind.
struct Tallies {
    calls: Vec<Tally>,
    aimed: Option<AimedTally>,
    byte_pairs: BytePairTally,
    plates: PlateTally,
    sheets: SheetTally,
}

impl Tallies {
    fn lines(&self) -> Vec<String> {
        let lines = self.calls.iter().map(Tally::line);
        lines
            .chain(self.aimed.iter().flat_map(AimedTally::lines))
            .chain([self.byte_pairs.line(), self.plates.line(), self.sheets.line()])
            .collect()
    }

    /// How many there were, and what they are called.
    fn compared(&self) -> Vec<(u64, &'static str)> {
        let calls = self.calls.iter().map(|tally| (tally.compared, tally.inputs()));
        let aimed = self.aimed.iter().map(|tally| (tally.compared(), "aimed calls"));
        let others = [
            (self.byte_pairs.compared, "pairs as bytes"),
            (self.plates.stories, "stories"),
            (self.sheets.sheets, "sheets"),
        ];
        calls.chain(aimed).chain(others).collect()
    }

    /// The cases that never came up, of a run that is large enough for them. Tiny stories and sheets lack some by their
    /// nature.
    fn missed(&self, settings: &Settings) -> Vec<String> {
        let mut missed = Vec::new();
        if settings.pairs >= PAIRS_THAT_MEET_ALL_CASES {
            let (with_refusals, with_finer) = (!settings.tiny, settings.pairs >= PAIRS_THAT_MEET_FINER_CASES);
            let calls = self.calls.iter();
            missed.extend(calls.flat_map(|tally| tally.missed(with_refusals, with_finer)));
            missed.extend(self.byte_pairs.missed(with_refusals, with_finer));
            missed.extend(self.aimed.iter().flat_map(|tally| tally.missed(with_finer)));
        }
        if settings.stories >= STORIES_THAT_MEET_ALL_CASES && !settings.tiny {
            missed.extend(self.plates.missed(settings.stories >= STORIES_THAT_MEET_FINER_CASES));
        }
        if settings.sheets >= SHEETS_THAT_MEET_ALL_CASES && !settings.tiny {
            missed.extend(self.sheets.missed());
        }
        missed
    }
}

/// Compares the door, and this program as well, with the fixed results.
fn compare_bench(door: &mut Door, seed: u64) -> Result<usize, String> {
    let mut random = Random::new(seed, 0);
    let rows = bench::rows();
    for row in &rows {
        let opinion = row.call.own_opinion();
        opinion.compare_own(&row.call)?;
        if opinion.outcome != row.outcome {
            let (name, own) = (row.name, opinion.outcome.answer);
            return Err(format!("the second program is wrong on bench row {name}: {own:?}"));
        }
        let lengths = [ANSWER_NUMBERS, ANSWER_NUMBERS + 1, ANSWER_NUMBERS - 1];
        let rooms = lengths.map(|length| Room::with_marks(&mut random, length, row.call.buffer_length()));
        let replies = ask(door, rooms.iter().map(|room| row.call.question(room)));
        let replies = replies.map_err(|text| format!("FAILURE on bench row {}: {text}", row.name))?;
        for (room, reply) in rooms.iter().zip(&replies) {
            let compared = row.call.compare_door(&row.outcome, room, reply);
            compared.map_err(|text| format!("DISAGREEMENT on bench row {}: {text}", row.name))?;
        }
    }
    Ok(rows.len())
}

/// Compares the random inputs of one call, as bytes too where they can be asked so. The stream keeps its inputs the
/// same whatever the other calls take, so the input of a given number depends on the seed alone.
fn compare_many(
    door: &mut Door,
    seed: u64,
    stream: u64,
    plan: Plan,
    byte_pairs: &mut BytePairs,
) -> Result<Tally, String> {
    let mut random = Random::new(seed, stream);
    let mut tally = Tally::new(plan.cases);
    while tally.compared < plan.count {
        let size = BATCH.min(plan.count - tally.compared);
        let any_input = |_| {
            let call = (plan.any_input)(&mut random);
            let room = Room::with_any_answer(&mut random, call.buffer_length());
            (call, room)
        };
        let inputs: Vec<(Call, Room)> = (0..size).map(any_input).collect();
        let as_bytes = compare_batch(door, &mut tally, &inputs)?;
        byte_pairs.compare(door, as_bytes)?;
    }
    Ok(tally)
}

/// Compares the inputs that follow those in the tally. Gives those that can be asked as bytes too, with the own
/// opinions of them.
fn compare_batch(
    door: &mut Door,
    tally: &mut Tally,
    inputs: &[(Call, Room)],
) -> Result<Vec<(BytePair, Opinion)>, String> {
    let (before, size) = (tally.compared, inputs.len() as u64);
    let replies = ask(door, inputs.iter().map(|(call, room)| call.question(room)));
    let replies = replies.map_err(|text| {
        let (name, first, last) = (tally.name(), before + 1, before + size);
        format!("FAILURE on inputs {first} to {last} of zg_{name}: {text}")
    })?;
    let mut as_bytes = Vec::new();
    for (number, ((call, room), reply)) in (before + 1..).zip(inputs.iter().zip(&replies)) {
        let opinion = call.own_opinion();
        opinion.compare_own(call)?;
        let compared = call.compare_door(&opinion.outcome, room, reply);
        compared.map_err(|text| format!("DISAGREEMENT on input {number} of {text}"))?;
        tally.note(&opinion, room.is_too_short());
        as_bytes.extend(call.as_bytes().map(|pair| (pair, opinion)));
    }
    Ok(as_bytes)
}

fn ask<'a>(door: &mut Door, questions: impl Iterator<Item = Question<'a>>) -> Result<Vec<Reply>, String> {
    door.ask(&questions.collect::<Vec<_>>())
}
