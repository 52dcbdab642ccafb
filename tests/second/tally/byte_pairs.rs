//! Counts of what the pairs of triangles as bytes met, the line that reports them, and the cases that were missed.

use super::plates::count_of;
use super::{finer_cases, listed, Count, FaultMixtures, PAIR};
use crate::answers::bytes::{numbers_of, result_of, TRIANGLE_BYTES};
use crate::answers::{Opinion, GRID, OFF_GRID, TRIANGLE_NUMBERS, WRONG_LENGTH};
use crate::byte_pair::{AskedBytePair, BytePair};
use crate::inputs::WRONG_LENGTHS;
use std::collections::BTreeMap;

const VERDICTS: [u64; 2] = [0, 1];
const REFUSALS: [u64; 2] = [101, 103];
const SIDES: [usize; 2] = [0, 1];

#[derive(Default)]
pub struct BytePairTally {
    pub compared: u64,
    results: BTreeMap<u64, u64>,
    /// Slices that were lent at an odd place, by side.
    odd_places: [u64; 2],
    /// Slices that are too long and begin with a triangle of the grid, by side.
    triangles_and_more: [u64; 2],
    mixtures: FaultMixtures,
    /// Slices of a wrong length, by side and length and by whether the other's is wrong too.
    wrong_lengths: BTreeMap<(usize, usize, bool), u64>,
    /// Numbers that are the only one off the grid, by side and place and by whether no number of the grid has their
    /// highest byte. Else that is the byte of the grid's end, and the low ones are too much.
    lone_numbers: BTreeMap<(usize, usize, bool), u64>,
}

impl BytePairTally {
    pub fn note(&mut self, asked: &AskedBytePair, opinion: &Opinion) {
        self.compared += 1;
        let answer = &opinion.outcome.answer;
        *self.results.entry(result_of(answer)).or_default() += 1;
        for side in SIDES {
            self.odd_places[side] += u64::from(asked.lent[side].is_at_odd_place());
        }
        self.mixtures.note(opinion);
        match answer.number {
            WRONG_LENGTH => self.note_lengths(&asked.pair),
            OFF_GRID => self.note_numbers(&asked.pair),
            _ => {}
        }
    }

    fn note_lengths(&mut self, pair: &BytePair) {
        let lengths = pair.slices().map(<[u8]>::len);
        let is_wrong = lengths.map(|length| length != TRIANGLE_BYTES);
        for side in SIDES.into_iter().filter(|side| is_wrong[*side]) {
            let length = (side, lengths[side], is_wrong[1 - side]);
            *self.wrong_lengths.entry(length).or_default() += 1;
            self.triangles_and_more[side] += u64::from(is_triangle_and_more(pair.slices()[side]));
        }
    }

    fn note_numbers(&mut self, pair: &BytePair) {
        let mut off_grid = Vec::new();
        for side in SIDES {
            let numbers = (0..).zip(numbers_of(pair.slices()[side]));
            let bad = numbers.filter(|(_, number)| !is_on_grid(*number));
            off_grid.extend(bad.map(|(place, number)| (side, place, number)));
        }
        if let [(side, place, number)] = off_grid[..] {
            let [highest, end] = [number, GRID].map(|number| number.to_le_bytes()[3]);
            *self.lone_numbers.entry((side, place, highest != end)).or_default() += 1;
        }
    }

    /// One line for the reader.
    pub fn line(&self) -> String {
        let mut counts = self.counts(true);
        counts.push(finer_cases(&self.fine_counts()));
        format!("pair_bytes: {} compared: {}", self.compared, listed(counts))
    }

    /// The cases that a large run must have met and didn't.
    pub fn missed(&self, with_refusals: bool, with_finer: bool) -> Vec<String> {
        let mut counts = self.counts(with_refusals);
        if with_refusals {
            counts.extend(self.mixtures.counts(PAIR.refusals));
        }
        if with_refusals && with_finer {
            counts.extend(self.fine_counts());
        }
        let missed = counts.into_iter().filter(|(_, count)| *count == 0);
        missed.map(|(name, _)| format!("pair_bytes: {name}")).collect()
    }

    fn counts(&self, with_refusals: bool) -> Vec<Count> {
        let result = |result: &u64| (format!("result {result}"), count_of(&self.results, result));
        let mut counts: Vec<Count> = VERDICTS.iter().map(result).collect();
        if with_refusals {
            counts.extend(REFUSALS.iter().map(result));
            counts.extend(by_side("a triangle and more", self.triangles_and_more));
        }
        counts.extend(by_side("at an odd place", self.odd_places));
        counts
    }

    /// Each wrong length that tells most, alone and beside another, and each place of a number that alone is off the
    /// grid, for its highest byte and otherwise.
    fn fine_counts(&self) -> Vec<Count> {
        let mut counts = Vec::new();
        let cases = SIDES
            .into_iter()
            .flat_map(|side| [false, true].map(|case| (side, case)));
        for (side, case) in cases {
            for length in WRONG_LENGTHS {
                let name = format!("{length} bytes, side {side}, the other of a wrong length: {case}");
                counts.push((name, count_of(&self.wrong_lengths, &(side, length, case))));
            }
            for place in 0..TRIANGLE_NUMBERS {
                let name = format!("off the grid at {place} alone, side {side}, by the highest byte: {case}");
                counts.push((name, count_of(&self.lone_numbers, &(side, place, case))));
            }
        }
        counts
    }
}

fn by_side(name: &str, counts: [u64; 2]) -> [Count; 2] {
    SIDES.map(|side| (format!("{name} side {side}"), counts[side]))
}

fn is_triangle_and_more(slice: &[u8]) -> bool {
    slice.len() > TRIANGLE_BYTES && numbers_of(&slice[..TRIANGLE_BYTES]).into_iter().all(is_on_grid)
}

fn is_on_grid(number: i32) -> bool {
    (-GRID..=GRID).contains(&number)
}
