//! Counts of what listings met: the room that their buffers had for their pairs, how long the lists were, and the
//! mixtures of faults.

use super::meetings::named;
use super::{fault_pairs, finer_cases, Count, Refusal, LIST, LIST_FAULTS};
use crate::answers::faults::ListFaults;
use crate::answers::listing::{ListingFindings, MOST_TRIANGLES};
use crate::answers::{Opinion, OFF_GRID, TRIANGLE_NUMBERS, WRONG_LENGTH};

#[derive(Default)]
pub struct Listings {
    pairs: u64,
    /// Pairs of triangles of which one is flat, apart and meeting, in listings that were served.
    flat_pairs: [u64; 2],
    rooms: Rooms,
    lengths: Lengths,
    mixtures: Mixtures,
}

/// How much room there was from the start on.
#[derive(Default)]
struct Rooms {
    exactly_full: u64,
    one_number_more: u64,
    one_number_short: u64,
    one_pair_short: u64,
    no_room_and_no_pair: u64,
    numbers_on_both_sides: u64,
    start_just_beyond: u64,
    start_far_beyond: u64,
}

/// Served listings with lists of special lengths.
#[derive(Default)]
struct Lengths {
    both_empty: u64,
    one_empty: [u64; 2],
    longest: [u64; 2],
}

#[derive(Default)]
struct Mixtures {
    several_faults: u64,
    /// By the room, the fault of the first list alone and that of the second alone.
    with_room: [[[u64; LIST_FAULTS]; LIST_FAULTS]; ROOMS.len()],
    /// As `IN_ONE_LIST` has them; by side.
    in_one_list: [[u64; 2]; IN_ONE_LIST.len()],
    /// Both lists empty; by the room.
    empty_lists: [u64; ROOMS.len()],
}

const ROOMS: [&str; 3] = ["the start beyond the end", "room for no pair", "room"];
/// Two faults in one list, or a fault and a flat triangle, which is none.
const IN_ONE_LIST: [&str; 5] = [
    "a triangle off the grid before another",
    "a triangle off the grid before a flat one",
    "a flat triangle before one off the grid",
    "a wrong length with a triangle off the grid",
    "a wrong length with a flat triangle",
];

impl Listings {
    pub fn note(&mut self, opinion: &Opinion, findings: &ListingFindings) {
        let served = opinion.outcome.answer.number == 0;
        if served {
            self.pairs += opinion.outcome.answer.value;
            (0..2).for_each(|verdict| self.flat_pairs[verdict] += findings.flat_pairs[verdict]);
            self.lengths.note(findings);
        }
        if let [first, second] = &opinion.faults[..] {
            let lists_are_good = first.number_alone() == 0 && second.number_alone() == 0;
            self.rooms.note(findings, lists_are_good);
            self.mixtures.note(findings, [first, second]);
        }
    }

    pub fn counts(&self) -> Vec<Count> {
        let [flat_apart, flat_meeting] = self.flat_pairs;
        let mut counts = named([
            ("pairs found", self.pairs),
            ("pairs with a flat triangle and apart", flat_apart),
            ("pairs with a flat triangle and meeting", flat_meeting),
        ]);
        counts.extend(self.rooms.counts());
        counts.extend(named([
            ("both lists empty", self.lengths.both_empty),
            ("several faults at once", self.mixtures.several_faults),
        ]));
        let finer = [self.fine_counts(), self.fine_mixtures()].concat();
        counts.push(finer_cases(&finer));
        counts
    }

    pub fn fine_counts(&self) -> Vec<Count> {
        self.lengths.fine_counts()
    }

    pub fn fine_mixtures(&self) -> Vec<Count> {
        self.mixtures.counts()
    }
}

impl Rooms {
    fn note(&mut self, findings: &ListingFindings, lists_are_good: bool) {
        let needed = 2 * findings.pairs as u64;
        let Some(room) = findings.room else {
            let is_far = findings.start >= 1 << 32;
            self.start_far_beyond += u64::from(is_far);
            self.start_just_beyond += u64::from(!is_far);
            return;
        };
        if !lists_are_good {
            return;
        }
        if needed == 0 {
            self.no_room_and_no_pair += u64::from(room == 0);
            return;
        }
        self.exactly_full += u64::from(room == needed);
        self.one_number_more += u64::from(room == needed + 1);
        self.one_number_short += u64::from(room + 1 == needed);
        self.one_pair_short += u64::from(room + 2 == needed);
        self.numbers_on_both_sides += u64::from(findings.start > 0 && room > needed);
    }

    fn counts(&self) -> Vec<Count> {
        named([
            ("buffer exactly full", self.exactly_full),
            ("one number to spare", self.one_number_more),
            ("one number short", self.one_number_short),
            ("one pair short", self.one_pair_short),
            ("no room and no pair", self.no_room_and_no_pair),
            ("numbers to keep on both sides of the pairs", self.numbers_on_both_sides),
            ("start just beyond the end", self.start_just_beyond),
            ("start far beyond", self.start_far_beyond),
        ])
    }
}

impl Lengths {
    fn note(&mut self, findings: &ListingFindings) {
        let [first, second] = findings.triangles;
        self.both_empty += u64::from(first == 0 && second == 0);
        for (side, other) in [(0, 1), (1, 0)] {
            let (size, other_size) = (findings.triangles[side], findings.triangles[other]);
            self.one_empty[side] += u64::from(size == 0 && other_size > 0);
            self.longest[side] += u64::from(size == MOST_TRIANGLES && findings.pairs > 0);
        }
    }

    fn fine_counts(&self) -> Vec<Count> {
        let mut counts = Vec::new();
        for side in 0..2 {
            counts.push((format!("list {side} alone empty"), self.one_empty[side]));
            counts.push((
                format!("1,024 triangles in list {side}, with pairs"),
                self.longest[side],
            ));
        }
        counts
    }
}

impl Mixtures {
    fn note(&mut self, findings: &ListingFindings, lists: [&ListFaults; 2]) {
        let room = match findings.room {
            None => 0,
            Some(0..=1) => 1,
            Some(_) => 2,
        };
        let [first, second] = lists.map(|list| list.number_alone() as usize);
        self.with_room[room][first][second] += 1;
        if findings.triangles == [0, 0] && [first, second] == [0, 0] {
            self.empty_lists[room] += 1;
        }
        let is_cramped = findings.pairs > 0 && findings.room < Some(2 * findings.pairs as u64);
        let mut faults = usize::from(findings.room.is_none()) + usize::from(is_cramped);
        for (side, list) in lists.into_iter().enumerate() {
            faults += usize::from(list.length.is_some()) + list.shapes.len();
            for (kind, met) in in_one_list(list).into_iter().enumerate() {
                self.in_one_list[kind][side] += u64::from(met);
            }
        }
        self.several_faults += u64::from(faults > 1);
    }

    fn counts(&self) -> Vec<Count> {
        let mut counts = Vec::new();
        for (room, room_name) in ROOMS.iter().enumerate() {
            counts.push((format!("empty lists with {room_name}"), self.empty_lists[room]));
            for [first, second] in fault_pairs(LIST.refusals) {
                let name = format!("faults {first} and {second} of the lists with {room_name}");
                counts.push((name, self.with_room[room][first][second]));
            }
        }
        for (kind, name) in IN_ONE_LIST.iter().enumerate() {
            for side in 0..2 {
                counts.push((format!("{name}, in list {side}"), self.in_one_list[kind][side]));
            }
        }
        counts
    }
}

/// Which of `IN_ONE_LIST` a list has.
fn in_one_list(list: &ListFaults) -> [bool; IN_ONE_LIST.len()] {
    let (off_grid, flat) = (list.shapes.first(), list.flat_shapes.first());
    let (mut off_grid_first, mut flat_first) = (false, false);
    if let (None, Some(off_grid), Some(flat)) = (list.length, off_grid, flat) {
        off_grid_first = off_grid.shape < *flat;
        flat_first = *flat < off_grid.shape;
    }
    let wrong_length = list.length.is_some();
    [
        !wrong_length && list.shapes.len() > 1,
        off_grid_first,
        flat_first,
        wrong_length && off_grid.is_some(),
        wrong_length && flat.is_some(),
    ]
}

/// Each position in the first two triangles must have been the lowest bad one, and each length next to that of few and
/// of most triangles given.
pub fn wanted_refusals(side: u64) -> Vec<Refusal> {
    let most_numbers = TRIANGLE_NUMBERS * MOST_TRIANGLES;
    let positions = (0..2 * TRIANGLE_NUMBERS).map(|place| (OFF_GRID, place));
    let short = (1..2 * TRIANGLE_NUMBERS).filter(|length| length % TRIANGLE_NUMBERS != 0);
    let long = [most_numbers + 1, most_numbers + TRIANGLE_NUMBERS];
    let lengths = short.chain(long).map(|length| (WRONG_LENGTH, length));
    let places = positions.chain(lengths);
    places.map(|(number, place)| (number, side, place as u64)).collect()
}
