//! The teller of a story: it knows the plate as the calls told so far have left it, and makes up the next call, good or
//! bad in a way that has to do with the plate.

use super::any_half;
use super::pools::{any_pool, bad_corners, tiny_corners, tiny_pool};
use crate::answers::plate::{pieces_of, Corners, Move, Plate, PlateCall, Slots, PARTS, SLOTS};
use crate::answers::GRID;
use crate::random::Random;
use crate::story::Story;

/// A good change is looked for so many times.
const TRIES: usize = 6;
const ALL_SLOTS: u32 = SLOTS as u32;

pub struct Teller<'a> {
    pub random: &'a mut Random,
    pub story: Story,
    plate: Plate,
    pool: Vec<Corners>,
    /// Only the slots and parts below these are filled.
    slots: u32,
    parts: u32,
    /// All stays far from the ends of the grid.
    tiny: bool,
    /// The way back after a shift.
    back: Option<PlateCall>,
}

impl<'a> Teller<'a> {
    pub fn new(random: &'a mut Random, tiny: bool) -> Teller<'a> {
        let pool = if tiny { tiny_pool(random) } else { any_pool(random) };
        let slots = random.pick(&[2, 6, 20, 40, ALL_SLOTS, ALL_SLOTS, ALL_SLOTS, ALL_SLOTS]);
        let parts = random.pick(&[1, 2, 3, 5, PARTS, PARTS, PARTS]);
        Teller {
            slots,
            parts,
            ..Teller::with_pool(random, pool, tiny)
        }
    }

    /// All slots and parts may be filled, from a pool that must not be empty.
    pub fn with_pool(random: &'a mut Random, pool: Vec<Corners>, tiny: bool) -> Teller<'a> {
        Teller {
            story: Story::new(),
            plate: Plate::empty(),
            pool,
            slots: ALL_SLOTS,
            parts: PARTS,
            tiny,
            back: None,
            random,
        }
    }

    /// Adds the call to the story and does it.
    pub fn tell(&mut self, call: PlateCall) {
        self.plate.perform(&call);
        let random = &mut *self.random;
        self.story.push(&call, || random.next() as i32);
    }

    /// Does the call, and leaves the story to whoever writes it in another way.
    pub fn perform(&mut self, call: &PlateCall) {
        self.plate.perform(call);
    }

    // ---- Good changes ----

    /// A place into an empty slot, or where there is none a lift.
    pub fn fill(&mut self) -> PlateCall {
        let Some(slot) = self.any_slot(false) else {
            return self.lift();
        };
        PlateCall::Place {
            slot,
            part: self.random.below(u64::from(self.parts)) as u32,
            corners: self.random.pick(&self.pool),
        }
    }

    /// A lift of a filled slot, or where there is none of any.
    pub fn lift(&mut self) -> PlateCall {
        let slot = self.any_slot(true).unwrap_or(0);
        PlateCall::Lift { slot }
    }

    /// A shift that need not be good.
    fn shift(&mut self) -> PlateCall {
        let by = match self.random.below(8) {
            0 => [0; 3],
            1..=4 => [0; 3].map(|_| self.random.between(-2, 2)),
            5..=6 => self.corner_to_corner(),
            _ => {
                let half = if self.tiny { 3 } else { any_half(self.random) };
                [0; 3].map(|_| self.random.between(-half, half))
            }
        };
        let part = self.any_part();
        PlateCall::Shift { part, by }
    }

    /// Any change that is accepted, wherever one was found.
    pub fn change(&mut self) -> PlateCall {
        for _ in 0..TRIES {
            let call = match self.random.below(5) {
                0..=1 => self.fill(),
                2 => self.lift(),
                _ => self.shift(),
            };
            if self.plate.faults(&call).is_empty() {
                return call;
            }
        }
        self.fill()
    }

    /// A shift, or the way back of the one before.
    pub fn swing(&mut self) -> PlateCall {
        if let Some(back) = self.back.take() {
            return back;
        }
        let call = self.shift();
        if let PlateCall::Shift { part, by } = call {
            // The way back of the longest move is a step too far for 32 bits.
            let by = by.map(i32::saturating_neg);
            self.back = Some(PlateCall::Shift { part, by });
        }
        call
    }

    // ---- To the ends of the grid and beyond ----

    /// As far as a part can go along an axis, or one too far, or by a move that no triangle can take but one at an end
    /// of the grid.
    pub fn far_shift(&mut self) -> PlateCall {
        if self.tiny {
            return self.shift();
        }
        let part = self.any_part();
        let any_axis = self.random.index(3);
        let axis = self.axis_across_wall(part).unwrap_or(any_axis);
        let mut by = [0; 3];
        by[axis] = match self.random.below(8) {
            0..=4 => {
                let beyond = self.random.pick(&[0, 0, 1, 1, 1]);
                self.way_to_end(part, axis, beyond)
            }
            5 => self.random.pick(&[i32::MIN, i32::MIN + 1, i32::MAX, i32::MAX - 1]),
            _ => self.power_of_two(),
        };
        if self.random.once_in(4) {
            by[(axis + 1) % 3] = self.random.pick(&[1, -1, i32::MIN, i32::MAX]);
        }
        PlateCall::Shift { part, by }
    }

    /// An axis along which all of the part is at one place, an end of the grid or a step before it: there it may go to
    /// the other end.
    fn axis_across_wall(&self, part: u32) -> Option<usize> {
        (0..3).find(|axis| {
            let places = self.places_of(part, *axis);
            let is_wall = |first: &i32| first.abs() >= GRID - 1 && places.iter().all(|place| place == first);
            places.first().is_some_and(is_wall)
        })
    }

    /// Of each corner of the part its place along an axis.
    fn places_of(&self, part: u32, axis: usize) -> Vec<i32> {
        let pieces = pieces_of(self.plate.slots(), part);
        let places = pieces.flat_map(|(_, piece)| [0, 3, 6].map(|corner| piece.corners[corner + axis]));
        places.collect()
    }

    /// The move along an axis that takes the part's outermost coordinate so far beyond the end of the grid, or as far
    /// as 32 bits go.
    fn way_to_end(&mut self, part: u32, axis: usize, beyond: i32) -> i32 {
        let places = self.places_of(part, axis);
        let (low, high) = (places.iter().min(), places.iter().max());
        if self.random.once_in(2) {
            GRID.saturating_sub(*high.unwrap_or(&0)).saturating_add(beyond)
        } else {
            (-GRID).saturating_sub(*low.unwrap_or(&0)).saturating_sub(beyond)
        }
    }

    /// Either sign; numbers cut to fewer bits would be the same as before such a move.
    fn power_of_two(&mut self) -> i32 {
        let power = 1 << (16 + self.random.below(15));
        self.random.pick(&[power, -power])
    }

    /// Takes a corner of a triangle of the pool to one of another, as far as 32 bits go: what was apart may touch then.
    fn corner_to_corner(&mut self) -> Move {
        let [from, to] = [0; 2].map(|_| self.random.pick(&self.pool));
        let [one, other] = [0; 2].map(|_| 3 * self.random.index(3));
        std::array::from_fn(|k| to[other + k].saturating_sub(from[one + k]))
    }

    // ---- Questions ----

    /// Mostly of parts that are there, and now and then of one part twice.
    pub fn question(&mut self) -> PlateCall {
        let [p, q] = [0; 2].map(|_| self.any_part());
        let q = if self.random.once_in(10) { p } else { q };
        PlateCall::Parts { p, q }
    }

    // ---- Bad calls ----

    /// Any call with any mixture of faults, or none.
    pub fn bad_call(&mut self) -> PlateCall {
        match self.random.below(14) {
            0..=5 => self.bad_place(),
            6..=8 => {
                let slot = self.any_bad_slot();
                PlateCall::Lift { slot }
            }
            9 => match self.shift() {
                PlateCall::Shift { by, .. } => {
                    let part = self.any_bad_part();
                    PlateCall::Shift { part, by }
                }
                other => other,
            },
            10..=11 => self.far_shift(),
            _ => {
                let [p, q] = [0; 2].map(|_| self.any_bad_part());
                let q = if self.random.once_in(8) { p } else { q };
                PlateCall::Parts { p, q }
            }
        }
    }

    fn bad_place(&mut self) -> PlateCall {
        let good = self.random.pick(&self.pool);
        let corners = match self.random.below(2) {
            0 => good,
            _ if self.tiny => tiny_corners(self.random),
            _ => bad_corners(self.random, &good),
        };
        PlateCall::Place {
            slot: self.any_bad_slot(),
            part: self.any_bad_part(),
            corners,
        }
    }

    /// Filled, empty, or none at all: just beyond the last, far beyond, or one that comes to be one when cut short.
    fn any_bad_slot(&mut self) -> u32 {
        let any = self.random.below(SLOTS as u64) as u32;
        match self.random.below(6) {
            0..=1 => self.any_slot(true).unwrap_or(any),
            2 => self.any_slot(false).unwrap_or(any),
            3 => any,
            _ => self.beyond(ALL_SLOTS, any),
        }
    }

    /// The same of a part: on the plate, absent, or none at all.
    fn any_bad_part(&mut self) -> u32 {
        let any = self.random.below(u64::from(PARTS)) as u32;
        match self.random.below(4) {
            0..=1 => self.any_part(),
            2 => any,
            _ => self.beyond(PARTS, any),
        }
    }

    fn beyond(&mut self, count: u32, any: u32) -> u32 {
        let cut = [1 << 6, 1 << 8, 1 << 16, 1 << 31];
        match self.random.below(6) {
            0..=1 => count,
            2 => count + any,
            3 => u32::MAX - self.random.pick(&[0, 0, any]),
            4 => self.random.pick(&cut) + any,
            _ => count + self.random.below(u64::from(u32::MAX - count) + 1) as u32,
        }
    }

    // ---- What is on the plate ----

    pub fn slots(&self) -> &Slots {
        self.plate.slots()
    }

    /// One of the filled slots, or one of the empty ones that are to be filled.
    pub fn any_slot(&mut self, filled: bool) -> Option<u32> {
        let slots = self.plate.slots();
        let range = if filled { ALL_SLOTS } else { self.slots };
        let wanted: Vec<u32> = (0..range)
            .filter(|slot| slots[*slot as usize].is_some() == filled)
            .collect();
        (!wanted.is_empty()).then(|| self.random.pick(&wanted))
    }

    /// The part of a filled slot; any where there is none.
    fn any_part(&mut self) -> u32 {
        let slot = self.any_slot(true).unwrap_or(0);
        let piece = self.plate.slots()[slot as usize];
        piece.map_or(0, |piece| piece.part)
    }
}
