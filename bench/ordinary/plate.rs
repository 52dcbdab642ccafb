//! The ordinary plate: takes what `zg_plate` takes, makes the same checks in the same order and gives
//! the same six numbers a call. Here are the calls and the journal. Beneath them are the slots, of
//! which there are two kinds: those in `kept` keep the count, those in `recounted` test every pair
//! each time that they are asked for it. Whether two parts clash is no matter of the count, and is found
//! from their triangles each time.

pub mod kept;
pub mod recounted;

use super::{answered, checked_shape, meet, refusal, shells, Answer, Point, Triangle, GRID, TRIANGLE_NUMBERS};
use std::collections::VecDeque;

pub const SLOTS: usize = 64;
pub const PARTS: u32 = 16;
/// Undo takes back at most so many changes.
const MOST_REACH: usize = 32;

/// A call takes so many numbers beside those of a triangle: its kind, and what it is about.
pub const CALL_NUMBERS: usize = 3;
/// Refusal number, side, place, count, reach, value.
pub const ANSWER_NUMBERS: usize = 6;

// The kinds of calls, as document 01 has them; the last is its Parts, by the rule of document 02's Q-4.
pub const PLACE: u32 = 1;
pub const LIFT: u32 = 2;
pub const SHIFT: u32 = 3;
pub const UNDO: u32 = 4;
pub const CLASH: u32 = 5;

/// A move along x, y and z. The way back of a move that is accepted may be 2^31, from one end of the grid to the
/// other, so 32 bits don't hold it.
type Move = [i64; 3];

/// What is in a filled slot.
#[derive(Clone, Copy)]
pub struct Held {
    part: u32,
    triangle: Triangle,
}

impl Held {
    /// Whether the two are of different parts and have a point in common.
    fn clashes(&self, other: &Held) -> bool {
        self.part != other.part && meet::<i128>(self.triangle, other.triangle)
    }

    /// It stays on the grid, so the new coordinates fit 32 bits.
    fn shift(&mut self, by: Move) {
        for corner in &mut self.triangle {
            for (coordinate, step) in corner.iter_mut().zip(by) {
                *coordinate = (i64::from(*coordinate) + step) as i32;
            }
        }
    }

    fn stays_on_grid(&self, by: Move) -> bool {
        let stays = |(coordinate, step): (i32, i64)| {
            let sum = i64::from(coordinate) + step;
            (-i64::from(GRID)..=i64::from(GRID)).contains(&sum)
        };
        self.triangle
            .iter()
            .all(|corner| corner.iter().copied().zip(by).all(stays))
    }
}

/// The slots, which know nothing of refusals: each step is one that can be taken.
pub trait Slots {
    fn empty() -> Self;
    fn held(&self) -> &[Option<Held>; SLOTS];
    fn put(&mut self, slot: usize, held: Held);
    fn take(&mut self, slot: usize) -> Option<Held>;
    fn shift(&mut self, part: u32, by: Move);
    fn count(&self) -> u64;
}

/// A change that can be taken back.
enum Change {
    Placed { slot: usize },
    Lifted { slot: usize, held: Held },
    Shifted { part: u32, by: Move },
}

pub struct Plate<S> {
    slots: S,
    /// The latest change is the last.
    journal: VecDeque<Change>,
}

/// Makes the calls one after the other on an empty plate, as many as all three have room for, and
/// gives how many. A call of an unknown kind is not made, nor any after it.
/// Not inlined, so that it is called as a library's function is.
#[inline(never)]
pub fn run<S: Slots>(calls: &[u32], numbers: &[i32], answers: &mut [u64]) -> u64 {
    let mut plate = Plate::<S>::empty();
    let calls = calls.chunks_exact(CALL_NUMBERS);
    let numbers = numbers.chunks_exact(TRIANGLE_NUMBERS);
    let answers = answers.chunks_exact_mut(ANSWER_NUMBERS);
    let mut made = 0;
    for ((call, numbers), answer) in calls.zip(numbers).zip(answers) {
        let Some(told) = plate.call(call, numbers) else {
            break;
        };
        answer.copy_from_slice(&told);
        made += 1;
    }
    made
}

// ---- The calls ----

impl<S: Slots> Plate<S> {
    pub fn empty() -> Plate<S> {
        Plate {
            slots: S::empty(),
            journal: VecDeque::with_capacity(MOST_REACH),
        }
    }

    /// Makes one call, of `CALL_NUMBERS` and `TRIANGLE_NUMBERS`. None where its kind is unknown.
    pub fn call(&mut self, call: &[u32], numbers: &[i32]) -> Option<[u64; ANSWER_NUMBERS]> {
        let value = match call[0] {
            PLACE => self.place(call[1], call[2], numbers),
            LIFT => self.lift(call[1]),
            SHIFT => self.shift(call[1], [numbers[0], numbers[1], numbers[2]]),
            UNDO => self.undo(),
            CLASH => self.parts_clash(call[1], call[2]),
            _ => return None,
        };
        let answer = answered(value);
        let (count, reach) = (self.count(), self.journal.len() as u64);
        Some([answer.number, answer.side, answer.place, count, reach, answer.value])
    }

    pub fn count(&self) -> u64 {
        self.slots.count()
    }

    pub fn place(&mut self, slot: u32, part: u32, numbers: &[i32]) -> Result<u64, Answer> {
        let slot = checked_slot(slot)?;
        check_part(part, 0)?;
        let triangle = checked_triangle(numbers)?;
        if self.slots.held()[slot].is_some() {
            return Err(refusal(8, 0, slot));
        }
        self.slots.put(slot, Held { part, triangle });
        self.note(Change::Placed { slot });
        Ok(0)
    }

    pub fn lift(&mut self, slot: u32) -> Result<u64, Answer> {
        let slot = checked_slot(slot)?;
        let held = self.slots.take(slot).ok_or_else(|| refusal(9, 0, slot))?;
        self.note(Change::Lifted { slot, held });
        Ok(0)
    }

    pub fn shift(&mut self, part: u32, by: Point) -> Result<u64, Answer> {
        check_part(part, 0)?;
        self.check_held(part, 0)?;
        let by = by.map(i64::from);
        let mut slots = self.slots.held().iter();
        let leaves = |held: &Held| held.part == part && !held.stays_on_grid(by);
        if let Some(slot) = slots.position(|held| held.as_ref().is_some_and(leaves)) {
            return Err(refusal(11, 0, slot));
        }
        self.slots.shift(part, by);
        self.note(Change::Shifted { part, by });
        Ok(0)
    }

    pub fn undo(&mut self) -> Result<u64, Answer> {
        match self.journal.pop_back().ok_or_else(|| refusal(12, 0, 0))? {
            Change::Placed { slot } => {
                self.slots.take(slot);
            }
            Change::Lifted { slot, held } => self.slots.put(slot, held),
            Change::Shifted { part, by } => self.slots.shift(part, by.map(|step| -step)),
        }
        Ok(0)
    }

    /// Whether the skins of the parts p and q meet, or a corner of one is inside the other. No part clashes
    /// with itself.
    fn parts_clash(&self, p: u32, q: u32) -> Result<u64, Answer> {
        check_part(p, 0)?;
        check_part(q, 1)?;
        let shell = self.shell_of(p, 0)?;
        let other = self.shell_of(q, 1)?;
        if p == q {
            return Ok(0);
        }
        if shells::skins_meet(&shell, &other) {
            return Ok(1);
        }
        check_closed(&shell, p, 0)?;
        check_closed(&other, q, 1)?;
        let has_inside = shells::has_corner_inside(&shell, &other) || shells::has_corner_inside(&other, &shell);
        Ok(u64::from(has_inside))
    }

    fn note(&mut self, change: Change) {
        if self.journal.len() == MOST_REACH {
            self.journal.pop_front();
        }
        self.journal.push_back(change);
    }

    fn held_of(&self, part: u32) -> impl Iterator<Item = &Held> {
        self.slots.held().iter().flatten().filter(move |held| held.part == part)
    }

    /// The triangles of a part, of which there has to be one.
    fn shell_of(&self, part: u32, side: u64) -> Result<Vec<Triangle>, Answer> {
        self.check_held(part, side)?;
        Ok(self.held_of(part).map(|held| held.triangle).collect())
    }

    fn check_held(&self, part: u32, side: u64) -> Result<(), Answer> {
        match self.held_of(part).next() {
            Some(_) => Ok(()),
            None => Err(refusal(10, side, part as usize)),
        }
    }
}

/// A plate takes no flat triangle.
fn checked_triangle(numbers: &[i32]) -> Result<Triangle, Answer> {
    let shape = checked_shape::<i128>(numbers, 0, 0)?;
    if shape.is_flat {
        Err(refusal(2, 0, 0))
    } else {
        Ok(shape.corners)
    }
}

fn checked_slot(slot: u32) -> Result<usize, Answer> {
    let slot = slot as usize;
    if slot < SLOTS {
        Ok(slot)
    } else {
        Err(refusal(6, 0, slot))
    }
}

fn check_part(part: u32, side: u64) -> Result<(), Answer> {
    if part < PARTS {
        Ok(())
    } else {
        Err(refusal(7, side, part as usize))
    }
}

fn check_closed(shell: &[Triangle], part: u32, side: u64) -> Result<(), Answer> {
    if shells::is_closed(shell) {
        Ok(())
    } else {
        Err(refusal(16, side, part as usize))
    }
}
