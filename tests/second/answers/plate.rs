//! The own plate. It keeps the changes that stand and the reach, and nothing else from one call to the next: after
//! every call the changes are played again on an empty plate, and an undone one is as if it had never been.

use super::clashes::Clashes;
use super::faults::placed_triangle_faults;
use super::shells::PartsFindings;
use super::{Answer, GRID, TRIANGLE_NUMBERS};

pub const SLOTS: usize = 64;
pub const PARTS: u32 = 16;
pub const MOST_REACH: u64 = 32;

pub const NO_SUCH_SLOT: u64 = 6;
pub const NO_SUCH_PART: u64 = 7;
pub const SLOT_IS_FILLED: u64 = 8;
pub const SLOT_IS_EMPTY: u64 = 9;
pub const PART_IS_ABSENT: u64 = 10;
pub const SHIFT_OFF_GRID: u64 = 11;
pub const NOTHING_TO_UNDO: u64 = 12;
pub const SHELL_IS_OPEN: u64 = 16;

/// The nine numbers of a triangle, and the three of a move.
pub type Corners = [i32; TRIANGLE_NUMBERS];
pub type Move = [i32; 3];

#[derive(Clone, Copy)]
pub struct Piece {
    pub part: u32,
    pub corners: Corners,
}

pub type Slots = [Option<Piece>; SLOTS];

/// A call on the plate with its numbers as given, good or bad.
#[derive(Clone, Copy, Debug)]
pub enum PlateCall {
    Place { slot: u32, part: u32, corners: Corners },
    Lift { slot: u32 },
    Shift { part: u32, by: Move },
    Undo,
    Parts { p: u32, q: u32 },
}

/// A change that was accepted.
#[derive(Clone, Copy)]
pub enum Change {
    Place { slot: usize, piece: Piece },
    Lift { slot: usize },
    Shift { part: u32, by: Move },
}

/// What a call on the plate tells: its answer, and the count and the reach after it.
#[derive(Clone, Copy, PartialEq, Eq, Debug)]
pub struct PlateAnswer {
    pub answer: Answer,
    pub count: u64,
    pub reach: u64,
}

impl PlateAnswer {
    /// In the order in which they go through the door.
    pub fn numbers(&self) -> [u64; 6] {
        let Answer {
            number,
            side,
            place,
            value,
        } = self.answer;
        [number, side, place, self.count, self.reach, value]
    }
}

/// One call of a story, with what it must tell and what it had to deal with.
pub struct Step {
    pub call: PlateCall,
    /// Everything that it could be refused for, in the order of documents 01 and 02.
    pub faults: Vec<Answer>,
    /// How two parts lie to each other that are on the plate and were asked for.
    pub parts: Option<PartsFindings>,
    pub told: PlateAnswer,
    /// The same by the other own method. A difference is a fault of this program.
    pub second_told: PlateAnswer,
    pub undone: Option<Change>,
    /// The slots before the call.
    pub before: Slots,
    /// How many changes stand after it.
    pub standing: usize,
}

pub struct Plate {
    changes: Vec<Change>,
    reach: u64,
    /// As the changes give them.
    slots: Slots,
}

impl Plate {
    pub fn empty() -> Plate {
        Plate {
            changes: Vec::new(),
            reach: 0,
            slots: [None; SLOTS],
        }
    }

    pub fn slots(&self) -> &Slots {
        &self.slots
    }

    /// Does what the call asks for, or refuses it, and tells all of it.
    pub fn step(&mut self, call: PlateCall, clashes: &mut Clashes) -> Step {
        let (faults, before) = (self.faults(&call), self.slots);
        let undone = self.perform(&call);
        let counts = clashes.count(&self.slots);
        let [parts, second_parts] = match call {
            PlateCall::Parts { p, q } if faults.is_empty() => clashes.parts(&self.slots, p, q).map(Some),
            _ => [None, None],
        };
        let told = |parts: &Option<PartsFindings>, count: u64| {
            let faults = with_shell_faults(&faults, parts);
            let value = parts.as_ref().map_or(0, PartsFindings::value);
            PlateAnswer {
                answer: faults.first().copied().unwrap_or(Answer::served(value)),
                count,
                reach: self.reach,
            }
        };
        Step {
            call,
            told: told(&parts, counts[0]),
            second_told: told(&second_parts, counts[1]),
            faults: with_shell_faults(&faults, &parts),
            parts,
            undone,
            before,
            standing: self.changes.len(),
        }
    }

    /// Does what the call asks for, if nothing is wrong with it. Gives the change that was undone, if one was.
    pub fn perform(&mut self, call: &PlateCall) -> Option<Change> {
        if !self.faults(call).is_empty() {
            return None;
        }
        let mut undone = None;
        match change_asked(call) {
            Some(change) => {
                self.changes.push(change);
                self.reach = MOST_REACH.min(self.reach + 1);
            }
            None if matches!(call, PlateCall::Undo) => {
                undone = self.changes.pop();
                self.reach -= 1;
            }
            None => {}
        }
        self.slots = played(&self.changes);
        undone
    }

    /// Everything that the call could be refused for, the weightiest first, also what that hides. Open shells are left
    /// out: only Parts is refused for them, which changes nothing, and it takes long to know whether they matter.
    pub fn faults(&self, call: &PlateCall) -> Vec<Answer> {
        match call {
            PlateCall::Place { slot, part, corners } => self.place_faults(*slot, *part, corners),
            PlateCall::Lift { slot } => {
                let empty = *slot < SLOTS as u32 && self.slots[*slot as usize].is_none();
                let empty = empty.then(|| Answer::refused(SLOT_IS_EMPTY, 0, u64::from(*slot)));
                slot_fault(*slot).into_iter().chain(empty).collect()
            }
            PlateCall::Shift { part, by } => {
                let faults = part_fault(*part, 0).into_iter();
                let faults = faults.chain(self.absence(*part, 0));
                faults.chain(self.leaving(*part, by)).collect()
            }
            PlateCall::Undo => {
                let nothing = self.reach == 0;
                nothing
                    .then_some(Answer::refused(NOTHING_TO_UNDO, 0, 0))
                    .into_iter()
                    .collect()
            }
            PlateCall::Parts { p, q } => {
                let bad = part_fault(*p, 0).into_iter().chain(part_fault(*q, 1));
                bad.chain(self.absence(*p, 0)).chain(self.absence(*q, 1)).collect()
            }
        }
    }

    fn place_faults(&self, slot: u32, part: u32, corners: &Corners) -> Vec<Answer> {
        let bad = slot_fault(slot).into_iter().chain(part_fault(part, 0));
        let triangle = placed_triangle_faults(corners).shapes.into_iter();
        let triangle = triangle.map(|fault| Answer::refused(fault.number, 0, fault.place));
        let filled = slot < SLOTS as u32 && self.slots[slot as usize].is_some();
        let filled = filled.then(|| Answer::refused(SLOT_IS_FILLED, 0, u64::from(slot)));
        bad.chain(triangle).chain(filled).collect()
    }

    /// Where the part could be on the plate and isn't.
    fn absence(&self, part: u32, side: u64) -> Option<Answer> {
        let absent = part < PARTS && pieces_of(&self.slots, part).next().is_none();
        absent.then(|| Answer::refused(PART_IS_ABSENT, side, u64::from(part)))
    }

    /// Where the move would take a triangle of the part off the grid.
    fn leaving(&self, part: u32, by: &Move) -> Option<Answer> {
        let (slot, _) = pieces_of(&self.slots, part).find(|(_, piece)| leaves_grid(piece, by))?;
        Some(Answer::refused(SHIFT_OFF_GRID, 0, slot as u64))
    }
}

/// The faults, and after them those of the shells of two parts that were asked for.
fn with_shell_faults(faults: &[Answer], parts: &Option<PartsFindings>) -> Vec<Answer> {
    let of_shells = parts.iter().flat_map(PartsFindings::faults);
    faults.iter().copied().chain(of_shells).collect()
}

/// The change that a call with nothing wrong asks for.
fn change_asked(call: &PlateCall) -> Option<Change> {
    match *call {
        PlateCall::Place { slot, part, corners } => Some(Change::Place {
            slot: slot as usize,
            piece: Piece { part, corners },
        }),
        PlateCall::Lift { slot } => Some(Change::Lift { slot: slot as usize }),
        PlateCall::Shift { part, by } => Some(Change::Shift { part, by }),
        PlateCall::Undo | PlateCall::Parts { .. } => None,
    }
}

/// The slots that the changes, all of them accepted, give from the empty plate on.
fn played(changes: &[Change]) -> Slots {
    let mut slots: Slots = [None; SLOTS];
    for change in changes {
        match change {
            Change::Place { slot, piece } => slots[*slot] = Some(*piece),
            Change::Lift { slot } => slots[*slot] = None,
            Change::Shift { part, by } => {
                for piece in slots.iter_mut().flatten().filter(|piece| piece.part == *part) {
                    (0..TRIANGLE_NUMBERS).for_each(|k| piece.corners[k] += by[k % 3]);
                }
            }
        }
    }
    slots
}

/// The pieces of a part with their slots, the lowest first.
pub fn pieces_of(slots: &Slots, part: u32) -> impl Iterator<Item = (usize, &Piece)> {
    let filled = slots
        .iter()
        .enumerate()
        .filter_map(|(slot, piece)| Some((slot, piece.as_ref()?)));
    filled.filter(move |(_, piece)| piece.part == part)
}

pub fn leaves_grid(piece: &Piece, by: &Move) -> bool {
    let grid = i64::from(GRID);
    let moved = |k: usize| i64::from(piece.corners[k]) + i64::from(by[k % 3]);
    (0..TRIANGLE_NUMBERS).any(|k| moved(k) < -grid || moved(k) > grid)
}

fn slot_fault(slot: u32) -> Option<Answer> {
    (slot >= SLOTS as u32).then(|| Answer::refused(NO_SUCH_SLOT, 0, u64::from(slot)))
}

fn part_fault(part: u32, side: u64) -> Option<Answer> {
    (part >= PARTS).then(|| Answer::refused(NO_SUCH_PART, side, u64::from(part)))
}
