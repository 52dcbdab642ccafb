//! Stories of parts that are closed shells: they are placed triangle by triangle in some order, moved a little, opened
//! and closed again, and asked for all along.

use super::shells::{any_scene, Body};
use super::solids::Facet;
use super::teller::Teller;
use crate::answers::plate::{pieces_of, Corners, Move, Piece, PlateCall, PARTS};
use crate::random::Random;
use crate::story::Story;

/// Part numbers, of which there are two or more, and what tells the story.
struct ShellTeller<'a> {
    parts: Vec<u32>,
    teller: Teller<'a>,
}

pub fn told_shell_story(random: &mut Random, tiny: bool) -> Story {
    let bodies = any_scene(random, tiny);
    let parts = any_parts(random, bodies.len());
    let pieces = any_order(random, &parts, &bodies);
    let pool = pieces.iter().map(|piece| piece.corners).collect();
    let rounds = 8 + random.index(32);
    let teller = Teller::with_pool(random, pool, tiny);
    let mut told = ShellTeller { parts, teller };
    told.place_all(pieces);
    told.ask_all();
    (0..rounds).for_each(|_| told.round());
    told.teller.story
}

/// So many part numbers, all different.
fn any_parts(random: &mut Random, count: usize) -> Vec<u32> {
    let mut parts = Vec::new();
    while parts.len() < count {
        let part = random.below(u64::from(PARTS)) as u32;
        if !parts.contains(&part) {
            parts.push(part);
        }
    }
    parts
}

/// All triangles with their parts, part by part or in any order.
fn any_order(random: &mut Random, parts: &[u32], bodies: &[Body]) -> Vec<Piece> {
    let of_part = |(part, body): (&u32, &Body)| -> Vec<Piece> {
        let piece = |facet: &Facet| Piece {
            part: *part,
            corners: corners_of(facet),
        };
        body.iter().map(piece).collect()
    };
    let mut pieces: Vec<Piece> = parts.iter().zip(bodies).flat_map(of_part).collect();
    if random.once_in(2) {
        for last in (1..pieces.len()).rev() {
            pieces.swap(last, random.index(last + 1));
        }
    }
    pieces
}

fn corners_of(facet: &Facet) -> Corners {
    std::array::from_fn(|k| facet[k / 3][k % 3])
}

impl ShellTeller<'_> {
    fn place_all(&mut self, pieces: Vec<Piece>) {
        for piece in pieces {
            self.place(piece);
            if self.teller.random.once_in(16) {
                self.ask();
            }
        }
    }

    /// Into any empty slot.
    fn place(&mut self, Piece { part, corners }: Piece) {
        if let Some(slot) = self.teller.any_slot(false) {
            self.teller.tell(PlateCall::Place { slot, part, corners });
        }
    }

    // ---- Questions ----

    fn any_part(&mut self) -> u32 {
        self.teller.random.pick(&self.parts)
    }

    /// Of any two parts both ways, and now and then of one against itself.
    fn ask(&mut self) {
        let [p, q] = [0; 2].map(|_| self.any_part());
        self.ask_both_ways(p, q);
    }

    fn ask_both_ways(&mut self, p: u32, q: u32) {
        self.teller.tell(PlateCall::Parts { p, q });
        if p != q {
            self.teller.tell(PlateCall::Parts { p: q, q: p });
        }
    }

    /// Of one part with each other one.
    fn ask_around(&mut self, part: u32) {
        for other in self.parts.clone() {
            if other != part || self.teller.random.once_in(6) {
                self.ask_both_ways(part, other);
            }
        }
    }

    fn ask_all(&mut self) {
        self.parts.clone().into_iter().for_each(|part| self.ask_around(part));
    }

    // ---- Changes ----

    fn round(&mut self) {
        match self.teller.random.below(16) {
            0..=10 => self.shift_and_ask(),
            11..=13 => self.open_and_close(),
            14 => {
                for _ in 0..1 + self.teller.random.index(4) {
                    self.teller.tell(PlateCall::Undo);
                    self.ask();
                }
            }
            _ => {
                let call = match self.teller.random.below(3) {
                    0 => self.teller.change(),
                    1 => self.teller.bad_call(),
                    _ => self.teller.question(),
                };
                self.teller.tell(call);
                self.ask();
            }
        }
    }

    /// Mostly the part goes back afterwards.
    fn shift_and_ask(&mut self) {
        let part = self.any_part();
        let by = self.any_move(part);
        self.teller.tell(PlateCall::Shift { part, by });
        self.ask_around(part);
        if self.teller.random.below(3) > 0 {
            self.teller.tell(PlateCall::Undo);
            self.ask();
        }
    }

    /// A small step, or along some axes the way from a corner of the part to one of another: a ray from that then runs
    /// through it.
    fn any_move(&mut self, part: u32) -> Move {
        let other = self.any_part();
        let corners = [part, other].map(|part| self.any_corner(part));
        let random = &mut *self.teller.random;
        if let ([Some(from), Some(to)], true) = (corners, random.once_in(2)) {
            let axes = random.pick(&[[1, 1, 1], [0, 1, 1], [0, 1, 1], [0, 1, 0], [0, 0, 1], [1, 0, 0]]);
            // From end to end of the grid it is a step too far for 32 bits.
            return std::array::from_fn(|k| axes[k] * to[k].saturating_sub(from[k]));
        }
        let longest = random.pick(&[1, 1, 2, 4]);
        [0; 3].map(|_| random.between(-longest, longest))
    }

    /// A corner of a triangle of the part.
    fn any_corner(&mut self, part: u32) -> Option<Move> {
        let (_, Piece { corners, .. }) = self.any_piece(part)?;
        let start = 3 * self.teller.random.index(3);
        Some(std::array::from_fn(|k| corners[start + k]))
    }

    /// A triangle of the part, with its slot.
    fn any_piece(&mut self, part: u32) -> Option<(u32, Piece)> {
        let pieces = pieces_of(self.teller.slots(), part);
        let pieces: Vec<(u32, Piece)> = pieces.map(|(slot, piece)| (slot as u32, *piece)).collect();
        (!pieces.is_empty()).then(|| self.teller.random.pick(&pieces))
    }

    /// A triangle of a part is lifted, and comes back by an undo, in any slot, turned round, or in another part; mostly
    /// all of it is undone in the end.
    fn open_and_close(&mut self) {
        let part = self.any_part();
        let Some((slot, mut piece)) = self.any_piece(part) else {
            return;
        };
        self.teller.tell(PlateCall::Lift { slot });
        self.ask_around(part);
        self.teller.tell(PlateCall::Parts { p: part, q: part });
        let mut changes = 1;
        match self.teller.random.below(6) {
            0..=1 => {}
            2 => {
                self.place(piece);
                self.ask_around(part);
                return;
            }
            3 => {
                (0..3).for_each(|k| piece.corners.swap(k, 3 + k));
                self.place(piece);
                changes += 1;
            }
            _ => {
                piece.part = self.any_part();
                self.place(piece);
                changes += 1;
            }
        }
        self.ask_around(part);
        if !self.teller.random.once_in(6) {
            (0..changes).for_each(|_| self.teller.tell(PlateCall::Undo));
            self.ask_around(part);
        }
    }
}
