//! Inputs aimed at request Q-7, the quick estimate before the exact sum: points whose estimate is on the limit or next
//! to it, or has the wrong sign; planes whose normals cancel, or end where one word of 64 bits has no more room; and
//! shapes whose verdict hangs on one such sign.

pub mod listings;
pub mod pairs;
pub mod points;
mod stands;

use crate::answers::GRID;

/// Where all numbers of both lists of a listing are at most this in size, sums of 64 bits have room.
pub const NARROW: i32 = 524_288;
/// The same where all numbers of a normal are at most this in size, whatever the fourth point.
pub const NARROW_NORMAL: i32 = 1_431_655_765;

/// All numbers of some points are at most one of these in size.
const HALVES: [i32; 8] = [GRID, GRID, GRID, GRID, GRID, GRID, NARROW, NARROW + 1];
