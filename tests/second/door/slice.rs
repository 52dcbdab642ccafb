//! A slice of bytes to lend, within a packed list, between two margins of its own: so it can start at any address. The
//! margins are filled with marks, which show afterwards what was written there.

use super::packed_list;
use crate::random::Random;

/// The margin before a slice has up to so many bytes, as many as any alignment asks for. None is allowed too, so that a
/// relay can lend a slice at the very front of its memory.
const MOST_BEFORE: usize = 7;
/// The one behind it has at least so many, and as many more as fill the last number.
const LEAST_BEHIND: usize = 4;

pub struct LentSlice {
    pub list: Vec<i32>,
    /// How many bytes stand before the slice, and how many behind it.
    pub margins: [u8; 2],
}

impl LentSlice {
    pub fn with_marks(random: &mut Random, slice: &[u8]) -> LentSlice {
        let before = random.index(MOST_BEFORE + 1);
        let end = before + slice.len();
        let behind = (end + LEAST_BEHIND).next_multiple_of(4) - end;
        let marks = [0; 2].map(|_| random.next().to_le_bytes());
        LentSlice {
            list: packed_list(&[&marks[0][..before], slice, &marks[1][..behind]].concat()),
            margins: [before, behind].map(|bytes| bytes as u8),
        }
    }

    /// Of its list, which starts at an even address.
    pub fn is_at_odd_place(&self) -> bool {
        self.margins[0] % 2 == 1
    }
}

/// The margins of two slices as the start of a question has them, a byte to each.
pub fn start_of([first, second]: &[LentSlice; 2]) -> u64 {
    let [[a, b], [c, d]] = [first.margins, second.margins];
    u64::from_le_bytes([a, b, c, d, 0, 0, 0, 0])
}
