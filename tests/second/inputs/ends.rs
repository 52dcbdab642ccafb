//! Calls of points, segments and triangles with every number an end of the grid, in all patterns of signs; and the
//! listing of all such triangles.

use crate::answers::listing::{JudgedLists, Listing};
use crate::answers::{FLAT_TRIANGLE_NUMBERS, GRID, SEGMENT_NUMBERS, SIDE_NUMBERS, TRIANGLE_NUMBERS, TURN_NUMBERS};
use crate::call::Call;
use crate::tally::{self, Cases};

/// All lists of so many numbers.
fn lists(numbers: usize) -> impl Iterator<Item = Vec<i32>> {
    let end = |is_upper: bool| if is_upper { GRID } else { -GRID };
    (0..1_u32 << numbers).map(move |signs| (0..numbers).map(|k| end(signs >> k & 1 == 1)).collect())
}

/// All calls of one kind.
pub struct CallsAtEnds {
    pub cases: Cases,
    pub calls: Box<dyn Iterator<Item = Call>>,
}

pub fn calls_at_ends() -> Vec<CallsAtEnds> {
    let of_two = |make: fn(Vec<i32>, Vec<i32>) -> Call, [first, second]: [usize; 2]| {
        lists(first + second).map(move |mut list| {
            let behind = list.split_off(first);
            make(list, behind)
        })
    };
    let all = |cases, calls| CallsAtEnds { cases, calls };
    let flat_pairs = of_two(Call::Flat, [FLAT_TRIANGLE_NUMBERS; 2]);
    let segments = of_two(Call::Segment, [SEGMENT_NUMBERS, TRIANGLE_NUMBERS]);
    let pairs = of_two(Call::Pair, [TRIANGLE_NUMBERS; 2]);
    vec![
        all(tally::TURN, Box::new(lists(TURN_NUMBERS).map(Call::Turn))),
        all(tally::SIDE, Box::new(lists(SIDE_NUMBERS).map(Call::Side))),
        all(tally::FLAT, Box::new(flat_pairs)),
        all(tally::SEGMENT, Box::new(segments)),
        all(tally::PAIR, Box::new(pairs)),
        all(tally::LIST, Box::new(std::iter::once_with(listing))),
    ]
}

/// All triangles against all, with just enough room.
fn listing() -> Call {
    let all: Vec<i32> = lists(TRIANGLE_NUMBERS).flatten().collect();
    let lists = JudgedLists::new(all.clone(), all);
    let buffer_length = 2 * lists.pair_count();
    Call::List(Listing {
        lists,
        buffer_length,
        start: 0,
    })
}
