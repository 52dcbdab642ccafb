//! An example in Rust: a safe call around `zg_pair`, and a few pairs of triangles of space put to it. It says of each
//! whether they have a point in common, or why they are refused.

#[path = "../../include/zimogrud.rs"]
mod zimogrud;

use std::fmt;

enum Verdict {
    Meeting,
    Apart,
    /// The refusal number, the side and the place, as include/zimogrud.h tells them.
    Refused {
        number: u64,
        side: u64,
        place: u64,
    },
}

/// A triangle is nine numbers, x, y and z of one corner after the other. Any numbers may be given, and any number of
/// them: what can't be served is refused.
fn pair(first: &[i32], second: &[i32]) -> Verdict {
    let (a, a_len, b, b_len) = (first.as_ptr(), first.len(), second.as_ptr(), second.len());
    let mut answer = [0; 4];
    // SAFETY: each pointer leads to as many numbers as are named, and nothing else uses them meanwhile.
    let result = unsafe { zimogrud::zg_pair(a, a_len, b, b_len, answer.as_mut_ptr(), answer.len()) };
    assert_eq!(result, 0, "four numbers are room enough for an answer");
    match answer {
        [0, _, _, 0] => Verdict::Apart,
        [0, _, _, _] => Verdict::Meeting,
        [number, side, place, _] => Verdict::Refused { number, side, place },
    }
}

impl fmt::Display for Verdict {
    fn fmt(&self, out: &mut fmt::Formatter) -> fmt::Result {
        match self {
            Verdict::Meeting => write!(out, "meeting: they have a point in common"),
            Verdict::Apart => write!(out, "apart: they have no point in common"),
            Verdict::Refused { number, side, place } => {
                let triangle = if *side == 0 { "first" } else { "second" };
                write!(out, "refused ({number}): the {triangle} triangle, place {place}")
            }
        }
    }
}

fn main() {
    let first = [0, 0, 0, 4, 0, 0, 0, 4, 0];
    let seconds = [
        [1, 1, -1, 1, 1, 1, 5, 5, 1],
        [1, 1, 1, 2, 1, 1, 1, 2, 1],
        [0, 0, 0, 1, 1, 1, 2, 2, 2],
        [0, 0, 0, 1, 0, 1_073_741_825, 0, 1, 0],
    ];
    for second in &seconds {
        println!("{first:?} and {second:?}: {}", pair(&first, second));
    }
}
