//! The two scales on which an input is timed: as it is drawn, where 64-bit code can be timed beside it, and
//! with every number so many times as large, up to the ends of the grid. Most inputs are drawn within NARROW,
//! and those are SCALE times as large then; a tiny grid has a factor of its own.
//!
//! Whether triangles have a point in common, whether a point is inside a shell and whether a move stays on
//! the grid that grows with it does not change by that, and neither may an answer.

use crate::ordinary::{GRID, NARROW};

/// So many times as large as within NARROW an input may be.
pub const SCALE: i32 = GRID / NARROW;

/// What is timed as one.
pub struct Input<Content> {
    pub name: String,
    pub content: Content,
    /// Whether it is the input before it, with every number so many times as large.
    pub is_scaled: bool,
}

/// An input that is drawn within NARROW, on both scales; `at_scale` makes its content of the factor.
pub fn on_both_scales<Content>(name: &str, at_scale: impl Fn(i32) -> Content) -> Vec<Input<Content>> {
    let drawn = format!("{name}, within 2^{}", NARROW.ilog2());
    let scaled = format!("{name}, scaled to 2^{}", GRID.ilog2());
    drawn_and_scaled([drawn, scaled], SCALE, at_scale)
}

/// An input on both scales of which the larger is so many times the other, a power of two.
pub fn as_it_is_and_times<Content>(name: &str, scale: i32, at_scale: impl Fn(i32) -> Content) -> Vec<Input<Content>> {
    let scaled = format!("{name}, times 2^{}", scale.ilog2());
    drawn_and_scaled([name.into(), scaled], scale, at_scale)
}

fn drawn_and_scaled<Content>(
    [drawn, scaled]: [String; 2],
    scale: i32,
    at_scale: impl Fn(i32) -> Content,
) -> Vec<Input<Content>> {
    let input = |name, scale, is_scaled| Input {
        name,
        content: at_scale(scale),
        is_scaled,
    };
    vec![input(drawn, 1, false), input(scaled, scale, true)]
}

/// An input that is timed as it is: what has no coordinates can't be scaled, and what moves about on a tiny grid
/// would move off the grid if it were.
pub fn as_it_is<Content>(name: &str, content: Content) -> Vec<Input<Content>> {
    vec![Input {
        name: name.into(),
        content,
        is_scaled: false,
    }]
}

/// The product; a number that lies so far off the grid that 32 bits don't hold its product stays off the grid.
pub fn scaled_number(number: i32, scale: i32) -> i32 {
    number.saturating_mul(scale)
}

pub fn scaled(numbers: &[i32], scale: i32) -> Vec<i32> {
    numbers.iter().map(|&number| scaled_number(number, scale)).collect()
}

/// An error where what is told of a scaled input is not what is told of the one that it was made of.
pub fn compare_scaled<Content, Told: PartialEq>(inputs: &[Input<Content>], told: &[Told]) -> Result<(), String> {
    let changed = (1..inputs.len()).find(|&k| inputs[k].is_scaled && told[k] != told[k - 1]);
    match changed {
        Some(k) => Err(format!(
            "the answers change with the scale:\n  {}\n  {}",
            inputs[k - 1].name,
            inputs[k].name
        )),
        None => Ok(()),
    }
}
