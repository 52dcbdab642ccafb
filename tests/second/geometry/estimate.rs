//! The quick estimate of a side's determinant, in double precision, word by word as request Q-7 of document 02 has it.
//! And signs as a library with a fault would find them: by the estimate alone, or by sums of one word of 64 bits.
//!
//! No answer of this program comes from here. It tells which inputs are hard.

use super::signs::side_by_formula;
use super::{minus, product, Space, Triangle};

/// Farther from zero than this, 15 times 2^40, the estimate's sign is used.
pub const LIMIT: f64 = 16_492_674_416_640.0;
pub const WHOLE_LIMIT: i128 = 15 << 40;

/// The three points of a plane, and the one whose side is asked for.
pub type Four = [Space; 4];

pub struct Estimate {
    pub value: f64,
    /// So far lies the next estimate whose last two summands are about as large.
    pub grain: f64,
}

/// How an estimate lies to the limit, on either side of zero.
#[derive(Clone, Copy)]
pub enum Place {
    JustWithin,
    OnLimit,
    JustBeyond,
}

/// Steps are exact, and Rust rounds after each product and each sum.
pub fn estimate([a, b, c, d]: Four) -> Estimate {
    let (normal, step) = (estimated_normal([a, b, c]), rounded(minus(a, d)));
    let [x, y, last] = [0, 1, 2].map(|k| normal[k] * step[k]);
    let front = x + y;
    let value = front + last;
    let grains = [front, last].map(grain_of).into_iter().flatten();
    let finer = grains.reduce(f64::min).unwrap_or(1.0);
    Estimate {
        value,
        grain: grain_of(value).unwrap_or(1.0).max(finer),
    }
}

pub fn estimated_normal([a, b, c]: Triangle) -> [f64; 3] {
    let [v, w] = [b, c].map(|to| rounded(minus(to, a)));
    [
        v[1] * w[2] - v[2] * w[1],
        v[2] * w[0] - v[0] * w[2],
        v[0] * w[1] - v[1] * w[0],
    ]
}

/// Numbers of up to 2^53 in size stay as they are.
fn rounded(step: Space) -> [f64; 3] {
    step.map(|number| number as i64 as f64)
}

/// What the last bit of a whole number is worth, at least 1; nothing of zero.
fn grain_of(number: f64) -> Option<f64> {
    let power_of_two = f64::from_bits(number.abs().to_bits() >> 52 << 52);
    (number != 0.0).then_some((power_of_two * f64::EPSILON).max(1.0))
}

impl Estimate {
    /// On which side of zero and where, if on the limit or next to it.
    pub fn at_limit(&self) -> Option<(i8, Place)> {
        let beyond = self.value.abs() - LIMIT;
        let place = match beyond {
            0.0 => Place::OnLimit,
            _ if beyond.abs() > self.grain => return None,
            _ if beyond > 0.0 => Place::JustBeyond,
            _ => Place::JustWithin,
        };
        Some((sign_of(self.value), place))
    }
}

pub fn sign_of(value: f64) -> i8 {
    i8::from(value > 0.0) - i8::from(value < 0.0)
}

pub fn exact_sign([a, b, c, d]: Four) -> i8 {
    side_by_formula(a, b, c, d).signum() as i8
}

/// With the exact sum left out.
pub fn sign_by_estimate_alone(four: Four) -> i8 {
    sign_of(estimate(four).value)
}

/// With another limit than the right one.
pub fn sign_with_limit(four: Four, limit: f64) -> i8 {
    let value = estimate(four).value;
    if value.abs() > limit {
        sign_of(value)
    } else {
        exact_sign(four)
    }
}

/// With sums that wrap at 64 bits.
pub fn sign_in_one_word([a, b, c, d]: Four) -> i8 {
    let (normal, step) = (normal_of([a, b, c]), minus(a, d));
    let products = (0..3).map(|k| (normal[k] as i64).wrapping_mul(step[k] as i64));
    products.fold(0, i64::wrapping_add).signum() as i8
}

/// The exact one.
pub fn normal_of([a, b, c]: Triangle) -> Space {
    product(minus(b, a), minus(c, a))
}
