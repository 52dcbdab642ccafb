//! How many signs were told on which path, and how near the estimates were to their sides.

use super::sides::{Side, BOUND, LARGEST_IN_DOUBT, LARGEST_LOW};

/// What tells a sign.
enum Path {
    /// The low word of the side, and no estimate is asked.
    LowWord,
    Estimate,
    /// The low word of the side, since the estimate is not sure.
    LowWordAfterEstimate,
}

/// The names of the paths, in their order.
const PATHS: [&str; 3] = ["low words", "estimate", "low words after it"];
/// A smaller part of the bound is not told.
const LEAST_PART: f64 = 0.0001;

#[derive(Default)]
pub struct Tally {
    /// How many signs each path told.
    told: [u64; PATHS.len()],
    estimates: u64,
    largest_error: i128,
}

impl Tally {
    /// Signs that low words tell, without an estimate.
    pub fn signs_by_low_words<const N: usize>(&mut self, sides: [Side; N]) -> Result<[i128; N], String> {
        for side in &sides {
            side.check_low(LARGEST_LOW)?;
            self.told[Path::LowWord as usize] += 1;
        }
        Ok(sides.map(|side| side.sign()))
    }

    /// Signs for which the estimate is asked first. Most often the library asks several estimates at once whether all
    /// are sure, and sign by sign where one is not; a sure one tells its sign either way, and is compared once.
    pub fn signs_by_estimate<const N: usize>(&mut self, sides: [Side; N]) -> Result<[i128; N], String> {
        for side in &sides {
            let path = self.path_by_estimate(side)?;
            self.told[path as usize] += 1;
        }
        Ok(sides.map(|side| side.sign()))
    }

    /// Makes the estimate of a side and compares it with the side. An error, too, where the side is larger than one
    /// can be whose estimate is not sure.
    fn path_by_estimate(&mut self, side: &Side) -> Result<Path, String> {
        self.largest_error = self.largest_error.max(side.checked_error()?);
        self.estimates += 1;
        if side.is_sure() {
            return Ok(Path::Estimate);
        }
        side.check_low(LARGEST_IN_DOUBT)?;
        Ok(Path::LowWordAfterEstimate)
    }

    pub fn add(&mut self, other: &Tally) {
        for (own, others) in self.told.iter_mut().zip(other.told) {
            *own += others;
        }
        self.estimates += other.estimates;
        self.largest_error = self.largest_error.max(other.largest_error);
    }

    pub fn told(&self) -> String {
        let signs: u64 = self.told.iter().sum();
        let paths = PATHS.iter().zip(self.told).map(|(path, count)| {
            let percent = 100.0 * count as f64 / signs.max(1) as f64;
            format!("{path} {count} ({percent:.2} %)")
        });
        let paths = paths.collect::<Vec<_>>().join(", ");
        format!("{signs} signs: {paths}; {}", self.told_error())
    }

    pub fn told_error(&self) -> String {
        let part = self.largest_error as f64 / BOUND as f64;
        let told_part = match part {
            0.0 => "none has an error".into(),
            LEAST_PART.. => format!("the largest error is {part:.4} of the bound"),
            _ => format!("the largest error is below {LEAST_PART} of the bound"),
        };
        match self.estimates {
            0 => "no estimates".into(),
            estimates => format!("{estimates} estimates, {told_part}"),
        }
    }
}
