//! Counts of aimed points, in every order that they were asked in.

use super::{Count, Wrong};
use crate::geometry::by_signs::orders_of_four;
use crate::geometry::estimate::{estimate, estimated_normal, exact_sign, normal_of, sign_in_one_word, sign_of};
use crate::geometry::estimate::{Estimate, Four, Place, LIMIT};
use crate::geometry::{minus, Space};
use crate::inputs::aimed::NARROW_NORMAL;
use crate::tally::meetings::named;

/// Where the last bit of an estimate is worth so much, its products are larger than 2^84.
const COARSE: f64 = (1_u64 << 32) as f64;
/// A normal cancels where each number of it is so many times smaller than the largest product in it.
const CANCELLED: i128 = 1 << 10;

#[derive(Default)]
pub struct PointsTally {
    fours: u64,
    pub calls: u64,
    /// By the sign, from -1 on.
    signs: [u64; 3],
    /// Estimates on the limit and next to it, by the side of zero and the place.
    at_limit: [[u64; 3]; 2],
    /// The same of large products, by the place alone.
    coarse_at_limit: [u64; 3],
    wrong: Wrong,
    /// The largest estimate that has a wrong sign, in hundredths of the limit.
    largest_wrong: u64,
    /// Estimates of zero, where the determinant is not zero.
    zero_estimates: u64,
    /// Wrong signs of estimates where the normal cancels; and where it does so to zero.
    wrong_by_cancelling: u64,
    cancelled_to_zero: u64,
    /// Normals whose largest number is what one word allows, one less and one more.
    at_normal_end: [u64; 3],
    /// Where one word would be wrong and one number alone of the normal is too large for it, by which.
    lone_numbers: [u64; 3],
}

impl PointsTally {
    pub fn note(&mut self, four: Four) {
        self.fours += 1;
        for order in orders_of_four(four) {
            self.calls += 1;
            self.signs[(exact_sign(order) + 1) as usize] += 1;
            self.note_estimate(order, &estimate(order));
            self.note_normal(order);
        }
    }

    fn note_estimate(&mut self, four: Four, estimate: &Estimate) {
        if let Some((side, place)) = estimate.at_limit() {
            self.at_limit[usize::from(side > 0)][place as usize] += 1;
            self.coarse_at_limit[place as usize] += u64::from(estimate.grain >= COARSE);
        }
        let exact = exact_sign(four);
        self.wrong.note(|fault| fault(four) != exact);
        if sign_of(estimate.value) != exact {
            let hundredths = 100.0 * estimate.value.abs() / LIMIT;
            self.largest_wrong = self.largest_wrong.max(hundredths as u64);
            self.zero_estimates += u64::from(estimate.value == 0.0);
            self.wrong_by_cancelling += u64::from(is_cancelled(four));
        }
    }

    fn note_normal(&mut self, [a, b, c, d]: Four) {
        let (normal, end) = (normal_of([a, b, c]), i128::from(NARROW_NORMAL));
        let sizes = normal.map(i128::abs);
        if let off @ -1..=1 = sizes[0].max(sizes[1]).max(sizes[2]) - end {
            self.at_normal_end[(off + 1) as usize] += 1;
        }
        let too_large: Vec<usize> = (0..3).filter(|k| sizes[*k] > end).collect();
        let is_wrong = sign_in_one_word([a, b, c, d]) != exact_sign([a, b, c, d]);
        if let ([lone], true) = (&too_large[..], is_wrong) {
            self.lone_numbers[*lone] += 1;
        }
        let is_zero = estimated_normal([a, b, c]) == [0.0; 3];
        self.cancelled_to_zero += u64::from(is_zero && normal != [0; 3]);
    }

    pub(super) fn counts(&self) -> Vec<Count> {
        let [minus, zero, plus] = self.signs;
        let mut counts = named([("fours of points", self.fours), ("-1", minus), ("0", zero), ("1", plus)]);
        for (place, name) in PLACES {
            let [below, above] = self.at_limit.map(|places| places[place as usize]);
            counts.extend([
                (format!("estimates {name} the limit"), above),
                (format!("{name} minus the limit"), below),
                (
                    format!("of large products {name} either"),
                    self.coarse_at_limit[place as usize],
                ),
            ]);
        }
        counts.extend(self.wrong.counts());
        counts.extend(named([
            ("largest wrong estimate in hundredths of the limit", self.largest_wrong),
            ("estimates of 0 and the sign is not", self.zero_estimates),
            (
                "estimates with a wrong sign where the normal cancels",
                self.wrong_by_cancelling,
            ),
            ("normals that cancel to 0 and are not", self.cancelled_to_zero),
        ]));
        counts
    }

    pub(super) fn fine_counts(&self) -> Vec<Count> {
        let mut counts = Vec::new();
        for (off, name) in ["one less than", "at", "one more than"].iter().enumerate() {
            counts.push((format!("normals {name} what one word allows"), self.at_normal_end[off]));
        }
        for (k, name) in ["x", "y", "z"].iter().enumerate() {
            let name = format!("wrong by one word with a normal too large in {name} alone");
            counts.push((name, self.lone_numbers[k]));
        }
        counts
    }
}

const PLACES: [(Place, &str); 3] = [
    (Place::JustWithin, "just within"),
    (Place::OnLimit, "on"),
    (Place::JustBeyond, "just beyond"),
];

fn is_cancelled([a, b, c, _]: Four) -> bool {
    let size = |step: Space| step.map(i128::abs).into_iter().max().unwrap_or(0);
    let product = size(minus(b, a)) * size(minus(c, a));
    size(normal_of([a, b, c])) * CANCELLED < product
}
