//! Counts of aimed listings, and of those of narrow lists.

use super::{is_wrong, with_verdicts, Count, Wrong};
use crate::answers::TRIANGLE_NUMBERS;
use crate::geometry::estimate::sign_in_one_word;
use crate::inputs::aimed::listings::{JudgedPair, NarrowListing, Widest};

#[derive(Default)]
pub struct ListingsTally {
    pub listings: u64,
    /// The pairs of their triangles, by the verdict.
    pairs: [u64; 2],
    hanging: [u64; 2],
    wrong: Wrong,
}

impl ListingsTally {
    /// With the verdicts on its pairs.
    pub fn note(&mut self, pairs: &[JudgedPair]) {
        self.listings += 1;
        for pair in pairs {
            self.pairs[usize::from(pair.meeting)] += 1;
            self.hanging[usize::from(pair.meeting)] += u64::from(pair.hangs);
            self.wrong.note_verdict(pair.meeting, |side| pair.verdict(side));
        }
    }

    pub(super) fn counts(&self) -> Vec<Count> {
        let mut counts = Vec::new();
        counts.extend(with_verdicts("pairs", self.pairs));
        counts.extend(with_verdicts("hanging on one sign", self.hanging));
        counts.extend(self.wrong.counts());
        counts
    }
}

#[derive(Default)]
pub struct NarrowTally {
    pub listings: u64,
    pairs: [u64; 2],
    hanging: [u64; 2],
    /// Pairs that sums of one word would get wrong.
    wrong: u64,
    /// By how large the largest number is, and by the list that has it.
    widest: [[u64; 2]; WIDEST.len()],
    /// Listings that one word would get wrong, by the list and the place in a triangle of the number that is too large.
    wrong_places: [[u64; TRIANGLE_NUMBERS]; 2],
}

const WIDEST: [(Widest, &str); 3] = [
    (Widest::AtEnd, "all narrow and one number at the end"),
    (Widest::JustBeyond, "one number one beyond the end"),
    (Widest::FarBeyond, "one number far beyond"),
];

impl NarrowTally {
    /// With the verdicts on its pairs.
    pub fn note(&mut self, narrow: &NarrowListing, pairs: &[JudgedPair]) {
        self.listings += 1;
        let before = self.wrong;
        for pair in pairs {
            self.pairs[usize::from(pair.meeting)] += 1;
            self.hanging[usize::from(pair.meeting)] += u64::from(pair.hangs);
            self.wrong += u64::from(is_wrong(sign_in_one_word, pair.meeting, |side| pair.verdict(side)));
        }
        if let Some(kind) = WIDEST.iter().position(|(widest, _)| *widest == narrow.widest) {
            self.widest[kind][narrow.side] += 1;
        }
        self.wrong_places[narrow.side][narrow.place] += u64::from(self.wrong > before);
    }

    pub(super) fn counts(&self) -> Vec<Count> {
        let mut counts = Vec::new();
        counts.extend(with_verdicts("pairs", self.pairs));
        counts.extend(with_verdicts("hanging on one sign", self.hanging));
        for ((_, name), met) in WIDEST.iter().zip(self.widest) {
            counts.extend([0, 1].map(|side| (format!("{name} in list {side}"), met[side])));
        }
        counts.push(("wrong by sums of one word".to_string(), self.wrong));
        counts
    }

    pub(super) fn fine_counts(&self) -> Vec<Count> {
        let mut counts = Vec::new();
        for (side, places) in self.wrong_places.iter().enumerate() {
            for (place, count) in places.iter().enumerate() {
                let name = format!("wrong by one word with a number too large at place {place} in list {side}");
                counts.push((name, *count));
            }
        }
        counts
    }
}
