//! Counts of the pairs in space of which one shape is flat, or both: what they were, how they lay, and what they
//! shared.

use super::meetings::VERDICTS;
use super::Count;
use crate::answers::SpaceFindings;
use crate::geometry::axes::Overlap;
use crate::geometry::thin::Kind;
use std::collections::BTreeMap;

const KINDS: [Kind; 3] = [Kind::Pin, Kind::Wire, Kind::Area];
const OVERLAPS: [Overlap; 3] = [Overlap::Apart, Overlap::BorderOnly, Overlap::InnerPoints];
/// What two shapes together lie on or in, by how many dimensions they have.
const SPANS: [&str; 4] = ["at one point", "on one line", "in one plane", "in no plane"];

/// The kinds of both shapes, the dimensions that they have together, and what they share.
type Way = ([Kind; 2], usize, Overlap);

pub struct ThinMeetings {
    /// What a first shape is that is not flat.
    first_kind: Kind,
    ways: BTreeMap<Way, u64>,
}

impl ThinMeetings {
    pub fn new(first_kind: Kind) -> ThinMeetings {
        ThinMeetings {
            first_kind,
            ways: BTreeMap::new(),
        }
    }

    pub fn note(&mut self, findings: &SpaceFindings) {
        let way = (findings.kinds, findings.span, findings.overlap);
        *self.ways.entry(way).or_default() += 1;
    }

    pub fn counts(&self) -> Vec<Count> {
        let mut counts = [0; 2];
        for ((_, _, overlap), met) in &self.ways {
            counts[usize::from(*overlap != Overlap::Apart)] += met;
        }
        let names = VERDICTS
            .iter()
            .map(|verdict| format!("with a flat shape and {verdict}"));
        names.zip(counts).collect()
    }

    /// Each way that there is.
    pub fn fine_counts(&self) -> Vec<Count> {
        let mut counts = Vec::new();
        for kinds in KINDS.iter().flat_map(|one| KINDS.map(|other| [*one, other])) {
            for (span, place) in SPANS.iter().enumerate() {
                for overlap in OVERLAPS
                    .into_iter()
                    .filter(|overlap| self.can_be(kinds, span, *overlap))
                {
                    let met = self.ways.get(&(kinds, span, overlap)).copied().unwrap_or(0);
                    counts.push((format!("{kinds:?} {place} with {overlap:?}"), met));
                }
            }
        }
        counts
    }

    /// Two shapes have at least as many dimensions together as either, and at most one more than both added, if they
    /// are apart; else at most as many as both added. Of two pins at one point, the point is inner to both.
    fn can_be(&self, kinds: [Kind; 2], span: usize, overlap: Overlap) -> bool {
        let [one, other] = kinds;
        let has_flat = one < self.first_kind || other < Kind::Area;
        let (least, sum) = (one.max(other) as usize, one as usize + other as usize);
        let most = sum + usize::from(overlap == Overlap::Apart);
        let is_one_point = span == 0;
        one <= self.first_kind
            && has_flat
            && (least..=most).contains(&span)
            && (!is_one_point || overlap == Overlap::InnerPoints)
    }
}
