//! How many inputs were compared, and how their verdicts went.

use crate::answers::verdicts::Verdict;
use crate::geometry::axes::Overlap;
use std::fmt;

/// Of a listing each of its pairs has a verdict, and it is refused as a whole.
#[derive(Clone, Default)]
pub struct Counts {
    pub compared: u64,
    pub refused: u64,
    apart: u64,
    meeting: u64,
    touching: u64,
}

impl Counts {
    pub fn note(&mut self, verdict: Verdict) {
        let Ok(overlap) = verdict else {
            self.refused += 1;
            return;
        };
        self.apart += u64::from(overlap == Overlap::Apart);
        self.meeting += u64::from(overlap != Overlap::Apart);
        self.touching += u64::from(overlap == Overlap::BorderOnly);
    }

    pub fn add(&mut self, other: &Counts) {
        self.compared += other.compared;
        self.refused += other.refused;
        self.apart += other.apart;
        self.meeting += other.meeting;
        self.touching += other.touching;
    }

    pub fn lack_a_case(&self) -> bool {
        self.apart == 0 || self.meeting == 0
    }
}

impl fmt::Display for Counts {
    fn fmt(&self, f: &mut fmt::Formatter) -> fmt::Result {
        write!(
            f,
            "{} compared: apart {}, meeting {}, of these only touching {}, refused {}",
            self.compared, self.apart, self.meeting, self.touching, self.refused
        )
    }
}
