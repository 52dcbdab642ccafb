//! Counts of how the shapes of the served pairs lay: what they shared, and what made it hard to see.

use super::listings::Listings;
use super::thin::ThinMeetings;
use super::{finer_cases, Count, Shapes};
use crate::answers::{Findings, Opinion, PlaneFindings, SpaceFindings};
use crate::geometry::axes::Overlap;
use crate::geometry::clipping::Reach;
use crate::geometry::edges::Contact;
use crate::geometry::thin::Kind;

pub enum Meetings {
    None,
    Plane(PlaneMeetings),
    Space(SpaceMeetings),
    Listings(Box<Listings>),
}

impl Meetings {
    pub fn of(shapes: Shapes) -> Meetings {
        match shapes {
            Shapes::Points => Meetings::None,
            Shapes::FlatTriangles => Meetings::Plane(PlaneMeetings::default()),
            Shapes::SegmentAndTriangle => Meetings::Space(SpaceMeetings::new(2, 1)),
            Shapes::Triangles => Meetings::Space(SpaceMeetings::new(3, 2)),
            Shapes::Runs => Meetings::Listings(Box::default()),
        }
    }

    pub fn note(&mut self, opinion: &Opinion) {
        match (self, &opinion.findings) {
            (Meetings::Plane(meetings), Some(Findings::Plane(findings))) => meetings.note(findings),
            (Meetings::Space(meetings), Some(Findings::Space(findings))) => meetings.note(findings),
            (Meetings::Listings(listings), Some(Findings::Listing(findings))) => listings.note(opinion, findings),
            _ => {}
        }
    }

    /// For the reader.
    pub fn counts(&self) -> Vec<Count> {
        match self {
            Meetings::None => Vec::new(),
            Meetings::Plane(meetings) => meetings.counts(),
            Meetings::Space(meetings) => meetings.counts(),
            Meetings::Listings(listings) => listings.counts(),
        }
    }

    /// Cases that must be met, but are too many for the reader.
    pub fn fine_counts(&self) -> Vec<Count> {
        match self {
            Meetings::Space(meetings) => meetings.fine_counts(),
            Meetings::Listings(listings) => listings.fine_counts(),
            _ => Vec::new(),
        }
    }

    /// The same of mixtures of faults.
    pub fn fine_mixtures(&self) -> Vec<Count> {
        match self {
            Meetings::Listings(listings) => listings.fine_mixtures(),
            _ => Vec::new(),
        }
    }
}

#[derive(Default)]
struct Overlaps {
    border_only: u64,
    inner_points: u64,
}

impl Overlaps {
    fn note(&mut self, overlap: Overlap) {
        match overlap {
            Overlap::BorderOnly => self.border_only += 1,
            Overlap::InnerPoints => self.inner_points += 1,
            Overlap::Apart => {}
        }
    }

    fn counts(&self) -> [(&'static str, u64); 2] {
        [
            ("with borders only", self.border_only),
            ("with inner points in common", self.inner_points),
        ]
    }
}

#[derive(Default)]
pub struct PlaneMeetings {
    edges_meet: u64,
    first_inside: u64,
    second_inside: u64,
    overlaps: Overlaps,
}

impl PlaneMeetings {
    fn note(&mut self, findings: &PlaneFindings) {
        match findings.contact {
            Contact::EdgesMeet => self.edges_meet += 1,
            Contact::FirstInsideSecond => self.first_inside += 1,
            Contact::SecondInsideFirst => self.second_inside += 1,
            Contact::Nothing => {}
        }
        self.overlaps.note(findings.overlap);
    }

    fn counts(&self) -> Vec<Count> {
        let contacts = [
            ("by edges", self.edges_meet),
            ("by first inside second", self.first_inside),
            ("by second inside first", self.second_inside),
        ];
        named(contacts.into_iter().chain(self.overlaps.counts()))
    }
}

pub struct SpaceMeetings {
    /// The corners of each shape, and the number of shapes, that have a side of the other's plane.
    corners: usize,
    shapes: usize,
    /// By the pattern number of the sides of all these corners; pairs apart and pairs meeting.
    sides: Vec<[u64; 2]>,
    /// Pairs in one plane, by the axes along which that isn't seen as a line only; apart and meeting.
    planes: [[u64; 2]; 8],
    /// By whether the first's edges reach the second, and the second's the first.
    reaches: [[u64; 2]; 2],
    along_a_stretch: u64,
    overlaps: Overlaps,
    /// All that has a flat shape is counted here only.
    thin: ThinMeetings,
}

pub const VERDICTS: [&str; 2] = ["apart", "meeting"];

impl SpaceMeetings {
    fn new(corners: usize, shapes: usize) -> SpaceMeetings {
        let patterns = 3_usize.pow((corners * shapes) as u32);
        SpaceMeetings {
            corners,
            shapes,
            sides: vec![[0; 2]; patterns],
            planes: Default::default(),
            reaches: Default::default(),
            along_a_stretch: 0,
            overlaps: Overlaps::default(),
            thin: ThinMeetings::new(if corners == 2 { Kind::Wire } else { Kind::Area }),
        }
    }

    fn note(&mut self, findings: &SpaceFindings) {
        if findings.has_flat {
            self.thin.note(findings);
            return;
        }
        let [first, second] = findings.reaches.map(|reach| reach != Reach::Nothing);
        let verdict = usize::from(first || second);
        self.sides[pattern_number(&findings.sides)][verdict] += 1;
        if findings.sides.iter().all(|side| *side == 0) {
            self.planes[plane_number(findings.seen_along)][verdict] += 1;
        }
        self.reaches[usize::from(first)][usize::from(second)] += 1;
        self.along_a_stretch += u64::from(findings.reaches.contains(&Reach::Stretch));
        self.overlaps.note(findings.overlap);
    }

    fn counts(&self) -> Vec<Count> {
        let mut counts = self.plane_counts();
        counts.push(("along a stretch of an edge".to_string(), self.along_a_stretch));
        if self.shapes == 2 {
            let [[_, second_only], [first_only, both]] = self.reaches;
            counts.extend(named([
                ("by the first's edges only", first_only),
                ("by the second's edges only", second_only),
                ("by edges of both", both),
            ]));
        }
        counts.extend(named(self.overlaps.counts()));
        counts.extend(self.thin.counts());
        let finer = self.fine_counts();
        counts.push(finer_cases(&finer));
        counts
    }

    fn plane_counts(&self) -> Vec<Count> {
        let mut counts = Vec::new();
        let with_zero = |number: &usize| self.pattern(*number).contains(&0);
        for (verdict, name) in VERDICTS.iter().enumerate() {
            let in_plane: u64 = self.planes.iter().map(|plane| plane[verdict]).sum();
            let numbers = (0..self.sides.len()).filter(with_zero);
            let touching: u64 = numbers.map(|number| self.sides[number][verdict]).sum();
            counts.push((format!("in one plane and {name}"), in_plane));
            counts.push((
                format!("else a corner on the other's plane and {name}"),
                touching - in_plane,
            ));
        }
        counts
    }

    /// Each way for the corners to lie about the other's plane, each kind of plane for pairs in one, and each way for a
    /// flat shape to lie.
    fn fine_counts(&self) -> Vec<Count> {
        let mut counts = self.thin.fine_counts();
        for (verdict, name) in VERDICTS.iter().enumerate() {
            for (number, met) in self.sides.iter().enumerate() {
                let sides = self.pattern(number);
                if self.can_be(&sides, verdict == 1) {
                    counts.push((format!("{name} with the corners on the sides {sides:?}"), met[verdict]));
                }
            }
            for (number, met) in self.planes.iter().enumerate().skip(1) {
                let seen_along = [0, 1, 2].map(|axis| number >> axis & 1 == 1);
                counts.push((
                    format!("{name} in one plane that is seen along {seen_along:?}"),
                    met[verdict],
                ));
            }
        }
        counts
    }

    fn pattern(&self, number: usize) -> Vec<i8> {
        let digit = |place: usize| (number / 3_usize.pow(place as u32) % 3) as i8;
        (0..self.corners * self.shapes).map(|place| digit(place) - 1).collect()
    }

    /// Either shape is in the other's plane, or neither; and a shape on one side of the other's plane is apart from it.
    /// All else can be: where the planes cross, each triangle lies about the common line as it likes.
    fn can_be(&self, sides: &[i8], meeting: bool) -> bool {
        let in_plane = sides[..self.corners].iter().all(|side| *side == 0);
        sides.chunks(self.corners).all(|shape| {
            let one_sided = shape[0] != 0 && shape.iter().all(|side| *side == shape[0]);
            shape.iter().all(|side| *side == 0) == in_plane && !(meeting && one_sided)
        })
    }
}

pub fn named(counts: impl IntoIterator<Item = (&'static str, u64)>) -> Vec<Count> {
    counts
        .into_iter()
        .map(|(name, count)| (name.to_string(), count))
        .collect()
}

/// Signs read as the digits of a number in base three, the first the lowest.
fn pattern_number(signs: &[i8]) -> usize {
    signs
        .iter()
        .rev()
        .fold(0, |number, sign| 3 * number + (sign + 1) as usize)
}

fn plane_number(seen_along: [bool; 3]) -> usize {
    let [x, y, z] = seen_along.map(usize::from);
    x + 2 * y + 4 * z
}
