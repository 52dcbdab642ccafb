//! Listings of triangles that hang on aimed signs, among others, with several words of 64 in the second list; and short
//! ones of which all numbers are narrow, or all but one.

use super::pairs::AimedPair;
use super::stands::{far_point, Stand};
use super::{HALVES, NARROW};
use crate::answers::listing::{JudgedLists, Listing};
use crate::answers::{GRID, TRIANGLE_NUMBERS};
use crate::call::Call;
use crate::geometry::by_signs::{triangles_meet, Sides, ORDERS_OF_THREE};
use crate::geometry::Triangle;
use crate::inputs::measured::list_of;
use crate::inputs::shuffled;
use crate::random::Random;

/// The most and the fewest triangles of a long listing's second list: two words at least, and three at times.
const LONG: [usize; 2] = [65, 150];

pub struct AimedListing {
    pub first: Vec<Triangle>,
    pub second: Vec<Triangle>,
    /// Which pairs hang on the sign that they were aimed at.
    pub hanging: Vec<[usize; 2]>,
}

impl AimedListing {
    /// Some triangles of the first list, each with many of the second; in any order.
    pub fn long(random: &mut Random) -> AimedListing {
        let half = random.pick(&HALVES);
        let (seconds, stands) = (LONG[0] + random.index(LONG[1] - LONG[0] + 1), 2 + random.index(5));
        let mut listing = AimedListing::empty();
        if half == GRID {
            let stand = Stand::known(random);
            listing.add_stand(random, &stand, seconds / stands);
        }
        while listing.second.len() < seconds {
            let stand = Stand::any(random, half);
            listing.add_stand(random, &stand, seconds / stands);
        }
        listing.add_others(random, half);
        listing.mixed(random)
    }

    /// A few triangles, with all numbers at most as large as a narrow list's.
    fn short(random: &mut Random) -> AimedListing {
        let mut listing = AimedListing::empty();
        for _ in 0..1 + random.index(3) {
            let (stand, seconds) = (Stand::any(random, NARROW), 1 + random.index(4));
            listing.add_stand(random, &stand, seconds);
        }
        listing.mixed(random)
    }

    fn empty() -> AimedListing {
        AimedListing {
            first: Vec::new(),
            second: Vec::new(),
            hanging: Vec::new(),
        }
    }

    /// So many triangles of the second list at most that have to do with one stand, mostly with one triangle of the
    /// first.
    fn add_stand(&mut self, random: &mut Random, stand: &Stand, seconds: usize) {
        for _ in 0..seconds {
            let Some(pair) = AimedPair::at(random, stand) else {
                continue;
            };
            let known = self.first.iter().position(|triangle| *triangle == pair.first);
            let one = known.unwrap_or(self.first.len());
            if known.is_none() {
                self.first.push(pair.first);
            }
            if pair.hangs {
                self.hanging.push([one, self.second.len()]);
            }
            self.second.push(pair.second);
        }
    }

    fn add_others(&mut self, random: &mut Random, half: i32) {
        for list in [&mut self.first, &mut self.second] {
            for _ in 0..random.index(4) {
                list.push([(); 3].map(|()| far_point(random, half)));
            }
        }
    }

    /// With the triangles of each list in any order, their corners too, and the lists in either order.
    fn mixed(mut self, random: &mut Random) -> AimedListing {
        let places = [self.first.len(), self.second.len()].map(|length| any_order(random, length));
        let [first, second] = [(&self.first, &places[0]), (&self.second, &places[1])]
            .map(|(list, places)| places.iter().map(|place| turned(random, list[*place])).collect());
        let now_at = |side: usize, was_at: usize| places[side].iter().position(|place| *place == was_at).unwrap_or(0);
        let hanging = self.hanging.iter().map(|[i, j]| [now_at(0, *i), now_at(1, *j)]);
        self = AimedListing {
            hanging: hanging.collect(),
            first,
            second,
        };
        if random.once_in(3) {
            std::mem::swap(&mut self.first, &mut self.second);
            self.hanging.iter_mut().for_each(|pair| pair.swap(0, 1));
        }
        self
    }

    /// With just enough room, or some more.
    pub fn call(&self, random: &mut Random) -> Call {
        let [first, second] = [&self.first, &self.second].map(|list| list_of(list.as_flattened()));
        let lists = JudgedLists::new(first, second);
        let [start, spare] = [(); 2].map(|()| random.index(4));
        Call::List(Listing {
            buffer_length: start + 2 * lists.pair_count() + spare,
            lists,
            start: start as u64,
        })
    }

    /// All pairs, given those that meet, in rising order.
    pub fn judged(&self, meeting: &[[u32; 2]]) -> Vec<JudgedPair> {
        let firsts = (0..).zip(&self.first);
        let places = firsts.flat_map(|one| (0..).zip(&self.second).map(move |other| (one, other)));
        let judged = |((i, first), (j, second)): ((u32, &Triangle), (u32, &Triangle))| JudgedPair {
            first: *first,
            second: *second,
            hangs: self.hanging.contains(&[i as usize, j as usize]),
            meeting: meeting.binary_search(&[i, j]).is_ok(),
        };
        places.map(judged).collect()
    }
}

/// So many triangles at least, of pairs that hang on aimed signs.
pub fn aimed_list(random: &mut Random, triangles: usize) -> Vec<i32> {
    let mut listing = AimedListing::empty();
    while listing.first.len() + listing.second.len() < triangles {
        let (half, seconds) = (random.pick(&HALVES), 4 + random.index(8));
        let stand = Stand::any(random, half);
        listing.add_stand(random, &stand, seconds);
    }
    list_of([listing.first, listing.second].concat().as_flattened())
}

/// A pair of a listing, with the verdict on it.
pub struct JudgedPair {
    first: Triangle,
    second: Triangle,
    pub hangs: bool,
    pub meeting: bool,
}

impl JudgedPair {
    /// By these signs.
    pub fn verdict(&self, side: Sides) -> Option<bool> {
        triangles_meet(&self.first, &self.second, side)
    }
}

/// Places from 0 on.
fn any_order(random: &mut Random, length: usize) -> Vec<usize> {
    let places = shuffled::<1>(random, (0..length as i32).collect(), length);
    places.into_iter().map(|place| place as usize).collect()
}

fn turned(random: &mut Random, triangle: Triangle) -> Triangle {
    random.pick(&ORDERS_OF_THREE).map(|place| triangle[place])
}

/// What the largest number of a listing of narrow lists is like.
#[derive(Clone, Copy, PartialEq, Eq, Debug)]
pub enum Widest {
    /// All are narrow, and one is as large as that allows.
    AtEnd,
    /// One is one more.
    JustBeyond,
    /// One is much more.
    FarBeyond,
}

pub struct NarrowListing {
    pub listing: AimedListing,
    pub widest: Widest,
    /// In which list that number is, and at which place of its triangle.
    pub side: usize,
    pub place: usize,
}

impl NarrowListing {
    pub fn any(random: &mut Random) -> NarrowListing {
        let mut listing = AimedListing::short(random);
        while listing.first.is_empty() || listing.second.is_empty() {
            listing = AimedListing::short(random);
        }
        let widest = random.pick(&[Widest::AtEnd, Widest::JustBeyond, Widest::FarBeyond, Widest::FarBeyond]);
        let (side, place) = (random.index(2), random.index(TRIANGLE_NUMBERS));
        let list = [&mut listing.first, &mut listing.second][side].as_mut_slice();
        let (any, far) = (random.index(list.len()), random.between(NARROW + 2, GRID));
        let triangle = random.pick(&[0, list.len() - 1, any]);
        let size = match widest {
            Widest::AtEnd => NARROW,
            Widest::JustBeyond => NARROW + 1,
            Widest::FarBeyond => random.pick(&[GRID, far]),
        };
        list[triangle][place / 3][place % 3] = i128::from(size) * random.pick(&[1, -1]);
        listing.hanging.retain(|pair| pair[side] != triangle);
        NarrowListing {
            listing,
            widest,
            side,
            place,
        }
    }
}
