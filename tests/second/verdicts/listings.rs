//! The listings of one job: every pair of two lists is judged, and the whole buffer is compared.

use super::counts::Counts;
use super::desk::{disagreement, is_close, Desk};
use crate::answers::listing::{JudgedLists, Listing};
use crate::answers::verdicts::space;
use crate::answers::{Answer, Outcome, TOO_LITTLE_ROOM, TRIANGLE_NUMBERS};
use crate::call::Call;
use crate::door::Function;
use crate::geometry::axes::Overlap;
use crate::random::Random;

/// The numbers of a buffer that was not written.
const UNWRITTEN: u32 = 0x5555_5555;
/// One listing of so many gets too little room, if it has a pair.
const SHORT_ONCE_IN: u64 = 8;

impl Desk {
    pub fn compare_listings(&mut self, count: u64) -> Result<Counts, String> {
        let (mut lists, mut counts) = (Lists::default(), Counts::default());
        while counts.compared < count {
            let sizes = any_sizes(&mut self.random);
            lists.first.resize(TRIANGLE_NUMBERS * sizes[0], 0);
            lists.second.resize(TRIANGLE_NUMBERS * sizes[1], 0);
            self.family
                .fill::<3>(&mut self.random, &mut [&mut lists.first, &mut lists.second]);
            lists.judge(&mut counts);
            let answer = lists.lend(&mut self.random);
            counts.refused += u64::from(answer.number != 0);
            self.compare_listing(&mut lists, &answer)?;
            if is_close(counts.compared) {
                self.look_closely(&lists.as_call(), &lists.outcome(answer))?;
            }
            counts.compared += 1;
        }
        Ok(counts)
    }

    fn compare_listing(&self, lists: &mut Lists, answer: &Answer) -> Result<(), String> {
        let (start, ours) = (lists.start as u64, (0, answer.numbers()));
        let theirs = self.told(Function::List, &lists.first, &lists.second, start, &mut lists.buffer);
        if theirs == ours && lists.buffer == lists.wanted {
            return Ok(());
        }
        let text = disagreement(&lists.as_call(), Function::List, ours, theirs);
        let (ours, theirs) = (&lists.wanted, &lists.buffer);
        Err(format!("{text}\n  our buffer:   {ours:?}\n  their buffer: {theirs:?}"))
    }
}

/// Two lists with their pairs, and the buffer; kept from one listing to the next, so that nothing is allocated anew.
#[derive(Default)]
struct Lists {
    first: Vec<i32>,
    second: Vec<i32>,
    pairs: Vec<[u32; 2]>,
    start: usize,
    buffer: Vec<u32>,
    /// The buffer as it must be after the call.
    wanted: Vec<u32>,
}

impl Lists {
    fn judge(&mut self, counts: &mut Counts) {
        self.pairs.clear();
        for (i, one) in (0..).zip(self.first.chunks(TRIANGLE_NUMBERS)) {
            for (j, other) in (0..).zip(self.second.chunks(TRIANGLE_NUMBERS)) {
                let verdict = space::<3>(one, other);
                counts.note(verdict);
                if verdict != Ok(Overlap::Apart) {
                    self.pairs.push([i, j]);
                }
            }
        }
    }

    /// Makes a buffer with just enough room, a little more or too little. Gives the answer that follows.
    fn lend(&mut self, random: &mut Random) -> Answer {
        let needed = 2 * self.pairs.len();
        let is_short = needed > 0 && random.once_in(SHORT_ONCE_IN);
        let room = if is_short {
            needed - 1 - random.index(needed.min(2))
        } else {
            needed + random.index(4)
        };
        self.start = random.index(4);
        self.buffer.clear();
        self.buffer.resize(self.start + room, UNWRITTEN);
        self.wanted.clone_from(&self.buffer);
        let count = self.pairs.len() as u64;
        if is_short {
            return Answer::refused(TOO_LITTLE_ROOM, 0, count);
        }
        self.wanted[self.start..][..needed].copy_from_slice(self.pairs.as_flattened());
        Answer::served(count)
    }

    fn outcome(&self, answer: Answer) -> Outcome {
        let mut outcome = Outcome::from(answer);
        if answer.number == 0 {
            outcome.pairs.clone_from(&self.pairs);
        }
        outcome
    }

    fn as_call(&self) -> Call {
        Call::List(Listing {
            lists: JudgedLists::new(self.first.clone(), self.second.clone()),
            buffer_length: self.buffer.len(),
            start: self.start as u64,
        })
    }
}

/// Mostly up to eight triangles in each list, now and then none or some dozens, and seldom hundreds.
fn any_sizes(random: &mut Random) -> [usize; 2] {
    let most = match random.below(5_000) {
        0 => 256,
        1..=9 => 64,
        _ => 8,
    };
    [(); 2].map(|()| if random.once_in(40) { 0 } else { 1 + random.index(most) })
}
