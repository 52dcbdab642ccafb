//! Where one job is done: makes its inputs, answers them by own means, calls the library and compares.

use super::counts::Counts;
use super::ShapeCall;
use crate::answers::bytes::result_of;
use crate::answers::verdicts::answer_of;
use crate::answers::{Answer, Outcome, TRIANGLE_NUMBERS};
use crate::byte_pairs::BytePairs;
use crate::call::Call;
use crate::door::{Door, Function, PutStraight, Room, Straight, ANSWER_NUMBERS};
use crate::inputs::families::Family;
use crate::random::Random;

/// One input of so many is put to the door too, with marks around all that is lent, and answered by both own methods.
const CLOSE_ONCE_IN: u64 = 1_000;
/// The numbers of an answer that was not written.
const UNWRITTEN: u64 = 0x5555_5555_5555_5555;

/// The result of a call, and the answer that it wrote.
type Told = (u64, [u64; ANSWER_NUMBERS]);

pub struct Desk {
    put: PutStraight,
    door: Door,
    byte_pairs: BytePairs,
    pub(super) family: Family,
    pub(super) random: Random,
}

impl Desk {
    pub fn open(put: PutStraight, family: Family, seed: u64, stream: u64) -> Result<Desk, String> {
        Ok(Desk {
            put,
            door: Door::open()?,
            byte_pairs: BytePairs::new(seed),
            family,
            random: Random::new(seed, stream),
        })
    }

    pub fn compare_shapes(&mut self, call: &ShapeCall, count: u64) -> Result<Counts, String> {
        let (mut numbers, mut counts) = ([0; 2 * TRIANGLE_NUMBERS], Counts::default());
        let [first_end, end] = [call.cases.list_numbers[0], call.cases.list_numbers.iter().sum()];
        let (first, second) = numbers[..end].split_at_mut(first_end);
        while counts.compared < count {
            (call.fill)(self.family, &mut self.random, &mut [&mut *first, &mut *second]);
            let verdict = (call.own)(first, second);
            let answer = answer_of(verdict);
            let as_call = || (call.call)(first.to_vec(), second.to_vec());
            for (function, ours) in wanted(call.function, &answer) {
                let theirs = self.told(function, first, second, 0, &mut []);
                if theirs != ours {
                    return Err(disagreement(&as_call(), function, ours, theirs));
                }
            }
            if is_close(counts.compared) {
                self.look_closely(&as_call(), &answer.into())?;
            }
            counts.compared += 1;
            counts.note(verdict);
        }
        Ok(counts)
    }

    /// Calls the library straight.
    pub(super) fn told(
        &self,
        function: Function,
        first: &[i32],
        second: &[i32],
        start: u64,
        buffer: &mut [u32],
    ) -> Told {
        let mut answer = [UNWRITTEN; ANSWER_NUMBERS];
        let result = (self.put)(Straight {
            function,
            first,
            second,
            start,
            answer: &mut answer,
            buffer,
        });
        (result, answer)
    }

    /// Compares the own outcome with those of both methods, and these with the door's.
    pub(super) fn look_closely(&mut self, call: &Call, ours: &Outcome) -> Result<(), String> {
        let opinion = call.own_opinion();
        opinion.compare_own(call)?;
        if opinion.outcome != *ours {
            let outcome = &opinion.outcome;
            return Err(format!(
                "the own verdicts differ, so the second program is wrong\n{call}\n  {outcome:?}\n  {ours:?}"
            ));
        }
        let room = Room::with_any_answer(&mut self.random, call.buffer_length());
        let replies = crate::ask(&mut self.door, std::iter::once(call.question(&room)))?;
        let compared = call.compare_door(ours, &room, &replies[0]);
        compared.map_err(|text| format!("DISAGREEMENT on {text}"))?;
        let as_bytes = call.as_bytes().map(|pair| (pair, opinion));
        self.byte_pairs.compare(&mut self.door, as_bytes.into_iter().collect())
    }
}

/// Whether the input that so many stand before is to be looked at closely.
pub fn is_close(before: u64) -> bool {
    before % CLOSE_ONCE_IN == 0
}

/// What must be told with this answer, of a pair of triangles as bytes too, which write none.
fn wanted(function: Function, answer: &Answer) -> impl Iterator<Item = (Function, Told)> {
    let as_bytes = matches!(function, Function::Pair).then(|| {
        let result = result_of(answer);
        (Function::PairBytes, (result, [UNWRITTEN; ANSWER_NUMBERS]))
    });
    [Some((function, (0, answer.numbers()))), as_bytes]
        .into_iter()
        .flatten()
}

pub fn disagreement(call: &Call, function: Function, ours: Told, theirs: Told) -> String {
    let as_bytes = if matches!(function, Function::PairBytes) {
        "\n  asked as bytes"
    } else {
        ""
    };
    let shown = |(result, answer): Told| format!("result {result}, answer {answer:?}");
    format!(
        "DISAGREEMENT on {call}{as_bytes}\n  ours:   {}\n  theirs: {}",
        shown(ours),
        shown(theirs)
    )
}
