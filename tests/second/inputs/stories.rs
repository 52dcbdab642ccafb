//! Random stories of a plate: phases of one kind of calls or another, so that plates get crowded, and long runs of
//! changes are followed by long runs of undos, or shells that are built, moved and asked for; now and then a call of an
//! unknown kind, and runs of uneven lengths.

use super::shell_stories::told_shell_story;
use super::teller::Teller;
use crate::answers::plate::{PlateCall, SLOTS};
use crate::door::PLATE_ANSWER_NUMBERS;
use crate::random::Random;
use crate::story::{Story, CALL_COORDINATES, CALL_NUMBERS};

#[derive(Clone, Copy)]
pub enum Phase {
    Fill,
    Changes,
    Undos,
    Swing,
    Far,
    Questions,
    Bad,
    Mixed,
}

pub fn any_story(random: &mut Random) -> Story {
    let mut story = told_story(random, false);
    if random.once_in(6) {
        put_unknown_kind(random, &mut story);
    }
    give_any_room(random, &mut story);
    story
}

pub fn tiny_story(random: &mut Random) -> Story {
    told_story(random, true)
}

fn told_story(random: &mut Random, tiny: bool) -> Story {
    if random.once_in(3) {
        return told_shell_story(random, tiny);
    }
    let calls = match random.below(5) {
        0 => random.index(13),
        _ => 150 + random.index(300),
    };
    let phases = any_phases(random);
    let mut teller = Teller::new(random, tiny);
    tell_phases(&mut teller, phases, calls, |teller, call| teller.tell(call));
    teller.story
}

/// Makes up so many calls, phase by phase. How each is told, and done, is up to the caller.
pub fn tell_phases(teller: &mut Teller, phases: &[Phase], calls: usize, mut tell: impl FnMut(&mut Teller, PlateCall)) {
    let (mut left, mut phase) = (calls, Phase::Fill);
    while left > 0 {
        let length = any_length(teller.random, phase).min(left);
        for _ in 0..length {
            let call = next_call(teller, phase);
            tell(teller, call);
        }
        left -= length;
        phase = teller.random.pick(phases);
    }
}

/// What a story is made of beside its beginning: of everything, of what tries the undo, or of what tries the count.
pub fn any_phases(random: &mut Random) -> &'static [Phase] {
    use Phase::*;
    let kinds: [&[Phase]; 3] = [
        &[Fill, Changes, Undos, Swing, Far, Questions, Bad, Mixed],
        &[Changes, Undos, Undos, Mixed, Bad],
        &[Fill, Fill, Swing, Questions, Far, Mixed, Bad, Bad],
    ];
    random.pick(&kinds)
}

fn any_length(random: &mut Random, phase: Phase) -> usize {
    match phase {
        Phase::Fill => random.pick(&[10, SLOTS, SLOTS]),
        Phase::Changes => random.pick(&[3, 20, 33, 40, 70]),
        Phase::Undos => random.pick(&[1, 2, 5, 20, 31, 32, 33, 40]),
        Phase::Swing => 2 * (1 + random.index(4)),
        Phase::Bad | Phase::Mixed => 10 + random.index(40),
        Phase::Far => 5 + random.index(20),
        Phase::Questions => 1 + random.index(12),
    }
}

fn next_call(teller: &mut Teller, phase: Phase) -> PlateCall {
    match phase {
        Phase::Fill => teller.fill(),
        Phase::Changes => teller.change(),
        Phase::Undos => PlateCall::Undo,
        Phase::Swing => teller.swing(),
        Phase::Far if teller.random.once_in(6) => PlateCall::Undo,
        Phase::Far => teller.far_shift(),
        Phase::Questions => teller.question(),
        Phase::Bad => teller.bad_call(),
        Phase::Mixed => match teller.random.below(8) {
            0..=1 => teller.change(),
            2 => teller.lift(),
            3 => teller.question(),
            4..=5 => PlateCall::Undo,
            _ => teller.bad_call(),
        },
    }
}

/// The calls before it are to be done, and none after it.
fn put_unknown_kind(random: &mut Random, story: &mut Story) {
    let calls = story.calls.len() / CALL_NUMBERS;
    if calls > 0 {
        let place = match random.below(5) {
            0 => 0,
            1 => random.index(calls),
            _ => calls - 1 - random.index(calls.min(20)),
        };
        let kind = random.pick(&[0, 6, 7, u32::MAX]);
        let cut = random.pick(&[1 << 8, 1 << 16, 1 << 31]) + 1 + random.below(5) as u32;
        story.calls[CALL_NUMBERS * place] = random.pick(&[kind, kind, cut]);
    }
}

/// Mostly room for all calls, and some numbers to spare; else one of the three runs is short, or all end with part of a
/// call or with calls that the others have no room for.
fn give_any_room(random: &mut Random, story: &mut Story) {
    story.answers_length += match random.below(3) {
        0 => 0,
        1 => random.index(PLATE_ANSWER_NUMBERS),
        _ => random.index(40),
    };
    match random.below(10) {
        0 => {
            let length = cut_length(random, story.calls.len());
            story.calls.truncate(length);
        }
        1 => {
            let length = cut_length(random, story.coordinates.len());
            story.coordinates.truncate(length);
        }
        2 => story.answers_length = cut_length(random, story.answers_length),
        3..=4 => {
            let more_numbers = random.index(3 * CALL_NUMBERS);
            let more_coordinates = random.index(3 * CALL_COORDINATES);
            // The kinds of calls that are known, so that only the room can stop them.
            let kinds = (0..more_numbers).map(|_| 1 + random.below(5) as u32);
            story.calls.extend(kinds);
            let coordinates = (0..more_coordinates).map(|_| random.next() as i32);
            story.coordinates.extend(coordinates);
        }
        _ => {}
    }
}

/// Shorter by a few numbers, by many, or nearly nothing.
fn cut_length(random: &mut Random, length: usize) -> usize {
    match random.below(6) {
        0 => random.index(4).min(length),
        1 => random.index(length + 1),
        _ => length.saturating_sub(1 + random.index(3 * CALL_COORDINATES)),
    }
}
