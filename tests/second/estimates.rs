//! Compares the calls on inputs aimed at the quick estimate of request Q-7: sides in all orders of the four points,
//! pairs and segments in all orders of their corners, listings; and tells of each how a library with a fault of that
//! kind would have fared.

use crate::answers::{Answer, Opinion, Outcome};
use crate::byte_pairs::BytePairs;
use crate::call::Call;
use crate::door::{Door, Room, ANSWER_NUMBERS};
use crate::geometry::by_signs::orders_of_four;
use crate::geometry::estimate::{exact_sign, Four};
use crate::geometry::Triangle;
use crate::inputs::aimed::listings::{AimedListing, JudgedPair, NarrowListing};
use crate::inputs::aimed::pairs::{AimedPair, AimedSegment};
use crate::inputs::aimed::points::aimed_points;
use crate::inputs::list_of;
use crate::random::Random;
use crate::tally::aimed::AimedTally;
use crate::tally::{self, Tally};
use crate::{ask, compare_batch, BATCH};

/// The random numbers of each kind of input are these streams of the seed, so that no other input depends on them.
const POINTS_STREAM: u64 = 109;
const PAIRS_STREAM: u64 = 110;
const SEGMENTS_STREAM: u64 = 111;
const LISTINGS_STREAM: u64 = 112;
const NARROW_STREAM: u64 = 113;

/// There is one of each kind for so many pairs of a run.
const PAIRS_TO_A_FOUR: u64 = 50;
const PAIRS_TO_A_PAIR: u64 = 40;
const PAIRS_TO_A_SEGMENT: u64 = 50;
const PAIRS_TO_A_LISTING: u64 = 4_000;
const PAIRS_TO_A_NARROW_LISTING: u64 = 100;

/// In so many orders each of them is asked.
const ORDERS_OF_FOUR: u64 = 24;
const ORDERS_OF_A_PAIR: u64 = 72;
const ORDERS_OF_A_SEGMENT: u64 = 12;

pub fn compare_many(door: &mut Door, seed: u64, pairs: u64) -> Result<AimedTally, String> {
    let mut tally = AimedTally::default();
    let aimed = |text: String| format!("aimed at the estimate: {text}");
    compare_points(door, seed, pairs.div_ceil(PAIRS_TO_A_FOUR), &mut tally).map_err(aimed)?;
    compare_pairs(door, seed, pairs.div_ceil(PAIRS_TO_A_PAIR), &mut tally).map_err(aimed)?;
    compare_segments(door, seed, pairs.div_ceil(PAIRS_TO_A_SEGMENT), &mut tally).map_err(aimed)?;
    compare_listings(door, seed, pairs.div_ceil(PAIRS_TO_A_LISTING), &mut tally).map_err(aimed)?;
    compare_narrow(door, seed, pairs.div_ceil(PAIRS_TO_A_NARROW_LISTING), &mut tally).map_err(aimed)?;
    Ok(tally)
}

/// How many inputs go to the door at once, time after time.
fn sizes(count: u64, orders: u64) -> impl Iterator<Item = u64> {
    let most = BATCH / orders;
    (0..count)
        .step_by(most as usize)
        .map(move |before| most.min(count - before))
}

fn compare_points(door: &mut Door, seed: u64, count: u64, tally: &mut AimedTally) -> Result<(), String> {
    let (mut random, mut sides) = (Random::new(seed, POINTS_STREAM), Tally::new(tally::SIDE));
    for size in sizes(count, ORDERS_OF_FOUR) {
        let fours: Vec<Four> = (0..size).map(|_| aimed_points(&mut random)).collect();
        let orders = fours.iter().flat_map(|four| orders_of_four(*four));
        let inputs = orders.map(|order| with_room(Call::Side(list_of(&order)), &mut random));
        compare_batch(door, &mut sides, &inputs.collect::<Vec<_>>())?;
        fours.iter().for_each(|four| tally.points.note(*four));
    }
    Ok(())
}

fn with_room(call: Call, random: &mut Random) -> (Call, Room) {
    let room = Room::with_marks(random, ANSWER_NUMBERS, call.buffer_length());
    (call, room)
}

/// Compares calls with the outcomes that they must have.
fn compare_calls(door: &mut Door, calls: Vec<(Call, Outcome)>, random: &mut Random) -> Result<(), String> {
    let (calls, outcomes): (Vec<Call>, Vec<Outcome>) = calls.into_iter().unzip();
    let inputs: Vec<_> = calls.into_iter().map(|call| with_room(call, random)).collect();
    let replies = ask(door, inputs.iter().map(|(call, room)| call.question(room)));
    let replies = replies.map_err(|text| format!("FAILURE: {text}"))?;
    for (((call, room), outcome), reply) in inputs.iter().zip(&outcomes).zip(&replies) {
        let compared = call.compare_door(outcome, room, reply);
        compared.map_err(|text| format!("DISAGREEMENT on {text}"))?;
    }
    Ok(())
}

/// The own opinion; the error means that this program is at fault. What exact signs alone say must agree, where they
/// say anything.
fn judged(call: &Call, by_signs: Option<bool>) -> Result<(Opinion, bool), String> {
    let opinion = call.own_opinion();
    opinion.compare_own(call)?;
    let meeting = opinion.outcome.answer == Answer::served(1);
    match by_signs {
        Some(verdict) if verdict != meeting => Err(format!("the second program is wrong by signs\n{call}")),
        _ => Ok((opinion, meeting)),
    }
}

/// With the corners of both in all orders, and the triangles in either; and as bytes.
fn compare_pairs(door: &mut Door, seed: u64, count: u64, tally: &mut AimedTally) -> Result<(), String> {
    let (mut random, mut byte_pairs) = (Random::new(seed, PAIRS_STREAM), BytePairs::new(seed));
    for size in sizes(count, ORDERS_OF_A_PAIR) {
        let (mut calls, mut as_bytes) = (Vec::new(), Vec::new());
        for _ in 0..size {
            let pair = AimedPair::any(&mut random);
            let call = pair_call(&pair.first, &pair.second);
            let (opinion, meeting) = judged(&call, pair.verdict(&exact_sign))?;
            tally.pairs.note(&pair, meeting);
            for order in pair.in_all_orders() {
                tally.pairs.note_call(meeting, |side| order.verdict(side));
                calls.push((pair_call(&order.first, &order.second), opinion.outcome.clone()));
            }
            as_bytes.extend(call.as_bytes().map(|bytes| (bytes, opinion)));
        }
        compare_calls(door, calls, &mut random)?;
        byte_pairs.compare(door, as_bytes)?;
    }
    Ok(())
}

fn pair_call(first: &Triangle, second: &Triangle) -> Call {
    Call::Pair(list_of(first), list_of(second))
}

/// With the ends in both orders and the corners in all.
fn compare_segments(door: &mut Door, seed: u64, count: u64, tally: &mut AimedTally) -> Result<(), String> {
    let mut random = Random::new(seed, SEGMENTS_STREAM);
    for size in sizes(count, ORDERS_OF_A_SEGMENT) {
        let mut calls = Vec::new();
        for _ in 0..size {
            let aimed = AimedSegment::any(&mut random);
            let (opinion, meeting) = judged(&segment_call(&aimed), aimed.verdict(&exact_sign))?;
            tally.segments.note(aimed.hangs(), meeting);
            for order in aimed.in_all_orders() {
                tally.segments.note_call(meeting, |side| order.verdict(side));
                calls.push((segment_call(&order), opinion.outcome.clone()));
            }
        }
        compare_calls(door, calls, &mut random)?;
    }
    Ok(())
}

fn segment_call(aimed: &AimedSegment) -> Call {
    Call::Segment(list_of(&aimed.segment), list_of(&aimed.triangle))
}

fn compare_listings(door: &mut Door, seed: u64, count: u64, tally: &mut AimedTally) -> Result<(), String> {
    let (mut random, mut lists) = (Random::new(seed, LISTINGS_STREAM), Tally::new(tally::LIST));
    for _ in 0..count {
        let listing = AimedListing::long(&mut random);
        let pairs = compare_listing(door, &listing, &mut random, &mut lists)?;
        tally.listings.note(&pairs);
    }
    Ok(())
}

fn compare_narrow(door: &mut Door, seed: u64, count: u64, tally: &mut AimedTally) -> Result<(), String> {
    let (mut random, mut lists) = (Random::new(seed, NARROW_STREAM), Tally::new(tally::LIST));
    for _ in 0..count {
        let narrow = NarrowListing::any(&mut random);
        let pairs = compare_listing(door, &narrow.listing, &mut random, &mut lists)?;
        tally.narrow.note(&narrow, &pairs);
    }
    Ok(())
}

/// Gives all its pairs with the own verdicts.
fn compare_listing(
    door: &mut Door,
    listing: &AimedListing,
    random: &mut Random,
    lists: &mut Tally,
) -> Result<Vec<JudgedPair>, String> {
    let call = listing.call(random);
    let meeting = call.own_opinion().outcome.pairs;
    compare_batch(door, lists, &[with_room(call, random)])?;
    Ok(listing.judged(&meeting))
}
