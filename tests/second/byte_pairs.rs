//! Compares the library's verdicts on triangles as bytes with the own ones: the stored pairs, every pair that is made
//! for zg_pair, and many more that are made of bytes.

use crate::answers::bytes::result_of;
use crate::answers::Opinion;
use crate::bench::byte_pairs;
use crate::byte_pair::{AskedBytePair, BytePair};
use crate::door::{Door, Reply};
use crate::inputs;
use crate::random::Random;
use crate::tally::byte_pairs::BytePairTally;
use crate::BATCH;

/// The random numbers of these pairs are these streams of the seed, so that no other input depends on them.
const STREAM: u64 = 105;
const STORED_STREAM: u64 = 106;
const MARKS_STREAM: u64 = 107;
/// Each stored pair is lent so many times, at any addresses.
const TIMES_LENT: usize = 16;

/// Compares the door, and this program as well, with the fixed results.
pub fn compare_stored(door: &mut Door, seed: u64) -> Result<usize, String> {
    let mut random = Random::new(seed, STORED_STREAM);
    let stored = byte_pairs::stored();
    for byte_pairs::Stored { name, pair, result } in &stored {
        let (pair, opinion) = judged(pair.clone())?;
        let own = result_of(&opinion.outcome.answer);
        if own != *result {
            return Err(format!(
                "the second program is wrong on {name:?}: {own}, not {result}\n{pair}"
            ));
        }
        let asked: Vec<_> = (0..TIMES_LENT).map(|_| pair.clone().asked(&mut random)).collect();
        let replies = ask(door, asked.iter()).map_err(|text| format!("FAILURE on {name:?}, as bytes: {text}"))?;
        for (asked, reply) in asked.iter().zip(&replies) {
            let compared = asked.compare_door(*result, reply);
            compared.map_err(|text| format!("DISAGREEMENT on {name:?}, as bytes: {text}"))?;
        }
    }
    Ok(stored.len())
}

/// The pairs that were compared so far, and where the marks around the next ones come from.
pub struct BytePairs {
    pub tally: BytePairTally,
    marks: Random,
}

impl BytePairs {
    pub fn new(seed: u64) -> BytePairs {
        BytePairs {
            tally: BytePairTally::default(),
            marks: Random::new(seed, MARKS_STREAM),
        }
    }

    /// Compares the pairs that follow those in the tally with the own opinions of them.
    pub fn compare(&mut self, door: &mut Door, pairs: Vec<(BytePair, Opinion)>) -> Result<(), String> {
        if pairs.is_empty() {
            return Ok(());
        }
        let (first, last) = (self.tally.compared + 1, self.tally.compared + pairs.len() as u64);
        let (pairs, opinions): (Vec<BytePair>, Vec<Opinion>) = pairs.into_iter().unzip();
        let asked: Vec<_> = pairs.into_iter().map(|pair| pair.asked(&mut self.marks)).collect();
        let replies = ask(door, asked.iter());
        let replies =
            replies.map_err(|text| format!("FAILURE on inputs {first} to {last} of zg_pair_bytes: {text}"))?;
        for (number, ((asked, opinion), reply)) in (first..).zip(asked.iter().zip(&opinions).zip(&replies)) {
            let compared = asked.compare_door(result_of(&opinion.outcome.answer), reply);
            compared.map_err(|text| format!("DISAGREEMENT on input {number} of {text}"))?;
            self.tally.note(asked, opinion);
        }
        Ok(())
    }

    /// Compares so many pairs that are made of bytes. Which they are depends on the seed alone.
    pub fn compare_many(&mut self, door: &mut Door, seed: u64, count: u64) -> Result<(), String> {
        let mut random = Random::new(seed, STREAM);
        let last = self.tally.compared + count;
        while self.tally.compared < last {
            let size = BATCH.min(last - self.tally.compared);
            let pairs = (0..size).map(|_| judged(inputs::any_byte_pair(&mut random)));
            self.compare(door, pairs.collect::<Result<_, _>>()?)?;
        }
        Ok(())
    }
}

/// With the own opinion; the error means that this program is at fault.
fn judged(pair: BytePair) -> Result<(BytePair, Opinion), String> {
    let opinion = pair.own_opinion();
    opinion.compare_own(&pair)?;
    Ok((pair, opinion))
}

fn ask<'a>(door: &mut Door, asked: impl Iterator<Item = &'a AskedBytePair>) -> Result<Vec<Reply>, String> {
    door.ask(&asked.map(AskedBytePair::question).collect::<Vec<_>>())
}
