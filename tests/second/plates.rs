//! Compares the plate of the library with the own one: the stored stories, and many random ones.

use crate::answers::clashes::Clashes;
use crate::answers::plate::{PlateAnswer, Step};
use crate::bench::stories;
use crate::door::Door;
use crate::random::Random;
use crate::story::Story;
use crate::tally::plates::PlateTally;

/// The random numbers of the stories are these streams of the seed, so that no other input depends on them.
const STREAM: u64 = 100;
const STORED_STREAM: u64 = 101;

/// Compares the door, and this program as well, with the fixed answers.
pub fn compare_stored(door: &mut Door, seed: u64) -> Result<usize, String> {
    let mut random = Random::new(seed, STORED_STREAM);
    let stored = stories::stored();
    for stories::Stored { name, story, told } in &stored {
        let own = told_by(&story.own_steps(&mut Clashes::default())?);
        if own != *told {
            return Err(format!(
                "the second program is wrong on the story {name:?}: {own:?}\n{story}"
            ));
        }
        for spare in [0, 1, 6, 7] {
            let mut story = story.clone();
            story.answers_length += spare;
            let compared = story.compare_door(told, door, &mut random);
            let compared = compared.map_err(|text| format!("FAILURE on the story {name:?}: {text}"))?;
            compared.map_err(|text| format!("DISAGREEMENT on the story {name:?}: {story}{text}"))?;
        }
    }
    Ok(stored.len())
}

/// Compares random stories. The story of a given number depends on the seed alone.
pub fn compare_many(
    door: &mut Door,
    seed: u64,
    count: u64,
    any_story: fn(&mut Random) -> Story,
) -> Result<PlateTally, String> {
    let mut random = Random::new(seed, STREAM);
    let mut tally = PlateTally::default();
    for number in 1..=count {
        let story = any_story(&mut random);
        let steps = story.own_steps(&mut Clashes::default())?;
        let compared = story.compare_door(&told_by(&steps), door, &mut random);
        let compared = compared.map_err(|text| format!("FAILURE on story {number} of zg_plate: {text}"))?;
        if let Err(text) = compared {
            let (story, text) = shortened(door, story, text);
            return Err(format!(
                "DISAGREEMENT on story {number}, without the calls that don't matter, of {story}{text}"
            ));
        }
        tally.note(&story, &steps);
    }
    Ok(tally)
}

fn told_by(steps: &[Step]) -> Vec<PlateAnswer> {
    steps.iter().map(|step| step.told).collect()
}

/// Leaves out runs of calls, long ones and then shorter ones, wherever the disagreement stays.
fn shortened(door: &mut Door, mut story: Story, mut text: String) -> (Story, String) {
    let mut clashes = Clashes::default();
    for calls in [64, 16, 4, 2, 1] {
        let mut place = story.rooms()[0];
        while place > 0 {
            place -= 1;
            if place + calls > story.rooms()[0] {
                continue;
            }
            let shorter = story.without(place, calls);
            if let Some(found) = disagreement(door, &shorter, &mut clashes) {
                (story, text) = (shorter, found);
            }
        }
    }
    (story, text)
}

/// Nothing also where the door failed, or this program did.
fn disagreement(door: &mut Door, story: &Story, clashes: &mut Clashes) -> Option<String> {
    let steps = story.own_steps(clashes).ok()?;
    let compared = story.compare_door(&told_by(&steps), door, &mut Random::new(0, STREAM));
    compared.ok()?.err()
}
