//! Listings: runs of triangles, some with many flat ones, with every mixture of faults or none; and buffers with just
//! enough room, just too little, and a start at the end or beyond.

use super::faulty::{flat_off_grid_shape, flat_shape, off_grid_number};
use super::scenes::{any_runs, tiny_runs};
use super::thin::thin_some;
use super::{box_list, Lists};
use crate::answers::listing::{JudgedLists, Listing, MOST_TRIANGLES};
use crate::answers::{GRID, TRIANGLE_NUMBERS};
use crate::call::Call;
use crate::random::Random;

const MOST_NUMBERS: usize = TRIANGLE_NUMBERS * MOST_TRIANGLES;
/// Of a hundred listings, so many are made to have bad lists.
const FAULTY: u64 = 33;
/// A list of many different triangles has so many, or up to half as many more.
const MANY: usize = 200;

pub fn any_listing(random: &mut Random) -> Call {
    let sizes = any_sizes(random);
    let mut lists = any_runs(random, sizes);
    thin_now_and_then(random, &mut lists);
    make_some_long(random, &mut lists);
    if random.below(100) < FAULTY {
        // A fault of the first list hides those of the second, so it is spared now and then.
        if !random.once_in(3) {
            spoil(random, &mut lists.0);
        }
        spoil(random, &mut lists.1);
    }
    with_any_room(random, lists)
}

pub fn tiny_listing(random: &mut Random) -> Call {
    let sizes = any_sizes(random);
    let mut lists = tiny_runs(random, sizes);
    thin_now_and_then(random, &mut lists);
    make_some_long(random, &mut lists);
    with_any_room(random, lists)
}

/// In one listing of three flat triangles are common, in each list as often as it comes.
fn thin_now_and_then(random: &mut Random, lists: &mut Lists) {
    if random.once_in(3) {
        for list in [&mut lists.0, &mut lists.1] {
            let one_in = random.pick(&[1, 2, 4, 10]);
            thin_some(random, list, one_in);
        }
    }
}

// ---- Sizes ----

/// Mostly a few triangles, and now and then up to forty. Both lists are empty oftener than by chance, and seldom both
/// have some hundred different triangles: what is worth its while for long lists alone may be done for them.
fn any_sizes(random: &mut Random) -> [usize; 2] {
    if random.once_in(50) {
        return [0, 0];
    }
    if random.once_in(500) {
        return [(); 2].map(|()| MANY + random.index(MANY / 2));
    }
    let any_size = |random: &mut Random| {
        let most = random.pick(&[2, 4, 4, 8, 8, 8, 16, 16, 40]);
        if random.once_in(20) {
            0
        } else {
            1 + random.index(most)
        }
    };
    [any_size(random), any_size(random)]
}

/// Now and then one list is long, and very seldom both are, with the triangles that they have time and again.
fn make_some_long(random: &mut Random, (first, second): &mut Lists) {
    match random.below(4_000) {
        0..=39 => make_long(random, first, second),
        40..=79 => make_long(random, second, first),
        80 => {
            repeat_to(first, MOST_NUMBERS);
            repeat_to(second, MOST_NUMBERS);
        }
        _ => {}
    }
}

/// The other list is kept short, for time.
fn make_long(random: &mut Random, list: &mut Vec<i32>, other: &mut Vec<i32>) {
    let any_size = 1 + random.index(MOST_TRIANGLES);
    let triangles = random.pick(&[MOST_TRIANGLES, MOST_TRIANGLES, MOST_TRIANGLES - 1, any_size]);
    repeat_to(list, TRIANGLE_NUMBERS * triangles);
    other.truncate(TRIANGLE_NUMBERS * 4);
}

/// An empty list stays empty.
fn repeat_to(list: &mut Vec<i32>, numbers: usize) {
    *list = list.iter().copied().cycle().take(numbers).collect();
}

// ---- Faults ----

/// Each kind of fault or none, so that two lists have every mixture of them; and flat triangles beside them, which must
/// neither be refused nor hide a fault.
fn spoil(random: &mut Random, list: &mut Vec<i32>) {
    if !list.is_empty() {
        if random.once_in(2) {
            let shape = flat_shape::<3>(random, 3);
            put_triangle(random, list, &shape);
        }
        if random.once_in(3) {
            (0..random.pick(&[1, 1, 2, 3])).for_each(|_| put_off_grid(random, list));
        }
        if random.once_in(5) {
            let shape = flat_off_grid_shape::<3>(random, 3);
            put_triangle(random, list, &shape);
        }
    }
    if random.once_in(3) {
        spoil_length(random, list);
    }
}

fn put_triangle(random: &mut Random, list: &mut [i32], triangle: &[i32]) {
    let start = TRIANGLE_NUMBERS * any_place(random, list.len() / TRIANGLE_NUMBERS, 4);
    list[start..start + TRIANGLE_NUMBERS].copy_from_slice(triangle);
}

fn put_off_grid(random: &mut Random, list: &mut [i32]) {
    let position = any_place(random, list.len(), 2 * TRIANGLE_NUMBERS);
    list[position] = off_grid_number(random);
}

/// One of so many places; often one of the first few, so that each of these comes up often enough, or the last.
fn any_place(random: &mut Random, places: usize, few: usize) -> usize {
    match random.below(8) {
        0 => places - 1,
        1..=4 => random.index(places.min(few)),
        _ => random.index(places),
    }
}

/// Part of a triangle missing or too much, or too many triangles, whole or not.
fn spoil_length(random: &mut Random, list: &mut Vec<i32>) {
    let part = 1 + random.index(TRIANGLE_NUMBERS - 1);
    match random.below(8) {
        0..=2 => list.truncate(list.len().saturating_sub(part)),
        3..=6 => list.extend(box_list(random, part, GRID)),
        _ => {
            let beyond = random.pick(&[1, 2, TRIANGLE_NUMBERS, TRIANGLE_NUMBERS, 2 * TRIANGLE_NUMBERS, 3_000]);
            repeat_to(list, MOST_NUMBERS + beyond);
        }
    }
}

// ---- Buffers ----

fn with_any_room(random: &mut Random, (first, second): Lists) -> Call {
    let lists = JudgedLists::new(first, second);
    let before = match random.below(4) {
        0 => 0,
        1 => 1 + random.index(3),
        _ => random.index(20),
    };
    let buffer_length = before + any_room(random, 2 * lists.pair_count());
    let start = if random.once_in(8) {
        start_beyond(random, before as u64, buffer_length as u64)
    } else {
        before as u64
    };
    Call::List(Listing {
        lists,
        buffer_length,
        start,
    })
}

/// Mostly from a pair too little to a pair and a number too much.
fn any_room(random: &mut Random, needed: usize) -> usize {
    match random.below(16) {
        0..=8 => (needed + random.index(6)).saturating_sub(2),
        9..=10 => random.index(2),
        11..=12 => random.index(needed + 1),
        _ => needed + random.index(40),
    }
}

/// Just beyond the end, far beyond it, or so far that a start cut to 32 bits, or counted in bytes, would be within.
fn start_beyond(random: &mut Random, within: u64, end: u64) -> u64 {
    let near = 1 + random.below(30);
    match random.below(8) {
        0..=3 => end + 1,
        4 => end + near,
        5 => u64::MAX - random.below(near),
        6 => (1 << 32) + within,
        _ => random.pick(&[1 << 61, 1 << 62, 1 << 63, u64::MAX / 2]) + within,
    }
}
