//! The bench rows of listings, which go on with flat triangles, bad lists, empty ones and the longest ones.

use super::{pin, Row, A, ABOVE_A, AT_CORNER_OF_A, LINE, THROUGH_A};
use crate::answers::listing::{JudgedLists, Listing, MOST_TRIANGLES};
use crate::answers::{Answer, Outcome};
use crate::call::Call;

pub fn rows() -> Vec<Row> {
    let mut rows = rows_of_pairs();
    rows.extend(rows_of_flat_triangles());
    rows.extend(rows_at_the_end_of_the_grid());
    rows.extend(rows_of_faults());
    rows.extend(rows_of_empty_lists());
    rows.extend(rows_of_the_longest_lists());
    rows
}

/// Rows 14 and 15, with the start and the room at their limits as well.
fn rows_of_pairs() -> Vec<Row> {
    let lists = || JudgedLists::new([A, ABOVE_A].concat(), [THROUGH_A, AT_CORNER_OF_A].concat());
    let pairs = || listed(vec![[0, 0], [0, 1], [1, 0]]);
    let three_needed = || Answer::refused(5, 0, 3).into();
    vec![
        list("14", lists(), (6, 0), pairs()),
        list("14 with room to spare", lists(), (12, 0), pairs()),
        list("14 with a buffer of 5", lists(), (5, 0), three_needed()),
        list("15, start 1", lists(), (7, 1), pairs()),
        list("15, start 2", lists(), (7, 2), three_needed()),
        list("15, start 7", lists(), (7, 7), three_needed()),
        list("15, start 8", lists(), (7, 8), Answer::refused(4, 0, 7).into()),
    ]
}

/// Row 12 in a listing, and flat triangles among others and alone.
fn rows_of_flat_triangles() -> Vec<Row> {
    let row = |name, first: &[[i32; 9]], second: &[[i32; 9]], pairs| list_of(name, first, second, listed(pairs));
    let (needle, beside) = ([1, 1, -1, 1, 1, 3, 1, 1, 1], pin([3, 2, 0]));
    vec![
        row("12", &[A, LINE], &[A], vec![[0, 0], [1, 0]]),
        row("12 with the lists traded", &[A], &[A, LINE], vec![[0, 0], [0, 1]]),
        row("12 alone", &[LINE], &[LINE], vec![[0, 0]]),
        row(
            "a pin, a needle, a plate",
            &[beside, needle],
            &[A, ABOVE_A],
            vec![[1, 0], [1, 1]],
        ),
        row(
            "pins and wires",
            &[pin([2, 2, 2]), pin([3, 3, 3]), LINE],
            &[needle, pin([3, 3, 3])],
            vec![[1, 1], [2, 0]],
        ),
    ]
}

fn high(z: i32) -> [i32; 9] {
    [0, 0, 0, 4, 0, 0, 0, 4, z]
}

/// Row 13 in a listing, in the second triangle of a list.
fn rows_at_the_end_of_the_grid() -> Vec<Row> {
    let after_a = |other: [i32; 9]| vec![A, other];
    let refused = |side| Answer::refused(1, side, 17).into();
    let row = |first: &[[i32; 9]], second: &[[i32; 9]], outcome| list_of("13", first, second, outcome);
    vec![
        row(&after_a(high(1_073_741_824)), &[A], listed(vec![[0, 0], [1, 0]])),
        row(&after_a(high(1_073_741_825)), &[A], refused(0)),
        row(&[A], &after_a(high(-1_073_741_824)), listed(vec![[0, 0], [0, 1]])),
        row(&[A], &after_a(high(-1_073_741_825)), refused(1)),
        row(&after_a(high(1_073_741_825)), &[high(1_073_741_825)], refused(0)),
    ]
}

/// Which of two faults is named. A flat triangle is none.
fn rows_of_faults() -> Vec<Row> {
    let (beyond, off_grid_pin) = (high(1_073_741_825), pin([1_073_741_825; 3]));
    let refused = |number, side, place| Answer::refused(number, side, place).into();
    let short = JudgedLists::new(LINE.to_vec(), A[..8].to_vec());
    vec![
        list_of("off the grid twice", &[beyond, off_grid_pin], &[A], refused(1, 0, 8)),
        list_of("flat, then off the grid", &[LINE, beyond], &[A], refused(1, 0, 17)),
        list_of("off the grid, then flat", &[beyond, LINE], &[A], refused(1, 0, 8)),
        list_of("flat, and off the grid second", &[LINE], &[beyond], refused(1, 1, 8)),
        list_of("flat and off the grid", &[A, off_grid_pin], &[A], refused(1, 0, 9)),
        list("flat, and a wrong length", short, (8, 0), refused(3, 1, 8)),
    ]
}

/// Empty lists are served wherever the start is not beyond the buffer's end.
fn rows_of_empty_lists() -> Vec<Row> {
    let lists = |first: &[i32], second: &[i32]| JudgedLists::new(first.to_vec(), second.to_vec());
    let none = || listed(Vec::new());
    vec![
        list("empty lists", lists(&[], &[]), (0, 0), none()),
        list("empty lists, start at the end", lists(&[], &[]), (3, 3), none()),
        list(
            "empty lists, start beyond the end",
            lists(&[], &[]),
            (3, 4),
            Answer::refused(4, 0, 3).into(),
        ),
        list("an empty second list", lists(&A, &[]), (2, 0), none()),
        list("an empty first list", lists(&[], &A), (2, 0), none()),
    ]
}

/// As many triangles as a list can have, all meeting; one more than that; the very last one flat; and a fault in it.
fn rows_of_the_longest_lists() -> Vec<Row> {
    let lists = |first, second| JudgedLists::new(A.repeat(first), A.repeat(second));
    let most = MOST_TRIANGLES as u32;
    let all_pairs = (0..most).flat_map(|i| (0..most).map(move |j| [i, j])).collect();
    let longest = || lists(MOST_TRIANGLES, MOST_TRIANGLES);
    let ending = |last: [i32; 9]| [A.repeat(MOST_TRIANGLES - 1), last.to_vec()].concat();
    let flat_last = JudgedLists::new(ending([0; 9]), A.to_vec());
    let first_alone = (0..most).map(|i| [i, 0]).collect();
    let off_grid_last = JudgedLists::new(A.to_vec(), ending([0, 0, 0, 4, 0, 0, 0, 4, 1_073_741_825]));
    let refused = |number, side, place| Answer::refused(number, side, place).into();
    vec![
        list("the longest lists", longest(), (2_097_153, 1), listed(all_pairs)),
        list(
            "the longest lists, one number short",
            longest(),
            (2_097_152, 1),
            refused(5, 0, 1_048_576),
        ),
        list(
            "1,025 triangles first",
            lists(1_025, 1),
            (4_096, 0),
            refused(3, 0, 9_225),
        ),
        list(
            "1,025 triangles second",
            lists(1, 1_025),
            (4_096, 0),
            refused(3, 1, 9_225),
        ),
        list("the last triangle flat", flat_last, (4_096, 0), listed(first_alone)),
        list(
            "the last number off the grid",
            off_grid_last,
            (4_096, 0),
            refused(1, 1, 9_215),
        ),
    ]
}

/// With a buffer of so many numbers, and a start.
fn list(name: &'static str, lists: JudgedLists, (buffer_length, start): (usize, u64), outcome: Outcome) -> Row {
    Row {
        name,
        call: Call::List(Listing {
            lists,
            buffer_length,
            start,
        }),
        outcome,
    }
}

fn listed(pairs: Vec<[u32; 2]>) -> Outcome {
    Outcome {
        answer: Answer::served(pairs.len() as u64),
        pairs,
    }
}

/// With a buffer of 8 numbers.
fn list_of(name: &'static str, first: &[[i32; 9]], second: &[[i32; 9]], outcome: Outcome) -> Row {
    list(name, JudgedLists::new(first.concat(), second.concat()), (8, 0), outcome)
}
