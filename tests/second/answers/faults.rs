//! What can be wrong with the lists of a call, and the refusal that follows.

use super::{points_of, Answer, FLAT_SHAPE, GRID, OFF_GRID, WRONG_LENGTH};
use crate::geometry::signs;
use crate::geometry::thin::is_flat;
use crate::geometry::Point;

/// Everything wrong with one list, also what a weightier fault hides.
#[derive(Clone, Default)]
pub struct ListFaults {
    pub length: Option<u64>,
    /// Shape by shape; of one shape a coordinate off the grid before its being flat.
    pub shapes: Vec<ShapeFault>,
    /// Which shapes are flat, whether that is a fault or not.
    pub flat_shapes: Vec<usize>,
}

#[derive(Clone, Copy)]
pub struct ShapeFault {
    pub number: u64,
    pub place: u64,
    /// Which shape of the list has it.
    pub shape: usize,
}

impl ListFaults {
    /// The refusal number that this list would get if it were the only bad one.
    pub fn number_alone(&self) -> u64 {
        match (self.length, self.shapes.first()) {
            (Some(_), _) => WRONG_LENGTH,
            (None, Some(fault)) => fault.number,
            (None, None) => 0,
        }
    }

    /// The first bad shape is flat, and off the grid where that is its fault.
    pub fn first_is_flat(&self) -> bool {
        self.shapes
            .first()
            .is_some_and(|fault| self.flat_shapes.contains(&fault.shape))
    }
}

/// Wrong lengths come first, through all lists; then the faults of each list's shapes, list by list.
pub fn first_refusal(lists: &[ListFaults]) -> Option<Answer> {
    for (side, faults) in (0..).zip(lists) {
        if let Some(length) = faults.length {
            return Some(Answer::refused(WRONG_LENGTH, side, length));
        }
    }
    for (side, faults) in (0..).zip(lists) {
        if let Some(fault) = faults.shapes.first() {
            return Some(Answer::refused(fault.number, side, fault.place));
        }
    }
    None
}

pub fn point_faults(list: &[i32], wanted: usize) -> ListFaults {
    list_faults(list, wanted, list.len() == wanted, |_| false, FlatShapes::Served)
}

pub fn flat_triangle_faults(list: &[i32]) -> ListFaults {
    let is_flat = |[a, b, c]: [_; 3]| signs::turn_by_border_sum(a, b, c) == 0;
    one_shape_faults(list, is_flat, FlatShapes::Refused)
}

pub fn segment_faults(list: &[i32]) -> ListFaults {
    one_shape_faults::<3, 2>(list, |ends| is_flat(&ends), FlatShapes::Served)
}

pub fn triangle_faults(list: &[i32]) -> ListFaults {
    one_shape_faults::<3, 3>(list, |corners| is_flat(&corners), FlatShapes::Served)
}

/// Of a triangle that is to be placed on a plate.
pub fn placed_triangle_faults(list: &[i32]) -> ListFaults {
    one_shape_faults::<3, 3>(list, |corners| is_flat(&corners), FlatShapes::Refused)
}

/// What a call does with a flat shape.
#[derive(Clone, Copy, PartialEq, Eq)]
pub enum FlatShapes {
    Refused,
    Served,
}

/// Of a list that should hold one shape.
fn one_shape_faults<const D: usize, const N: usize>(
    list: &[i32],
    is_flat: fn([Point<D>; N]) -> bool,
    flat_shapes: FlatShapes,
) -> ListFaults {
    let is_flat = |shape: &[i32]| is_flat(points_of(shape));
    list_faults(list, D * N, list.len() == D * N, is_flat, flat_shapes)
}

/// Of a list of shapes, so many numbers each. What is left over at its end counts for its length and the grid only.
pub fn list_faults(
    list: &[i32],
    shape_numbers: usize,
    right_length: bool,
    is_flat: impl Fn(&[i32]) -> bool,
    flat_shapes: FlatShapes,
) -> ListFaults {
    let mut faults = ListFaults {
        length: (!right_length).then_some(list.len() as u64),
        ..ListFaults::default()
    };
    for (shape, numbers) in list.chunks(shape_numbers).enumerate() {
        let mut found = |number, place: usize| {
            let place = place as u64;
            faults.shapes.push(ShapeFault { number, place, shape });
        };
        if let Some(position) = numbers.iter().position(|n| *n < -GRID || *n > GRID) {
            found(OFF_GRID, shape_numbers * shape + position);
        }
        if numbers.len() == shape_numbers && is_flat(numbers) {
            faults.flat_shapes.push(shape);
            if flat_shapes == FlatShapes::Refused {
                found(FLAT_SHAPE, shape);
            }
        }
    }
    faults
}
