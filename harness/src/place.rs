//! The place, which the Rust does not know: read from 01 and from E6 of 02 alone,
//! over the words of the records.

use crate::records::*;
use crate::reference::{self, Expected, Outcome};

/// Byte place and type of the leaf that the steps lead to.
pub fn of(types: &[u32], members: &[u32], start: u32, steps: &[u32]) -> Option<(u64, u32)> {
    let (number, place, left) = descend(types, members, start, steps)?;
    let w = type_record(types, number)?;
    let bytes = match left {
        &[column] if w[0] == kind::MATRIX && column < w[1] => column * column_step(w),
        [] if is_leaf(w[0]) => 0,
        _ => return None,
    };
    let place = u64::try_from(place + u128::from(bytes)).expect("64 bits hold a place");
    Some((place, number))
}

/// The steps that are left at the matrix that the others lead to, if they do.
pub fn steps_at_a_matrix<'a>(arena: &Arena, start: u32, steps: &'a [u32]) -> Option<&'a [u32]> {
    let (number, _, left) = descend(&arena.types, &arena.members, start, steps)?;
    let w = type_record(&arena.types, number)?;
    (w[0] == kind::MATRIX).then_some(left)
}

/// Follows the steps through arrays and structs: the type that is come to, its
/// byte place, and the steps that are left.
fn descend<'a>(
    types: &[u32],
    members: &[u32],
    start: u32,
    steps: &'a [u32],
) -> Option<(u32, u128, &'a [u32])> {
    let (mut number, mut place, mut left) = (start, 0, steps);
    while let [step, later @ ..] = left {
        let w = type_record(types, number)?;
        if !matches!(w[0], kind::ARRAY | kind::STRUCT) {
            break;
        }
        let (next, bytes) = next(w, members, *step)?;
        (number, place, left) = (next, place + bytes, later);
    }
    Some((number, place, left))
}

/// One step: the type it goes on with and the bytes it adds.
fn next(w: &[u32], members: &[u32], step: u32) -> Option<(u32, u128)> {
    match w[0] {
        kind::ARRAY => {
            let (base, form, count, stride) = (w[1], w[2], w[3], w[4]);
            let within = form == DYNAMIC || step < count;
            within.then(|| (base, u128::from(step) * u128::from(stride)))
        }
        kind::STRUCT if step < w[2] => {
            let (ty, offset) = member_row(members, u64::from(w[1]) + u64::from(step))?;
            Some((ty, u128::from(offset)))
        }
        _ => None,
    }
}

/// From a column of a matrix to the next: a column of three rows takes the room
/// of four.
pub fn column_step(matrix: &[u32]) -> u32 {
    let (rows, width) = (matrix[2], matrix[4]);
    rows.next_power_of_two() * width
}

/// The bytes of a column.
pub fn column_length(matrix: &[u32]) -> u32 {
    let (rows, width) = (matrix[2], matrix[4]);
    rows * width
}

/// Data that is neither array nor struct, nor a matrix, whose columns are leaves.
fn is_leaf(kind: u32) -> bool {
    is_data(kind) && !matches!(kind, kind::ARRAY | kind::STRUCT | kind::MATRIX)
}

/// The kinds whose types are DATA in an accepted arena.
pub fn is_data(kind: u32) -> bool {
    matches!(
        kind,
        kind::SCALAR
            | kind::VECTOR
            | kind::MATRIX
            | kind::COOPERATIVE_MATRIX
            | kind::ATOMIC
            | kind::ARRAY
            | kind::STRUCT
            | kind::RAY_QUERY
    )
}

/// What the lookup owes.
pub fn look_up(
    outcome: Outcome,
    types: &[u32],
    members: &[u32],
    start: u32,
    steps: &[u32],
) -> Expected {
    reference::check_then(outcome, 2, |_| {
        let (place, leaf) = of(types, members, start, steps).ok_or(NO_SUCH)?;
        Ok(vec![place, u64::from(leaf)])
    })
}
