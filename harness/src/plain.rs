//! The numbers of a plain type. Size and alignment are the Rust's: its layouter
//! lays out the type of that shape and width, once with each scalar kind. The
//! order of the shapes is read from 02. The column step is read from the
//! standard: column i starts at i times AlignOf(vecR).

use crate::records::*;
use crate::reference;
use std::iter::once;

const WIDTHS: [u32; 4] = [1, 2, 4, 8];
const SCALAR_KINDS: u32 = 6;
const OTHER: Answer = [2, 0, 0, 0];

/// Size, alignment and column step; zeros beside number 2.
pub type Numbers = [u32; 3];

#[derive(Clone, Copy)]
enum Shape {
    Scalar,
    Vector(u32),
    Matrix(u32, u32),
}

/// The scalar, three vectors and nine matrices by columns, then rows.
fn shapes() -> impl Iterator<Item = Shape> {
    let with_columns = |columns| (2..=4).map(move |rows| Shape::Matrix(columns, rows));
    once(Shape::Scalar)
        .chain((2..=4).map(Shape::Vector))
        .chain((2..=4).flat_map(with_columns))
}

/// What the call owes.
pub fn owed(shape: u32, width: u32) -> (Answer, Numbers) {
    let Some(shape) = shapes().nth(shape as usize) else {
        return (OTHER, [0; 3]);
    };
    if !WIDTHS.contains(&width) {
        return (OTHER, [0; 3]);
    }
    let (size, alignment) = layout(shape, width);
    let step = match shape {
        Shape::Matrix(_, rows) => layout(Shape::Vector(rows), width).1,
        _ => 0,
    };
    (ACCEPTED, [size, alignment, step])
}

/// Size and alignment, which are the same for every scalar kind.
fn layout(shape: Shape, width: u32) -> (u32, u32) {
    let records = (0..SCALAR_KINDS).map(|kind| record(shape, kind, width));
    let types: Vec<u32> = records.flatten().collect();
    let outcome = reference::layout(&types, &[], ROW_WORDS * SCALAR_KINDS as usize);
    let layouts = outcome.layouts.expect("a layout for every scalar kind");
    assert!(layouts.iter().all(|&layout| layout == layouts[0]));
    layouts[0]
}

fn record(shape: Shape, scalar_kind: u32, width: u32) -> [u32; TYPE_WORDS] {
    match shape {
        Shape::Scalar => [kind::SCALAR, scalar_kind, width, 0, 0, 0],
        Shape::Vector(size) => [kind::VECTOR, size, scalar_kind, width, 0, 0],
        Shape::Matrix(columns, rows) => [kind::MATRIX, columns, rows, scalar_kind, width, 0],
    }
}

/// AlignOf and SizeOf of the standard for f32, by shape; f16 has half of both.
#[cfg(test)]
const FIGURES: [(u32, u32); 13] = [
    (4, 4),
    (8, 8),
    (16, 12),
    (16, 16),
    (8, 16),
    (16, 32),
    (16, 32),
    (8, 24),
    (16, 48),
    (16, 48),
    (8, 32),
    (16, 64),
    (16, 64),
];

#[test]
fn the_standards_figures() {
    for (shape, (alignment, size)) in FIGURES.into_iter().enumerate() {
        let step = match shape {
            0..=3 => 0,
            _ => FIGURES[1 + (shape - 4) % 3].0,
        };
        let numbers = [size, alignment, step];
        assert_eq!(owed(shape as u32, 4), (ACCEPTED, numbers));
        assert_eq!(owed(shape as u32, 2), (ACCEPTED, numbers.map(|n| n / 2)));
    }
    for (shape, width) in [(13, 4), (0, 3), (13, 3), (0, 0), (0, 16), (u32::MAX, 4)] {
        assert_eq!(owed(shape, width), (OTHER, [0; 3]));
    }
}
