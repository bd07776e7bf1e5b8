//! A host that fills a storage buffer by place lookups, all in one call:
//!
//!   struct Cell { temperature: vec3<f32>, moisture: f32 }
//!   struct Kernel { turn: mat3x3<f32>, steps: u32, cells: array<Cell, 4>, tail: array<f32> }
//!
//! The matrix is filled column by column: 12 bytes at 0, 16 and 32. The host keeps a flag in the gap after each.
//! Before it fills the buffer it looks at the storage verdict: an accepted type may be one that no storage buffer can hold.

use std::ops::Range;
use wuldazin::{flags, form, kind, scalar, verdict, Place, Refusal, Row, UniformRule};

const F32: u32 = 0;
const VEC3: u32 = 1;
const CELL: u32 = 2;
const CELLS: u32 = 3;
const U32: u32 = 4;
const TAIL: u32 = 5;
const MAT3X3: u32 = 6;
const KERNEL: u32 = 7;

#[rustfmt::skip]
const TYPES: [u32; 8 * wuldazin::TYPE_WORDS] = [
    kind::SCALAR, scalar::FLOAT, 4, 0, 0, 0,
    kind::VECTOR, 3, scalar::FLOAT, 4, 0, 0,
    kind::STRUCT, 0, 2, 16, 0, 0,
    kind::ARRAY, CELL, form::CONSTANT, 4, 16, 0,
    kind::SCALAR, scalar::UINT, 4, 0, 0, 0,
    kind::ARRAY, F32, form::DYNAMIC, 0, 4, 0,
    kind::MATRIX, 3, 3, scalar::FLOAT, 4, 0,
    kind::STRUCT, 2, 4, 144, 0, 0,
];
#[rustfmt::skip]
const MEMBERS: [u32; 24] = [
    VEC3, 0, 0, 0, F32, 12, 0, 0,
    MAT3X3, 0, 0, 0, U32, 48, 0, 0, CELLS, 64, 0, 0, TAIL, 128, 0, 0,
];
const TAIL_COUNT: u32 = 8;
const BYTES: usize = 128 + 4 * TAIL_COUNT as usize;
/// The first byte after each column.
const FLAGS: [usize; 3] = [12, 28, 44];

/// The bytes of a leaf: of a matrix a column, rows times width; of another type its size, the first of its three words.
fn bytes_of(place: Place, scratch: &[u32]) -> Range<usize> {
    let record = &TYPES[place.leaf as usize * wuldazin::TYPE_WORDS..];
    let size = match record[0] {
        kind::MATRIX => record[2] * record[4],
        _ => scratch[place.leaf as usize * wuldazin::SHORT_WORDS],
    };
    let start = place.byte as usize;
    start..start + size as usize
}

/// The bytes of the leaf that steps lead to.
fn bytes(steps: &[u32]) -> Result<Range<usize>, Refusal> {
    let mut scratch = [0; 8 * wuldazin::SHORT_WORDS];
    let place = wuldazin::place_short(&TYPES, &MEMBERS, 0, &mut scratch, KERNEL, steps)?;
    Ok(bytes_of(place, &scratch))
}

/// The bytes of all leaves, with one judging.
fn all_bytes(leaves: &[(Vec<u32>, Vec<u8>)]) -> Result<Vec<Range<usize>>, Refusal> {
    let run =
        |(steps, _): &(Vec<u32>, Vec<u8>)| [&[KERNEL, steps.len() as u32], &steps[..]].concat();
    let runs: Vec<u32> = leaves.iter().flat_map(run).collect();
    let mut scratch = [0; 8 * wuldazin::SHORT_WORDS];
    let mut places = vec![0; 2 * leaves.len()];
    wuldazin::places(&TYPES, &MEMBERS, 0, &mut scratch, &runs, &mut places)?;
    let place = |run| Place::of(&places, run).expect("every leaf has a place");
    Ok((0..leaves.len())
        .map(|run| bytes_of(place(run), &scratch))
        .collect())
}

fn floats(values: [f32; 3]) -> Vec<u8> {
    values.map(f32::to_le_bytes).concat()
}

/// Each leaf, with what to put there.
fn leaves() -> Vec<(Vec<u32>, Vec<u8>)> {
    let mut leaves = vec![
        (vec![0, 0], floats([1.0, 0.0, 0.0])),
        (vec![0, 1], floats([0.0, 1.0, 0.0])),
        (vec![0, 2], floats([0.0, 0.0, 1.0])),
        (vec![1], 1000u32.to_le_bytes().to_vec()),
    ];
    for i in 0..4 {
        let heat = [20 + i, 30 + i, 40 + i].map(|degrees| degrees as f32);
        leaves.push((vec![2, i, 0], floats(heat)));
        leaves.push((vec![2, i, 1], (0.25 * i as f32).to_le_bytes().to_vec()));
    }
    for i in 0..TAIL_COUNT {
        leaves.push((vec![3, i], (i as f32).to_le_bytes().to_vec()));
    }
    leaves
}

/// Rewriting one leaf spares all others, and the flags.
fn rewrite_each(buffer: &[u8; BYTES], leaves: &[(Vec<u32>, Vec<u8>)]) -> Result<(), Refusal> {
    for (rewritten, _) in leaves {
        let mut other = *buffer;
        for byte in &mut other[bytes(rewritten)?] {
            *byte = !*byte;
        }
        for (steps, value) in leaves {
            let now = &other[bytes(steps)?];
            assert_eq!(now == value, steps != rewritten, "{rewritten:?} {steps:?}");
        }
        assert_eq!(FLAGS.map(|at| other[at]), [0xff; 3]);
    }
    Ok(())
}

/// The alignment that a storage buffer with this type needs, if it may hold it.
fn storage_alignment(row: Row) -> Option<u32> {
    let shareable = row.has(flags::DATA | flags::HOST_SHAREABLE);
    row.storage().alignment().filter(|_| shareable)
}

/// The moisture first and the temperature right after it, at byte 4: accepted, and nothing is filled.
fn accepted_and_not_usable() -> Result<(), Refusal> {
    let mut rows = [0; 3 * wuldazin::ROW_WORDS];
    wuldazin::judge(
        &TYPES[..18],
        &[F32, 0, 0, 0, VEC3, 4, 0, 0],
        0,
        UniformRule::Older,
        &mut rows,
    )?;
    let cell = Row::of(&rows, CELL).unwrap();
    assert_eq!(storage_alignment(cell), None);
    assert_eq!(cell.storage().code, verdict::MEMBER_OFFSET);
    println!("temperature at byte 4: accepted, {:?}", cell.storage());
    Ok(())
}

fn main() -> Result<(), Refusal> {
    let mut rows = [0; 8 * wuldazin::ROW_WORDS];
    wuldazin::judge(&TYPES, &MEMBERS, 0, UniformRule::Older, &mut rows)?;
    let kernel = Row::of(&rows, KERNEL).unwrap();
    assert_eq!(storage_alignment(kernel), Some(16));
    assert_eq!(
        wuldazin::members(&TYPES, &MEMBERS, KERNEL),
        &MEMBERS[2 * wuldazin::MEMBER_WORDS..]
    );

    let mut buffer = [0; BYTES];
    for at in FLAGS {
        buffer[at] = 0xff;
    }
    let leaves = leaves();
    for ((steps, value), at) in leaves.iter().zip(all_bytes(&leaves)?) {
        assert_eq!(at, bytes(steps)?);
        println!("{steps:?}: bytes {at:?}");
        buffer[at].copy_from_slice(value);
    }
    for line in buffer.chunks(16) {
        println!("{line:02x?}");
    }

    rewrite_each(&buffer, &leaves)?;
    let count = leaves.len();
    println!("{count} leaves, each rewritten: the others and the flags stay");

    println!("cells[4]: {}", bytes(&[2, 4, 0]).unwrap_err());
    println!("turn[3]: {}", bytes(&[0, 3]).unwrap_err());
    accepted_and_not_usable()
}
