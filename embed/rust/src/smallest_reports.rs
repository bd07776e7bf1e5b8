//! The smallest reports, through the safe calls.

use crate::*;

const OLDER: UniformRule = UniformRule::Older;
const E: [u32; 6] = [kind::SCALAR, scalar::FLOAT, 4, 0, 0, 0];
const B: [u32; 6] = [kind::SCALAR, scalar::BOOL, 1, 0, 0, 0];
const V: [u32; 6] = [kind::VECTOR, 3, scalar::FLOAT, 4, 0, 0];
const M: [u32; 6] = [kind::MATRIX, 3, 3, scalar::FLOAT, 4, 0];

fn structure(first: u32, count: u32, span: u32) -> [u32; 6] {
    [kind::STRUCT, first, count, span, 0, 0]
}

fn array(count: u32, stride: u32) -> [u32; 6] {
    [kind::ARRAY, 0, form::CONSTANT, count, stride, 0]
}

fn refused(number: u32, ty: u32) -> Refusal {
    Refusal {
        number,
        ty,
        member: 0,
        detail: 0,
    }
}

/// The totals, and the words of each type.
fn reported(types: &[[u32; 6]], members: &[u32]) -> Result<([u64; 2], Vec<u64>), Refusal> {
    let mut rows = vec![7; types.len() * ROW_WORDS];
    let mut words = vec![7; types.len() * REPORT_WORDS];
    let totals = report(
        types.as_flattened(),
        members,
        0,
        OLDER,
        &mut rows,
        &mut words,
    )?;
    Ok(([totals.carried, totals.wasted], words))
}

#[test]
fn structs() {
    let found = reported(&[V, structure(0, 1, 16)], &[0, 0, 0, 0]);
    assert_eq!(found, Ok(([12, 4], vec![0, 0, 12, 4])));
    let nested = [E, structure(0, 1, 4), structure(1, 2, 16)];
    let found = reported(&nested, &[0, 0, 0, 0, 1, 0, 0, 0, 0, 8, 0, 0]);
    assert_eq!(found, Ok(([12, 8], vec![0, 0, 4, 0, 8, 8])));
    let found = reported(&[M, structure(0, 1, 48)], &[0, 0, 0, 0]);
    assert_eq!(found, Ok(([36, 12], vec![0, 0, 36, 12])));
    let runtime = [kind::ARRAY, 0, form::DYNAMIC, 0, 8, 0];
    let found = reported(
        &[E, runtime, structure(0, 2, 24)],
        &[0, 0, 0, 0, 1, 8, 0, 0],
    );
    assert_eq!(found, Ok(([8, 16], vec![0, 0, 0, 0, 8, 16])));
    assert_eq!(reported(&[], &[]), Ok(([0, 0], vec![])));
}

#[test]
fn unreported() {
    let found = reported(&[E, V, structure(0, 2, 16)], &[1, 0, 0, 0, 0, 0, 0, 0]);
    assert_eq!(found, Ok(([0, 0], vec![0; 6])));
    let found = reported(&[E, array(1, 0), structure(0, 1, 4)], &[0, 0, 0, 0]);
    assert_eq!(found, Ok(([4, 0], vec![0, 0, 0, 0, 4, 0])));
    let found = reported(&[B, array(2, 0), structure(0, 1, 4)], &[1, 0, 0, 0]);
    assert_eq!(found, Ok(([0, 0], vec![0; 6])));
}

#[test]
fn narrow_strides() {
    let types = [E, array(1, 0), structure(0, 1, 4)];
    let types = types.as_flattened();
    let (mut rows, mut accepted) = ([7; 44], [7; 44]);
    let mut words = [7; 8];
    let refusal = report(types, &[1, 0, 0, 0], 0, OLDER, &mut rows, &mut words);
    assert_eq!(refusal, Err(refused(27, 2)));
    assert_eq!(words, [0, 0, 0, 0, 0, 0, 7, 7]);
    check(types, &[1, 0, 0, 0], 0, OLDER, &mut accepted).unwrap();
    assert_eq!(rows, accepted);
    assert_eq!(
        refused(27, 2).to_string(),
        "27: a host-shareable struct reaches an array with a stride below its element's size (type 2)"
    );
    let nested = [E, array(2, 2), structure(0, 1, 4), structure(1, 1, 8)];
    assert_eq!(
        reported(&nested, &[1, 0, 0, 0, 2, 0, 0, 0]),
        Err(refused(27, 2))
    );
}

#[test]
fn words_after_a_refusal() {
    let types = [V, structure(0, 1, 15)];
    let (mut rows, mut words) = ([7; 28], [7; 5]);
    let refusal = report(
        types.as_flattened(),
        &[0, 4, 0, 0],
        0,
        OLDER,
        &mut rows,
        &mut words[..3],
    );
    assert_eq!(refusal, Err(refused(1, 0)));
    assert_eq!((rows, words), ([7; 28], [7; 5]));
    let refusal = report(
        types.as_flattened(),
        &[0, 4, 0, 0],
        0,
        OLDER,
        &mut rows,
        &mut words,
    );
    assert_eq!(refusal, Err(refused(19, 1)));
    assert_eq!((rows, words), ([0; 28], [0, 0, 0, 0, 7]));
}

/// Each struct holds the one before it twice: a walk of every path would not come to an end.
#[test]
fn shared_many_levels_deep() {
    let (mut types, mut members) = (vec![E], Vec::new());
    for level in 0..28 {
        let size = 4 << level;
        types.push(structure(2 * level, 2, 2 * size));
        members.extend([level, 0, 0, 0, level, size, 0, 0]);
    }
    let (totals, words) = reported(&types, &members).unwrap();
    assert_eq!(words[56..], [1 << 30, 0]);
    assert_eq!(totals, [(1 << 31) - 8, 0]);
}
