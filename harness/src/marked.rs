//! The marked examples of 01, tried on the reference.

use crate::records::*;
use crate::{members, place, reference, slots, translate};

const E: [u32; 6] = [kind::SCALAR, 2, 4, 0, 0, 0];
const V: [u32; 6] = [kind::VECTOR, 3, 2, 4, 0, 0];

fn structure(first: u32, count: u32, span: u32) -> [u32; 6] {
    [kind::STRUCT, first, count, span, 0, 0]
}

fn array(base: u32, count: u32, stride: u32) -> [u32; 6] {
    [kind::ARRAY, base, 0, count, stride, 0]
}

/// Members by type and offset.
fn check(types: &[[u32; 6]], members: &[u32], capabilities: u32) -> Result<Vec<Row>, Answer> {
    let types = types.as_flattened();
    let members = members_of_pairs(members);
    let outcome = reference::check(
        types,
        &members,
        capabilities,
        OLDER,
        ROW_WORDS * types.len() / 6,
    );
    outcome.rows.ok_or(outcome.answer)
}

/// M1's arena with E at another offset and another span.
fn m1(offset: u32, span: u32) -> Result<Vec<Row>, Answer> {
    check(&[E, V, structure(0, 2, span)], &[1, 0, 0, offset], 0)
}

#[test]
fn m1_and_its_changes() {
    let rows = m1(12, 16).unwrap();
    assert_eq!(rows[0], [4, 4, 255, 0, 4, 0, 0, 0, 0, 4, 0, 0, 0, 0]);
    assert_eq!(rows[1], [12, 16, 255, 0, 16, 0, 0, 0, 0, 16, 0, 0, 0, 0]);
    assert_eq!(rows[2], [16, 16, 247, 0, 16, 0, 0, 0, 0, 16, 0, 0, 0, 0]);
    let m3 = m1(12, 20).unwrap()[2];
    assert_eq!(m3[3..13], [2, 2, 0, 20, 16, 2, 2, 0, 20, 16]);
    assert_eq!(m1(8, 16), Err([18, 2, 1, 0]));
    assert_eq!(m1(0, 16).unwrap()[2][2], 231);
    assert_eq!(m1(12, 15), Err([19, 2, 1, 0]));
}

#[test]
fn m2_slots() {
    let types = [E, V, structure(0, 2, 16)];
    let arena = translate::arena(types.as_flattened(), &members_of_pairs(&[1, 0, 0, 12]));
    assert_eq!(slots::of_type(&arena, 2, 0), Ok([15, 0]));
}

#[test]
fn m7_and_m8_arrays() {
    let row = check(&[E, array(0, 3, 4)], &[], 0).unwrap()[1];
    assert_eq!(row[3..13], [1, 1, 0, 4, 16, 0, 4, 0, 0, 0]);
    assert!(check(&[E, array(0, 1_073_741_823, 2)], &[], 0).is_ok());
    assert_eq!(
        check(&[E, array(0, 1_073_741_824, 2)], &[], 0),
        Err([4, 1, 0, 0])
    );
}

#[test]
fn m9_and_m10_distances() {
    let types = [E, structure(0, 1, 4), structure(1, 2, 16)];
    let row = check(&types, &[0, 0, 1, 0, 0, 4], 0).unwrap()[2];
    assert_eq!(row[3..13], [4, 2, 1, 4, 16, 0, 4, 0, 0, 0]);
    let types = [E, structure(0, 1, 4), structure(1, 3, 32)];
    let members = [0, 0, 0, 0, 1, 16, 0, 0];
    assert_eq!(check(&types, &members, 0), Err([21, 2, 2, 0]));
}

/// Number 21 where `span + 15`, or the span rounded up to 16, leaves 32 bits:
/// a struct of that span, then a ray query at an offset past it.
#[test]
fn rounded_span_at_the_border() {
    let query = [kind::RAY_QUERY, 0, 0, 0, 0, 0];
    let outer = structure(1, 2, u32::MAX);
    let judged = |span, offset| {
        let members = [0, 0, 2, 0, 1, offset];
        check(&[E, query, structure(0, 1, span), outer], &members, 1 << 10)
    };
    assert!(judged(4_294_967_280, 4_294_967_280).is_ok());
    assert_eq!(judged(4_294_967_281, u32::MAX), Err([21, 3, 1, 0]));
}

#[test]
fn m11_half_floats() {
    let half = [kind::SCALAR, 2, 2, 0, 0, 0];
    assert_eq!(check(&[half], &[], 0), Err([8, 0, 0, 1]));
    assert_eq!(check(&[half], &[], 2).unwrap()[0][13], 3);
}

#[test]
fn m12_ranges() {
    assert_eq!(slots::of_range(300, 0), Ok([0, 0]));
    assert_eq!(slots::of_range(3, 2), Ok([3, 3]));
    assert_eq!(slots::of_range(252, 4), Ok([1 << 63, 0]));
    assert_eq!(slots::of_range(252, 5), Err(25));
}

/// Slot k is touched when the range covers one of the bytes 4k to 4k + 3, and
/// covered only in part when it does not cover all four.
#[test]
fn small_ranges_by_their_bytes() {
    for offset in 0..300 {
        for size in 0..300 {
            let bytes = offset..offset + size;
            let expected = match bytes.end <= 256 || size == 0 {
                true => Ok(masks_by_count(bytes)),
                false => Err(25),
            };
            assert_eq!(slots::of_range(offset, size), expected);
        }
    }
}

fn masks_by_count(bytes: std::ops::Range<u32>) -> slots::Masks {
    let mut covered = [0; SLOTS as usize];
    if bytes.end <= 256 {
        bytes.for_each(|byte| covered[byte as usize / 4] += 1);
    }
    let mask = |holds: fn(u32) -> bool| {
        let set = (0..SLOTS).filter(|&slot| holds(covered[slot as usize]));
        set.fold(0, |mask, slot| mask | 1 << slot)
    };
    [mask(|count| count > 0), mask(|count| count % 4 > 0)]
}

/// A slot stays in the second mask where other parts cover its other bytes, or
/// all of it; an array is one part.
#[test]
fn parts_that_share_a_slot() {
    let half = [kind::SCALAR, 2, 2, 0, 0, 0];
    let walk = |types: &[[u32; 6]], members: &[u32]| {
        assert!(check(types, members, 2).is_ok());
        let arena = translate::arena(types.as_flattened(), &members_of_pairs(members));
        slots::of_type(&arena, types.len() as u32 - 1, 0)
    };
    let two_halves = [half, structure(0, 2, 4)];
    assert_eq!(walk(&two_halves, &[0, 0, 0, 2]), Ok([1, 1]));
    let half_over_whole = [E, half, structure(0, 2, 4)];
    assert_eq!(walk(&half_over_whole, &[0, 0, 1, 0]), Ok([1, 1]));
    assert_eq!(walk(&[half, array(0, 3, 2)], &[]), Ok([3, 2]));
}

#[test]
fn places_and_parts_of_m1() {
    let runtime = [kind::ARRAY, 2, DYNAMIC, 0, 16, 0];
    let types = [E, V, structure(0, 2, 16), runtime];
    let types = types.as_flattened();
    let rows = members_of_pairs(&[1, 0, 0, 12]);
    let place = |start, steps: &[u32]| place::of(types, &rows, start, steps);
    assert_eq!(place(2, &[0]), Some((0, 1)));
    assert_eq!(place(2, &[1]), Some((12, 0)));
    assert_eq!(
        place(3, &[u32::MAX, 1]),
        Some((16 * u64::from(u32::MAX) + 12, 0))
    );
    assert_eq!(place(0, &[]), Some((0, 0)));
    for (start, steps) in [(2, &[][..]), (2, &[2]), (2, &[1, 0]), (3, &[7]), (4, &[])] {
        assert_eq!(place(start, steps), None);
    }
    let part = |number| members::part(types, &rows, number);
    assert_eq!([part(2), part(1), part(4)], [[0, 8], [0, 0], [0, 0]]);
    assert_eq!(members::part(types, &rows[..7], 2), [0, 0]);
}

/// E6 of 02: a matrix takes one step more, its column.
#[test]
fn places_of_columns() {
    let float = [kind::MATRIX, 3, 3, 2, 4, 0];
    let half = [kind::MATRIX, 4, 3, 2, 2, 0];
    let cooperative = [kind::COOPERATIVE_MATRIX, 8, 8, 2, 4, 0];
    let types = [
        float,
        half,
        cooperative,
        structure(0, 2, 80),
        array(3, 2, 80),
    ];
    let types = types.as_flattened();
    let members = members_of_pairs(&[1, 0, 0, 32]);
    let place = |start, steps: &[u32]| place::of(types, &members, start, steps);
    assert_eq!(
        [0, 1, 2].map(|s| place(0, &[s])),
        [0, 16, 32].map(|b| Some((b, 0)))
    );
    assert_eq!(place(1, &[3]), Some((24, 1)));
    assert_eq!(place(2, &[]), Some((0, 2)));
    assert_eq!(place(4, &[1, 1, 2]), Some((80 + 32 + 32, 0)));
    let none = [
        (0, &[][..]),
        (0, &[3]),
        (0, &[2, 0]),
        (1, &[4]),
        (2, &[0]),
        (4, &[1, 1]),
    ];
    for (start, steps) in none {
        assert_eq!(place(start, steps), None);
    }
    assert_eq!(place::column_length(&float), 12);
    assert_eq!(place::column_length(&half), 6);
}

/// The columns of every matrix, one column step each, are all of it, and the
/// step is its alignment.
#[test]
fn columns_by_the_sizes_of_naga() {
    for columns in 2..=4 {
        for rows in 2..=4 {
            for width in [2, 4, 8] {
                let matrix = [kind::MATRIX, columns, rows, 2, width, 0];
                let row = check(&[matrix], &[], ALL_CAPABILITIES).unwrap()[0];
                let step = place::column_step(&matrix);
                assert_eq!([row[0], row[1]], [columns * step, step]);
                assert_eq!([row[4], row[9]], [step, step]);
                assert!(place::column_length(&matrix) <= step);
            }
        }
    }
}
