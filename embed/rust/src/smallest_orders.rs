//! The smallest orders, through the safe call.

use crate::{order, Order, Refusal, UniformRule};

const E: [u32; 6] = [0, 2, 4, 0, 0, 0];
const V: [u32; 6] = [1, 3, 2, 4, 0, 0];
const RUNTIME_ARRAY: [u32; 6] = [7, 0, 1, 0, 4, 0];
const FREE: [u32; 6] = [9; 6];

/// Two types and one member row, of E at 0, are in use; the tables come back.
fn ordered(
    second: [u32; 6],
    wanted: &[u32],
    span: u32,
) -> (Result<Order, Refusal>, Vec<u32>, Vec<u32>) {
    let mut types = [E, second, FREE].concat();
    let mut members = vec![9; 16];
    members[..4].fill(0);
    let mut rows = [9; 42];
    let rule = UniformRule::Older;
    let found = order(
        &mut types, 2, &mut members, 1, 0, rule, &mut rows, wanted, span,
    );
    (found, types[12..].to_vec(), members[4..].to_vec())
}

#[test]
fn first_that_fits() {
    let (found, record, members) = ordered(V, &[0, 1], 31);
    let found = found.unwrap();
    assert_eq!((found.ty, found.span), (2, 16));
    assert_eq!(found.places(), [1, 0]);
    assert_eq!(record, [8, 1, 2, 16, 0, 0]);
    assert_eq!(members, [1, 0, 0, 0, 0, 12, 0, 0, 9, 9, 9, 9]);
    let (found, ..) = ordered(V, &[0, 1], 32);
    assert_eq!(found.unwrap().places(), [0, 1]);
    let (found, ..) = ordered(RUNTIME_ARRAY, &[1, 0], 8);
    assert_eq!(found.unwrap().places(), [1, 0]);
}

#[test]
fn refusals() {
    let long = [8, 0, 1, 4294967281, 0, 0];
    let cases: [([u32; 6], &[u32], u32, [u32; 2]); 7] = [
        (V, &[0, 1], 15, [35, 0]),
        (V, &[], 16, [16, 0]),
        (V, &[0, 2], 16, [6, 0]),
        ([10, 0, 0, 0, 0, 0], &[1], 16, [17, 0]),
        (RUNTIME_ARRAY, &[1, 1], 16, [20, 0]),
        (V, &[0; 8], 64, [1, 0]),
        (long, &[1, 0], u32::MAX, [21, 2]),
    ];
    for (second, wanted, span, [number, ty]) in cases {
        let (found, record, members) = ordered(second, wanted, span);
        let refusal = found.unwrap_err();
        assert_eq!((refusal.number, refusal.ty), (number, ty));
        assert_eq!(record, FREE);
        assert_eq!(members, [9; 12]);
    }
}
