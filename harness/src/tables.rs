//! Numbers 1 to 3, which the Rust does not know: read from 01, and E9 of 02, alone.

use crate::records::*;

pub fn lengths_are_wrong(types: &[u32], members: &[u32], rows_len: usize) -> bool {
    let count = types.len() / TYPE_WORDS;
    !types.len().is_multiple_of(TYPE_WORDS)
        || count > MAX_TYPES
        || !members.len().is_multiple_of(MEMBER_WORDS)
        || members.len() / MEMBER_WORDS > MAX_MEMBERS
        || rows_len < ROW_WORDS * count
}

pub fn capabilities_are_wrong(capabilities: u32) -> bool {
    capabilities >> CAPABILITY_BITS != 0
}

/// The first record with a field outside its set or a blend source without a
/// location (2), or a base outside the arena (3).
pub fn first_bad_record(types: &[u32], members: &[u32]) -> Option<Answer> {
    let type_count = (types.len() / TYPE_WORDS) as u32;
    let member_count = (members.len() / MEMBER_WORDS) as u64;
    for (number, record) in types.chunks_exact(TYPE_WORDS).enumerate() {
        if !fields_are_in_their_sets(record, member_count) || has_source_alone(record, members) {
            return Some([2, number as u32, 0, 0]);
        }
        if matches!(record[0], kind::POINTER | kind::BINDING_ARRAY) && record[1] >= type_count {
            return Some([3, number as u32, 0, 0]);
        }
    }
    None
}

/// E9 of 02: a blend source requires a location; a struct's record without it is number 2.
fn has_source_alone(record: &[u32], members: &[u32]) -> bool {
    let (first, count) = (record[1] as usize, record[2] as usize);
    let mut rows = members.chunks_exact(MEMBER_WORDS).skip(first).take(count);
    record[0] == kind::STRUCT && rows.any(|row| row[3] != 0 && row[2] == 0)
}

fn fields_are_in_their_sets(record: &[u32], member_count: u64) -> bool {
    let w = record;
    let (named, good) = match w[0] {
        kind::SCALAR | kind::ATOMIC => (2, scalar(w[1], w[2])),
        kind::VECTOR => (3, vector_size(w[1]) && scalar(w[2], w[3])),
        kind::MATRIX => (
            4,
            vector_size(w[1]) && vector_size(w[2]) && scalar(w[3], w[4]),
        ),
        kind::COOPERATIVE_MATRIX => {
            let sizes = cooperative_size(w[1]) && cooperative_size(w[2]);
            (5, sizes && scalar(w[3], w[4]) && w[5] <= 2)
        }
        kind::POINTER => (2, space(w[2])),
        kind::VALUE_POINTER => (3, scalar(w[1], w[2]) && space(w[3])),
        kind::ARRAY => (4, form_and_count(w[2], w[3])),
        kind::STRUCT => (3, u64::from(w[1]) + u64::from(w[2]) <= member_count),
        kind::IMAGE => (3, w[1] <= 3 && flag(w[2]) && w[3] <= 3),
        kind::SAMPLER => (0, true),
        kind::ACCELERATION_STRUCTURE | kind::RAY_QUERY => (1, flag(w[1])),
        kind::BINDING_ARRAY => (3, form_and_count(w[2], w[3])),
        _ => return false,
    };
    good && w[1 + named..].iter().all(|&word| word == 0)
}

fn scalar(kind: u32, width: u32) -> bool {
    kind <= 5 && width <= 255
}

fn vector_size(size: u32) -> bool {
    (2..=4).contains(&size)
}

fn cooperative_size(size: u32) -> bool {
    size == 8 || size == 16
}

fn space(space: u32) -> bool {
    space <= 9
}

fn flag(word: u32) -> bool {
    word <= 1
}

/// Form 0 is constant and counts at least 1; form 1 is dynamic and counts 0.
fn form_and_count(form: u32, count: u32) -> bool {
    (form == 0 && count >= 1) || (form == 1 && count == 0)
}
