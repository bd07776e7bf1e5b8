//! The part of the member table that a struct names, handed back from raw
//! tables of any length. Nothing is judged; the Rust has no such call.

use crate::records::*;

/// The part's first word and its length in words; 0 and 0 if it is empty.
pub fn part(types: &[u32], members: &[u32], number: u32) -> [u64; 2] {
    let Some(record) = type_record(types, number) else {
        return [0, 0];
    };
    let (first, count) = (u64::from(record[1]), u64::from(record[2]));
    let rows = (members.len() / MEMBER_WORDS) as u64;
    if record[0] != kind::STRUCT || count == 0 || first + count > rows {
        return [0, 0];
    }
    [first, count].map(|n| n * MEMBER_WORDS as u64)
}
