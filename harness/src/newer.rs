//! E8 of 02: "under the newer, a uniform verdict is worked out by the storage
//! rules, runtime-sized members still refused a uniform verdict". A reading of
//! it over the Rust's storage verdicts.

use crate::random::Random;
use crate::records::*;

/// The code of a member that is not sized.
const UNSIZED_MEMBER: u32 = 5;

/// Either rule, or now and then a word that is none. Drawn apart from the
/// arena, which so stays the one of its seed and index.
pub fn chosen_rule(seed: u64, index: u64) -> u32 {
    let random = &mut Random::new(seed ^ 0x0008_0008, index);
    match random.below(64) {
        0 => random.word(),
        _ => random.below(2),
    }
}

/// Puts the newer rule's uniform verdicts in the place of the Rust's.
pub fn put_uniform(types: &[u32], members: &[u32], rows: &mut [Row]) {
    for (number, record) in types.chunks_exact(TYPE_WORDS).enumerate() {
        let storage: [u32; 5] = rows[number][8..13].try_into().unwrap();
        let verdict = match runtime_member(types, members, record) {
            Some(index) if storage[0] == 0 => [UNSIZED_MEMBER, number as u32, index, 0, 0],
            _ => storage,
        };
        rows[number][3..8].copy_from_slice(&verdict);
    }
}

/// The position of a struct's member that is a runtime array.
fn runtime_member(types: &[u32], members: &[u32], record: &[u32]) -> Option<u32> {
    if record[0] != kind::STRUCT {
        return None;
    }
    let first = u64::from(record[1]);
    let rows = first..first + u64::from(record[2]);
    let is_runtime = |(ty, _): (u32, u32)| {
        let record = type_record(types, ty).unwrap();
        record[0] == kind::ARRAY && record[2] == DYNAMIC
    };
    let position = rows
        .map_while(|number| member_row(members, number))
        .position(is_runtime)?;
    Some(position as u32)
}
