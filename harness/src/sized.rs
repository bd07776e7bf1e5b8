//! Accepted arenas of a given size, for timing and for full tables.

use crate::builder::{round_up, Builder, FLOAT};
use crate::print;
use crate::random::Random;
use crate::records::*;

/// So many arenas of so many types each, mixed kinds and structs of several
/// members.
pub fn arenas(seed: u64, how_many: usize, types: usize) -> Vec<Arena> {
    arenas_of(seed, how_many, types, |builder| builder.grow())
}

/// The same, of the types that `grow` appends.
pub fn arenas_of(
    seed: u64,
    how_many: usize,
    types: usize,
    grow: fn(&mut Builder) -> u32,
) -> Vec<Arena> {
    let arenas = (0..).map(|index| grown(&mut Random::new(seed, index), types, grow));
    arenas.filter(is_accepted).take(how_many).collect()
}

fn is_accepted(arena: &Arena) -> bool {
    print::reference_of(arena).answer == ACCEPTED
}

fn grown(random: &mut Random, types: usize, grow: fn(&mut Builder) -> u32) -> Arena {
    let mut builder = Builder::new(random);
    builder.largest_member = 64;
    while (builder.count() as usize) < types {
        grow(&mut builder);
    }
    let (mut arena, _) = builder.into_arena();
    arena.types.truncate(TYPE_WORDS * types);
    arena.capabilities = ALL_CAPABILITIES;
    arena.rows_len = ROW_WORDS * types;
    arena
}

/// Scalar, vectors, array and struct; the struct's member is row 0.
const MEMBER_TYPES: [[u32; TYPE_WORDS]; 5] = [
    [kind::SCALAR, FLOAT, 4, 0, 0, 0],
    [kind::VECTOR, 2, FLOAT, 4, 0, 0],
    [kind::VECTOR, 4, FLOAT, 4, 0, 0],
    [kind::ARRAY, 0, CONSTANT, 4, 16, 0],
    [kind::STRUCT, 0, 1, 16, 0, 0],
];
const MEMBER_SIZES: [u32; MEMBER_TYPES.len()] = [4, 8, 16, 64, 16];

/// One struct with so many members, one after the other.
pub fn one_struct(members: usize) -> Arena {
    let mut offset = 0;
    let row = |number: usize| {
        let ty = number % MEMBER_TYPES.len();
        let place = round_up(16, u64::from(offset)) as u32;
        offset = place + MEMBER_SIZES[ty];
        member(ty as u32, place)
    };
    struct_of((0..members).map(row).collect())
}

/// One struct with so many members, which lie over the 256 bytes of the slots
/// again and again, so that its walk is accepted.
pub fn one_struct_in_slots(members: usize) -> Arena {
    let row = |number: usize| member(0, 4 * (number as u32 % 64));
    struct_of((0..members).map(row).collect())
}

fn struct_of(rows: Vec<[u32; MEMBER_WORDS]>) -> Arena {
    let end = rows.iter().map(|row| row[1]).max().unwrap_or(0);
    let span = round_up(16, u64::from(end) + 64) as u32;
    let mut types = MEMBER_TYPES.to_vec();
    types.push([kind::STRUCT, 0, rows.len() as u32, span, 0, 0]);
    Arena {
        capabilities: 0,
        ..accepted_arena(types, rows)
    }
}

/// The arena of these records, with every capability.
pub fn accepted_arena(types: Vec<[u32; TYPE_WORDS]>, rows: Vec<[u32; MEMBER_WORDS]>) -> Arena {
    let arena = Arena {
        rows_len: ROW_WORDS * types.len(),
        types: types.into_flattened(),
        members: rows.into_flattened(),
        capabilities: ALL_CAPABILITIES,
        rule: OLDER,
    };
    assert!(is_accepted(&arena));
    arena
}
