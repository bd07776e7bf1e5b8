//! Accepted arenas of one shape each, for timing: what mixed arenas have few of.

use crate::builder::{Builder, FLOAT};
use crate::records::*;
use crate::sized;

type Record = [u32; TYPE_WORDS];
type MemberRow = [u32; MEMBER_WORDS];

const F32: Record = [kind::SCALAR, FLOAT, 4, 0, 0, 0];
const F16: Record = [kind::SCALAR, FLOAT, 2, 0, 0, 0];
const FOUR_F32: Record = [kind::ARRAY, 0, CONSTANT, 4, 4, 0];
const RUNTIME_F32: Record = [kind::ARRAY, 0, DYNAMIC, 0, 4, 0];
/// Its member is the first row of the table.
const STRUCT_OF_F32: Record = [kind::STRUCT, 0, 1, 4, 0, 0];
const F32_AT_0: MemberRow = member(0, 0);
/// How many small structs a table has beside the two types before them.
const STRUCTS: usize = MAX_TYPES - 2;
const SEED: u64 = 1;

pub fn all() -> Vec<(&'static str, Arena)> {
    vec![
        (
            "4096 f32, the first two at offset 0",
            large_struct(F32, &[], 0),
        ),
        (
            "struct{f32}, then 4094 f32 at 4, 8, ..",
            large_struct(STRUCT_OF_F32, &[F32_AT_0], 4),
        ),
        ("an f16, then 4095 f32", large_struct(F16, &[], 4)),
        (
            "array<f32,4> of stride 4, then 4095 f32",
            large_struct(FOUR_F32, &[], 16),
        ),
        (
            "1022 structs {struct{f32}, f32 at 4, f32 at 8}",
            small_structs(
                STRUCT_OF_F32,
                &[F32_AT_0],
                &[member(1, 0), member(0, 4), member(0, 8)],
                12,
            ),
        ),
        (
            "1022 structs {f32, array<f32>}",
            small_structs(RUNTIME_F32, &[], &[F32_AT_0, member(1, 4)], 8),
        ),
        ("1022 structs of 4 f32", structs_of_f32()),
        ("plain kinds only, mixed", plain_types()),
        (
            "plain kinds only, one kind after the other",
            by_kind(plain_types()),
        ),
        ("arrays only", grown(|builder| builder.array())),
    ]
}

pub fn structs_of_f32() -> Arena {
    let members = [F32_AT_0, member(0, 4), member(0, 8), member(0, 12)];
    small_structs(F32, &[], &members, 16)
}

/// One struct of all member rows but those of `first`: type 1, which is `first`,
/// at offset 0, then one f32 after the other from `next` on.
fn large_struct(first: Record, rows_of_first: &[MemberRow], next: u32) -> Arena {
    let mut rows = rows_of_first.to_vec();
    rows.push(member(1, 0));
    let left = (MAX_MEMBERS - rows.len()) as u32;
    rows.extend((0..left).map(|number| member(0, next + 4 * number)));
    let start = rows_of_first.len() as u32;
    let record = [kind::STRUCT, start, left + 1, next + 4 * left, 0, 0];
    sized::accepted_arena(vec![F32, first, record], rows)
}

/// Structs of the same members, each with rows of its own; type 1 is `other`.
fn small_structs(
    other: Record,
    rows_of_other: &[MemberRow],
    members: &[MemberRow],
    span: u32,
) -> Arena {
    let mut types = vec![F32, other];
    let mut rows = rows_of_other.to_vec();
    for _ in 0..STRUCTS {
        let (first, count) = (rows.len() as u32, members.len() as u32);
        types.push([kind::STRUCT, first, count, span, 0, 0]);
        rows.extend(members);
    }
    sized::accepted_arena(types, rows)
}

fn plain_types() -> Arena {
    grown(|builder| builder.plain_type())
}

/// The same types in the order of their kinds; none may name another.
fn by_kind(arena: Arena) -> Arena {
    let mut records: Vec<&[u32]> = arena.types.chunks_exact(TYPE_WORDS).collect();
    records.sort_by_key(|record| record[0]);
    let types = records.concat();
    Arena { types, ..arena }
}

fn grown(grow: fn(&mut Builder) -> u32) -> Arena {
    sized::arenas_of(SEED, 1, MAX_TYPES, grow).remove(0)
}
