//! Records in which several rules may fail at once, so that their order counts.

use crate::builder::*;
use crate::recipes::{opaque, push_broken_struct, unsized_type, Finish};
use crate::records::*;

/// A struct whose members are of any sort and stand near all the limits.
pub fn structure(b: &mut Builder) {
    let pool: Vec<u32> = (0..b.random.between(2, 4))
        .map(|_| member_type(b))
        .collect();
    let mut rows = Vec::new();
    let mut end = 0u32;
    let mut furthest = 0u32;
    let mut struct_before = None;
    for _ in 0..b.random.between(1, 5) {
        let ty = b.random.pick(&pool);
        let fact = b.facts[ty as usize];
        let offset = member_offset(b, end, fact.alignment, struct_before);
        rows.push((ty, offset));
        end = offset.saturating_add(fact.size);
        furthest = furthest.max(end);
        struct_before = (fact.kind == kind::STRUCT).then_some((offset, fact.size));
    }
    let span = match b.random.below(8) {
        0 => furthest.saturating_sub(b.random.between(1, 4)),
        1 => u32::MAX - b.random.below(20),
        2 | 3 => furthest,
        _ => round_up(16, u64::from(furthest)).min(u64::from(u32::MAX)) as u32,
    };
    push_broken_struct(b, &rows, span);
}

fn member_type(b: &mut Builder) -> u32 {
    match b.random.weighted(&[4, 3, 2, 2, 5, 2, 1, 1, 1]) {
        0 => b.word_scalar(),
        1 => b.byte_scalar(),
        2 => b.vector(),
        3 => b.ray_query(),
        4 => {
            let span = b.random.pick(&[4, 4, 12, 16, 20, 32]);
            inner_struct(b, span)
        }
        5 => {
            let span = u32::MAX - b.random.below(40);
            inner_struct(b, span)
        }
        6 => opaque(b),
        7 => unsized_type(b, false),
        _ => unsized_type(b, true),
    }
}

fn inner_struct(b: &mut Builder, span: u32) -> u32 {
    let plain = b.word_scalar();
    b.push_struct(&[(plain, 0)], span)
}

fn member_offset(b: &mut Builder, end: u32, alignment: u32, before: Option<(u32, u32)>) -> u32 {
    let aligned = round_up(alignment, u64::from(end)).min(u64::from(u32::MAX)) as u32;
    let distance = match before {
        Some((offset, span)) => u64::from(offset) + round_up(16, u64::from(span)),
        None => u64::from(aligned),
    };
    let distance = distance.min(u64::from(u32::MAX)) as u32;
    match b.random.weighted(&[4, 3, 4, 1, 1, 1, 1, 1]) {
        0 => aligned,
        1 => end,
        2 => distance,
        3 => distance.saturating_sub(b.random.between(1, 4)).max(end),
        4 => end.saturating_add(b.random.between(1, 20)),
        5 => end.saturating_sub(1),
        6 => 0,
        _ => u32::MAX - b.random.below(64),
    }
}

/// Some records whose words are within their sets and otherwise anything, with
/// some capabilities missing.
pub fn records(b: &mut Builder) -> Finish {
    for _ in 0..b.random.between(1, 3) {
        let words = record(b);
        b.push_broken(&words);
    }
    Finish::Without(b.random.word() & b.random.word())
}

fn record(b: &mut Builder) -> [u32; TYPE_WORDS] {
    let kind = b.random.below(14);
    let scalar = b.random.below(6);
    let width = b
        .random
        .pick(&[0, 1, 1, 2, 2, 3, 4, 4, 4, 8, 8, 16, 64, 128, 255]);
    let (small, other) = (b.random.between(2, 4), b.random.between(2, 4));
    let space = b.random.below(10);
    let base = base(b);
    let (form, count) = form_and_count(b);
    let flag = b.random.below(2);
    match kind {
        kind::SCALAR | kind::ATOMIC => [kind, scalar, width, 0, 0, 0],
        kind::VECTOR => [kind, small, scalar, width, 0, 0],
        kind::MATRIX => [kind, small, other, scalar, width, 0],
        kind::COOPERATIVE_MATRIX => [kind, 8, 8 << flag, scalar, width, small - 2],
        kind::POINTER => [kind, base, space, 0, 0, 0],
        kind::VALUE_POINTER => [kind, scalar, width, space, 0, 0],
        kind::ARRAY => [kind, base, form, count, stride(b), 0],
        kind::STRUCT => struct_of_any_rows(b),
        kind::IMAGE => [kind, b.random.below(4), flag, b.random.below(4), 0, 0],
        kind::SAMPLER => [kind, 0, 0, 0, 0, 0],
        kind::BINDING_ARRAY => [kind, base, form, count, 0, 0],
        _ => [kind, flag, 0, 0, 0, 0],
    }
}

/// Mostly an earlier type.
fn base(b: &mut Builder) -> u32 {
    let count = b.count();
    if count == 0 || b.random.one_in(8) {
        return count + b.random.below(3);
    }
    b.random.below(count)
}

fn form_and_count(b: &mut Builder) -> (u32, u32) {
    let limit = MAX_TYPE_SIZE;
    match b.random.one_in(4) {
        true => (DYNAMIC, 0),
        false => (
            CONSTANT,
            b.random.pick(&[1, 2, 3, 1000, limit, limit + 1, u32::MAX]),
        ),
    }
}

fn stride(b: &mut Builder) -> u32 {
    let limit = MAX_TYPE_SIZE;
    b.random
        .pick(&[0, 1, 2, 3, 4, 8, 12, 16, 20, 32, limit, limit + 1, u32::MAX])
}

fn struct_of_any_rows(b: &mut Builder) -> [u32; TYPE_WORDS] {
    let rows = b.member_count();
    let first = b.random.below(rows + 1);
    let count = b.random.below((rows - first).min(5) + 1);
    let small = b.random.below(300);
    let span = b
        .random
        .pick(&[0, 4, 16, 64, small, small, u32::MAX - 16, u32::MAX]);
    [kind::STRUCT, first, count, span, 0, 0]
}
