//! Structs with locations and blend sources. The reference decides what they
//! get.

use crate::builder::*;
use crate::random::Random;
use crate::records::*;

/// Locations and sources as they are stored, value plus one.
const LOCATION_0: u32 = 1;
const SOURCE_0: u32 = 1;
const SOURCE_1: u32 = 2;

/// A struct with one or two sources, mostly as they should be.
pub fn structure(b: &mut Builder) {
    let first = source_type(b);
    let second = match b.random.weighted(&[14, 3, 3]) {
        0 => first,
        1 => twin(b, first),
        _ => source_type(b),
    };
    let mut sources = [SOURCE_0, SOURCE_1];
    if b.random.one_in(2) {
        sources.reverse();
    }
    let mut rows = vec![
        (first, (LOCATION_0, sources[0])),
        (second, (LOCATION_0, sources[1])),
    ];
    spoil(b, &mut rows);
    for _ in 0..b.random.below(3) {
        let plain = (b.word_scalar(), (0, 0));
        let at = b.random.below(rows.len() as u32 + 1) as usize;
        rows.insert(at, plain);
    }
    if b.random.one_in(8) {
        let at = b.random.below(rows.len() as u32) as usize;
        rows[at].1 = (b.random.between(1, 3), 0);
    }
    push(b, &rows);
    if !b.random.one_in(12) {
        b.needed |= DUAL_SOURCE_BLENDING;
    }
}

/// Mostly one that is IO-shareable.
fn source_type(b: &mut Builder) -> u32 {
    match b.random.weighted(&[6, 8, 2, 1, 1, 2, 3]) {
        0 => b.word_scalar(),
        1 => b.vector(),
        2 => b.byte_scalar(),
        3 => b.matrix(),
        4 => b.atomic(),
        5 => {
            let base = b.word_scalar();
            b.push_array(base, CONSTANT, 2, 4)
        }
        _ => {
            let plain = b.word_scalar();
            b.push_struct(&[(plain, 0)], 4)
        }
    }
}

/// Another type with the same record; an array over another element.
fn twin(b: &mut Builder, ty: u32) -> u32 {
    let fact = b.facts[ty as usize];
    let start = TYPE_WORDS * ty as usize;
    let mut words = b.types[start..start + TYPE_WORDS].to_vec();
    if fact.kind == kind::ARRAY && b.random.one_in(2) {
        words[1] = twin(b, words[1]);
    }
    b.push(&words, fact)
}

/// Any location and source.
fn binding(b: &mut Builder) -> (u32, u32) {
    let any = b.random.word();
    let location = b.random.pick(&[0, 1, 1, 1, 2, 3, u32::MAX, any]);
    let source = b.random.pick(&[0, 0, 1, 2, 3, 4, u32::MAX, any]);
    (location, source)
}

/// Makes the pair one that some rule refuses, in half of the cases.
fn spoil(b: &mut Builder, rows: &mut [(u32, (u32, u32))]) {
    let at = b.random.below(2) as usize;
    match b.random.weighted(&[20, 4, 5, 3, 4, 2, 2]) {
        0 => {}
        1 => rows[at].1 .1 = b.random.pick(&[3, 4, u32::MAX]),
        2 => rows[at].1 = rows[1 - at].1,
        3 => rows[at].1 .0 = b.random.pick(&[2, 3, u32::MAX]),
        4 => rows[at].1 = (b.random.below(3), 0),
        5 => rows[at].1 .0 = 0,
        _ => rows[at].1 = binding(b),
    }
}

fn push(b: &mut Builder, rows: &[(u32, (u32, u32))]) {
    let mut offset = 0;
    let mut members = Vec::new();
    for &(ty, _) in rows {
        let fact = b.facts[ty as usize];
        let at = round_up(fact.alignment.max(16), offset);
        members.push((ty, at as u32));
        offset = at + u64::from(fact.size);
    }
    let short = u64::from(b.random.one_in(16));
    let first = b.member_count();
    b.push_struct(&members, (round_up(16, offset) - short) as u32);
    for (number, &(_, binding)) in (first..).zip(rows) {
        set(&mut b.members, number, binding);
    }
}

/// In some of the arenas some rows get locations, and some of them sources.
pub fn sprinkle(random: &mut Random, arena: &mut Arena) {
    let count = arena.member_count() as u32;
    if count == 0 || !random.one_in(24) {
        return;
    }
    for _ in 0..random.between(1, 3) {
        let source = random.pick(&[0, 0, 0, SOURCE_0, SOURCE_1]);
        let location = random.pick(&[LOCATION_0, LOCATION_0, 2, 7]);
        let number = random.below(count);
        set(&mut arena.members, number, (location, source));
    }
}

fn set(members: &mut [u32], number: u32, (location, source): (u32, u32)) {
    let row = &mut members[MEMBER_WORDS * number as usize..];
    row[2..MEMBER_WORDS].copy_from_slice(&[location, source]);
}
