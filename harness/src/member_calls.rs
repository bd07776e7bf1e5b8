//! Compares the member part over raw tables, sound or not.

use crate::guarded::Guarded;
use crate::histogram::Histogram;
use crate::random::Random;
use crate::records::*;
use crate::{damage, generator, members, port, print};

pub fn members(count: u64, seed: u64) -> bool {
    let mut histogram = Histogram::default();
    for index in 0..count {
        let random = &mut Random::new(!seed, index);
        let (tables, number) = tables_and_number(random, seed, index);
        let owed = members::part(&tables.types, &tables.members, number);
        histogram.note(sort_of(&tables, number, owed));
        if let Some(difference) = difference(&tables, number, owed, random) {
            println!("seed {seed}, index {index}, type {number}: {difference}");
            print::arena(&tables);
            println!("{} cases, then a difference", index + 1);
            return false;
        }
    }
    histogram.print();
    println!("{count} cases, 0 differences");
    true
}

fn difference(tables: &Arena, number: u32, owed: [u64; 2], random: &mut Random) -> Option<String> {
    let mut part = Guarded::new(owed.len(), random, Random::next);
    port::members(&tables.types, &tables.members, number, part.lend());
    if part.now() != owed {
        let found = part.now();
        return Some(format!("part of the port {found:?}, of 01 {owed:?}"));
    }
    let touched = part.margins_are_touched();
    touched.then(|| "words beside the part are touched".to_string())
}

fn sort_of(tables: &Arena, number: u32, owed: [u64; 2]) -> &'static str {
    match type_record(&tables.types, number) {
        _ if owed != [0, 0] => "part",
        None => "empty: outside",
        Some(record) if record[0] != kind::STRUCT => "empty: no struct",
        Some(record) if record[2] == 0 => "empty: no members",
        Some(_) => "empty: past the table",
    }
}

/// Tables of any sort, some cut anywhere, some too long, some with any words.
fn tables_and_number(random: &mut Random, seed: u64, index: u64) -> (Arena, u32) {
    let mut arena = match random.below(4) {
        0 => generator::arena(seed, index),
        1 => any_words(random),
        _ => generator::mostly_sound(seed, index),
    };
    if random.one_in(50) {
        damage::fill_types(&mut arena, MAX_TYPES + 20);
    }
    if random.one_in(50) {
        arena.members.resize(MEMBER_WORDS * (MAX_MEMBERS + 20), 0);
    }
    if random.one_in(3) {
        cut(random, &mut arena.types);
    }
    if random.one_in(3) {
        cut(random, &mut arena.members);
    }
    let number = number(random, &arena);
    if random.one_in(2) {
        move_rows(random, &mut arena, number);
    }
    (arena, number)
}

fn cut(random: &mut Random, words: &mut Vec<u32>) {
    let length = random.below(words.len() as u32 + 1);
    words.truncate(length as usize);
}

fn any_words(random: &mut Random) -> Arena {
    let small = |random: &mut Random| match random.below(4) {
        0 => random.word(),
        1 => kind::STRUCT,
        _ => random.below(12),
    };
    let (types, members) = (random.below(60), random.below(40));
    Arena {
        types: (0..types).map(|_| small(random)).collect(),
        members: (0..members).map(|_| small(random)).collect(),
        ..Arena::default()
    }
}

/// Makes the record a struct whose rows end about where the table does, or far
/// from it, where sums and products of 32 bits wrap.
fn move_rows(random: &mut Random, arena: &mut Arena, number: u32) {
    let (count, rows) = (arena.type_count() as u32, arena.member_count() as u32);
    if number >= count {
        return;
    }
    let first = random.below(rows + 2);
    let left = rows.saturating_sub(first);
    let near = random.pick(&[left, left, left + 1, left.saturating_sub(1), 0, 1]);
    let (first, rows) = match random.below(8) {
        0 => (first | 1 << 31, near),
        1 => (first, near | 1 << 31),
        2 => (first, first.wrapping_neg().wrapping_add(near)),
        3 => (u32::MAX - near, random.between(1, 4)),
        _ => (first, near),
    };
    let record = &mut arena.types[TYPE_WORDS * number as usize..];
    record[..3].copy_from_slice(&[kind::STRUCT, first, rows]);
}

/// Mostly a struct's number.
pub fn number(random: &mut Random, tables: &Arena) -> u32 {
    let count = tables.type_count() as u32;
    if count == 0 || random.one_in(8) {
        return generator::number_outside(random, count);
    }
    let mut choices = (0..3).map(|_| random.below(count));
    let is_struct = |&ty: &u32| tables.types[TYPE_WORDS * ty as usize] == kind::STRUCT;
    let found = choices.find(is_struct);
    found.unwrap_or_else(|| random.below(count))
}
