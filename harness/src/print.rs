//! Arenas in a form that can be typed in again.

use crate::records::*;
use crate::reference::{self, Outcome};

pub fn reference_of(arena: &Arena) -> Outcome {
    reference::check(
        &arena.types,
        &arena.members,
        arena.capabilities,
        arena.rule,
        arena.rows_len,
    )
}

pub fn arena(arena: &Arena) {
    println!("types: {:?}", arena.types);
    println!("members: {:?}", arena.members);
    println!("capabilities: {:#x}", arena.capabilities);
    println!("rule: {}", arena.rule);
    println!("length of rows: {}", arena.rows_len);
    for (number, record) in arena.types.chunks(TYPE_WORDS).enumerate() {
        println!("  type {number}: {record:?}");
    }
    for (number, record) in arena.members.chunks(MEMBER_WORDS).enumerate() {
        println!("  member {number}: {record:?}");
    }
}

/// An arena with what the reference makes of it.
pub fn arena_and_reference(tables: &Arena) {
    arena(tables);
    let layout = reference::layout(&tables.types, &tables.members, tables.rows_len);
    println!("layout answer: {:?}", layout.answer);
    for (number, layout) in layout.layouts.iter().flatten().enumerate() {
        println!("  {number}: size {}, alignment {}", layout.0, layout.1);
    }
    let outcome = reference_of(tables);
    println!("check answer: {:?}", outcome.answer);
    if let Some(site) = &outcome.panic_site {
        println!("  the Rust panics at {site}");
    }
    for (number, row) in outcome.rows.iter().flatten().enumerate() {
        println!("  {number}: {row:?}");
    }
}
