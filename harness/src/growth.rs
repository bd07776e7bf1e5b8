//! Term 3's conclusion about arenas that grow: more capabilities, more types,
//! more member rows.

use crate::histogram::Histogram;
use crate::random::Random;
use crate::records::*;
use crate::{place, print};

/// Adds capabilities to an accepted arena, then takes its last types away.
pub fn try_growth(
    arena: &Arena,
    rows: &[Row],
    random: &mut Random,
    histogram: &mut Histogram,
) -> Result<(), String> {
    let mut richer = arena.clone();
    richer.capabilities |= random.word() & ALL_CAPABILITIES;
    let richer_rows = print::reference_of(&richer).rows;
    let richer_rows = richer_rows.ok_or("refused with more capabilities")?;
    histogram.note("capabilities added");
    compare_kept(&richer_rows, rows)?;

    let shorter = shortened(random, arena);
    let Some(shorter_rows) = print::reference_of(&shorter).rows else {
        return Ok(());
    };
    histogram.note("types appended");
    compare_kept(&shorter_rows, &richer_rows)?;
    compare_places(random, &shorter, &richer)
}

/// The first types, with as many of the first member rows as they name.
fn shortened(random: &mut Random, arena: &Arena) -> Arena {
    let mut shorter = arena.clone();
    let types = random.below(arena.type_count() as u32 + 1) as usize;
    shorter.types.truncate(TYPE_WORDS * types);
    let structs = shorter
        .types
        .chunks_exact(TYPE_WORDS)
        .filter(|w| w[0] == kind::STRUCT);
    let named = structs.map(|w| w[1] + w[2]).max().unwrap_or(0);
    shorter.members.truncate(MEMBER_WORDS * named as usize);
    shorter
}

/// Size, flags and storage verdict of each type that both have.
fn compare_kept(before: &[Row], after: &[Row]) -> Result<(), String> {
    let kept = |row: &Row| (row[0], row[2], [row[8], row[9], row[10], row[11], row[12]]);
    for (number, (before, after)) in before.iter().zip(after).enumerate() {
        if kept(before) != kept(after) {
            return Err(format!("row {number} was {before:?}, is {after:?}"));
        }
    }
    Ok(())
}

/// A few lists of steps from each type, most of them no place.
fn compare_places(random: &mut Random, before: &Arena, after: &Arena) -> Result<(), String> {
    for start in 0..before.type_count() as u32 {
        let length = random.below(4);
        let steps: Vec<u32> = (0..length).map(|_| random.below(4)).collect();
        let find = |arena: &Arena| place::of(&arena.types, &arena.members, start, &steps);
        if find(before) != find(after) {
            return Err(format!("another place from {start} by {steps:?}"));
        }
    }
    Ok(())
}
