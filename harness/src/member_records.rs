//! Writes arenas for the program in member_records/, which runs the calls over
//! member records beside the word core. The port is not called here.

use crate::random::Random;
use crate::records::*;
use crate::{generator, place_calls, print, slot_calls};
use std::path::Path;

const MOST_STEPS: usize = 64;
/// The larger tables are left out, but for one in `RARELY`: the program also
/// runs on an interpreter.
const MOST_WORDS: usize = 200;
const RARELY: u32 = 50;
/// The words of the program's buffers.
const LONGEST: (usize, usize, usize) = (6200, 16400, ROW_WORDS * MAX_TYPES);

/// Writes `stdin`, and in `stdout` how many arenas the reference accepts.
pub fn member_records(count: u64, seed: u64, folder: &str) -> bool {
    let (mut words, mut accepted, mut taken, mut index) = (Vec::new(), 0, 0, 0);
    while taken < count {
        let mut random = Random::new(!seed, index);
        let arena = arena(seed, index, &mut random);
        index += 1;
        if !fits(&arena, &mut random) {
            continue;
        }
        taken += 1;
        accepted += u64::from(print::reference_of(&arena).answer == ACCEPTED);
        write_arena(&mut words, &arena, &mut random);
    }
    let bytes: Vec<u8> = words
        .iter()
        .flat_map(|word: &u32| word.to_le_bytes())
        .collect();
    std::fs::write(Path::new(folder).join("stdin"), bytes).unwrap();
    let said = format!("{taken} arenas alike, {accepted} accepted\n");
    std::fs::write(Path::new(folder).join("stdout"), said).unwrap();
    true
}

/// One in a hundred has about as many records as there can be, or one more.
fn arena(seed: u64, index: u64, random: &mut Random) -> Arena {
    let mut arena = match index % 2 {
        0 => generator::mostly_sound(seed, index),
        _ => generator::arena(seed, index),
    };
    if index % 100 == 99 {
        let records = MAX_MEMBERS - 1 + random.below(4) as usize;
        arena.members.resize(records * MEMBER_WORDS, 0);
    }
    arena
}

/// Words that are not whole rows are not a run of records.
fn fits(arena: &Arena, random: &mut Random) -> bool {
    let large = random.one_in(RARELY) || arena.members.len() >= (MAX_MEMBERS - 1) * MEMBER_WORDS;
    let small = arena.types.len() <= MOST_WORDS && arena.members.len() <= MOST_WORDS;
    arena.members.len().is_multiple_of(MEMBER_WORDS)
        && arena.types.len() <= LONGEST.0
        && arena.members.len() <= LONGEST.1
        && arena.rows_len <= LONGEST.2
        && (large || small)
}

fn write_arena(words: &mut Vec<u32>, arena: &Arena, random: &mut Random) {
    let (start, mut steps) = place_calls::start_and_steps(random, arena);
    steps.truncate(MOST_STEPS);
    let (ty, offset) = (
        slot_calls::walked_type(random, arena),
        slot_calls::start(random),
    );
    words.extend([
        arena.types.len() as u32,
        arena.member_count() as u32,
        steps.len() as u32,
        arena.rows_len as u32,
        arena.capabilities,
        start,
        ty,
        offset,
    ]);
    words.extend(&arena.types);
    words.extend(&arena.members);
    words.extend(&steps);
}
