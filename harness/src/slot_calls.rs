//! Compares the two slot calls.

use crate::compare::{run, Case};
use crate::histogram::Histogram;
use crate::random::Random;
use crate::records::*;
use crate::reference::Expected;
use crate::{generator, port, print, slots};

/// Shared structs can make a walk as long as one likes; longer ones than this
/// are left out.
pub const LONGEST_WALK: u64 = 20_000;

pub fn range(count: u64, seed: u64) -> bool {
    let no_arena = |_, _| Arena::default();
    run(count, seed, no_arena, |_, random, histogram| {
        let (offset, size) = offset_and_size(random);
        let expected = slots::range(offset, size);
        count_masks(histogram, &expected);
        Case {
            asked: vec![offset, size],
            expected: perhaps_shorter(random, expected),
            call: Box::new(move |lent| port::range(offset, size, lent)),
        }
    })
}

pub fn slots(count: u64, seed: u64) -> bool {
    run(
        count,
        seed,
        generator::mostly_sound,
        |arena, random, histogram| {
            let (ty, offset) = (walked_type(random, arena), start(random));
            let expected = slots::walk(print::reference_of(arena), ty, offset);
            count_masks(histogram, &expected);
            Case {
                asked: vec![ty, offset],
                expected: perhaps_shorter(random, expected),
                call: Box::new(move |lent| port::slots(arena, ty, offset, lent)),
            }
        },
    )
}

fn count_masks(histogram: &mut Histogram, expected: &Expected) {
    histogram.count_answer(expected.answer);
    let (touched, partly) = (expected.output[0], expected.output[1]);
    histogram.note(match (expected.answer[0], touched, partly) {
        (0, 0, _) => "empty masks",
        (0, _, 0) => "no slot in part",
        (0, _, _) if touched == partly => "all slots in part",
        (0, _, _) => "some slots in part",
        (slots::PAST_THE_SLOTS, ..) => "25",
        (NO_SUCH, ..) => "26",
        _ => "arena refused",
    });
}

/// A buffer of one word is owed the first mask, and one of none nothing.
fn perhaps_shorter(random: &mut Random, mut expected: Expected) -> Expected {
    if random.one_in(8) {
        expected.output.truncate(random.below(2) as usize);
    }
    expected
}

pub fn offset_and_size(random: &mut Random) -> (u32, u32) {
    let offset = near_an_edge(random);
    let (to_the_last_slot, to_the_last_byte) = (256u32.wrapping_sub(offset), offset.wrapping_neg());
    let size = match random.below(10) {
        0 => 0,
        1 | 2 => about(random, to_the_last_slot),
        3 => about(random, to_the_last_byte),
        4..=6 if offset < 256 => random.between(1, to_the_last_slot),
        _ => near_an_edge(random),
    };
    (offset, size)
}

/// At most four away.
fn about(random: &mut Random, number: u32) -> u32 {
    number.wrapping_add(random.below(9)).wrapping_sub(4)
}

fn near_an_edge(random: &mut Random) -> u32 {
    let edge = match random.below(16) {
        0..=6 => return random.below(300),
        7..=9 => 4 * random.below(70),
        10 | 11 => 256,
        12 => 256 * random.below(1 << 24),
        13 => 1 << random.below(32),
        14 => 0,
        _ => return random.word(),
    };
    about(random, edge)
}

/// Mostly a type of the arena, structs preferred.
pub fn walked_type(random: &mut Random, arena: &Arena) -> u32 {
    let count = arena.type_count() as u32;
    if count == 0 || random.one_in(20) {
        return generator::number_outside(random, count);
    }
    let lengths = walk_lengths(arena);
    let mut choices = (0..3).map(|_| random.below(count));
    let is_struct = |&ty: &u32| {
        let kind = arena.types[TYPE_WORDS * ty as usize];
        kind == kind::STRUCT && lengths[ty as usize] <= LONGEST_WALK
    };
    if let Some(ty) = choices.find(is_struct) {
        return ty;
    }
    let ty = random.below(count);
    let short = lengths[ty as usize] <= LONGEST_WALK;
    if short {
        ty
    } else {
        0
    }
}

/// How many parts each type's walk comes to. Members that are no earlier types
/// count one: such an arena is refused and not walked.
pub fn walk_lengths(arena: &Arena) -> Vec<u64> {
    let mut lengths: Vec<u64> = Vec::with_capacity(arena.type_count());
    for w in arena.types.chunks_exact(TYPE_WORDS) {
        let rows = arena.rows_of(w);
        let parts = rows.map(|(ty, _)| lengths.get(ty as usize).copied().unwrap_or(1));
        lengths.push(match w[0] {
            kind::STRUCT => parts.fold(0, u64::saturating_add),
            _ => 1,
        });
    }
    lengths
}

/// Where the walk starts.
pub fn start(random: &mut Random) -> u32 {
    match random.weighted(&[9, 4, 4, 2, 2, 1]) {
        0 => 0,
        1 => 4 * random.below(32),
        2 => random.below(128),
        3 => random.between(200, 260),
        4 => u32::MAX - random.below(300),
        _ => near_an_edge(random),
    }
}
