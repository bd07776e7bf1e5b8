//! One arena for a seed and an index: sound, damaged, or made for a number.

use crate::blend;
use crate::builder::{Builder, FLOAT};
use crate::damage;
use crate::random::Random;
use crate::recipes::{self, Finish};
use crate::records::*;

pub fn arena(seed: u64, index: u64) -> Arena {
    let random = &mut Random::new(seed, index);
    let sort = random.weighted(&[36, 14, 50]);
    let number = if sort == 2 {
        recipes::choose(random)
    } else {
        0
    };
    let (mut arena, finish) = build(random, number);
    damage::finish(random, &mut arena, finish);
    if sort == 1 || (sort == 2 && random.one_in(10)) {
        damage::at_random(random, &mut arena);
    }
    arena
}

/// For calls that go on when the arena is judged: mostly sound and small.
pub fn mostly_sound(seed: u64, index: u64) -> Arena {
    let random = &mut Random::new(seed, index);
    match random.weighted(&[50, 28, 8, 4, 10]) {
        0 => small(random),
        1 => nested(random),
        2 => build(random, 0).0,
        3 => {
            let mut arena = small(random);
            damage::at_random(random, &mut arena);
            arena
        }
        _ => arena(seed, index),
    }
}

/// A sound arena whose structs mostly fit in the immediates.
fn small(random: &mut Random) -> Arena {
    let (plain, composite) = (random.between(2, 10), random.below(5));
    let largest_member = random.pick(&[8, 16, 32, 64]);
    let mut builder = Builder::new(random);
    builder.usual_members = 5;
    builder.largest_member = largest_member;
    if builder.random.one_in(12) {
        builder.far_and_empty();
    }
    if builder.random.one_in(12) {
        blend::structure(&mut builder);
    }
    grown(builder, plain, composite)
}

/// For the report: mostly sound, of types that hosts may share.
pub fn mostly_shareable(seed: u64, index: u64) -> Arena {
    let random = &mut Random::new(seed, index);
    match random.weighted(&[70, 8, 22]) {
        0 => shareable(random),
        1 => {
            let mut arena = shareable(random);
            damage::at_random(random, &mut arena);
            arena
        }
        _ => mostly_sound(seed, index),
    }
}

/// A sound arena with arrays and structs in one another, several over the same
/// members.
fn shareable(random: &mut Random) -> Arena {
    let (plain, composite) = (random.between(1, 4), random.between(2, 12));
    let largest_member = random.pick(&[16, 64, 256, 2048, 1 << 20]);
    let mut builder = Builder::new(random);
    builder.usual_members = 4;
    builder.largest_member = largest_member;
    for _ in 0..plain {
        match builder.random.below(4) {
            0 => builder.word_scalar(),
            1 => builder.atomic(),
            2 => builder.vector(),
            _ => builder.matrix(),
        };
    }
    with_composites(builder, composite)
}

/// A float, then structs that each hold the type before them twice.
pub fn doubled(levels: u32) -> Arena {
    let mut types = vec![kind::SCALAR, FLOAT, 4, 0, 0, 0];
    let mut members = Vec::new();
    for level in 0..levels {
        let size = 4 << level;
        types.extend([kind::STRUCT, 2 * level, 2, 2 * size, 0, 0]);
        members.extend(member(level, 0));
        members.extend(member(level, size));
    }
    Arena {
        rows_len: ROW_WORDS * types.len() / TYPE_WORDS,
        types,
        members,
        capabilities: 0,
        rule: OLDER,
    }
}

/// A sound arena with arrays and structs in one another.
fn nested(random: &mut Random) -> Arena {
    let (plain, composite) = (random.between(1, 4), random.between(4, 16));
    let mut builder = Builder::new(random);
    builder.usual_members = 3;
    grown(builder, plain, composite)
}

/// So many types of any kind, then so many arrays and structs.
fn grown(mut builder: Builder, plain: u32, composite: u32) -> Arena {
    for _ in 0..plain {
        builder.grow();
    }
    with_composites(builder, composite)
}

/// So many arrays and structs after the others.
fn with_composites(mut builder: Builder, composite: u32) -> Arena {
    for _ in 0..composite {
        match builder.random.one_in(3) {
            true => builder.array(),
            false => builder.structure(),
        };
    }
    let (mut arena, random) = builder.into_arena();
    complete(random, &mut arena);
    arena
}

/// A sound arena, with the records that the number wants somewhere in it.
fn build(random: &mut Random, number: u32) -> (Arena, Finish) {
    let large = random.one_in(500);
    let (before, after) = sizes(random, large);
    let mut builder = Builder::new(random);
    if large {
        builder.usual_members = 30;
    }
    for _ in 0..before {
        builder.grow();
    }
    let finish = match number {
        0 => Finish::Nothing,
        _ => recipes::add(&mut builder, number),
    };
    // A third of the arenas have blend sources.
    if builder.random.one_in(3) {
        blend::structure(&mut builder);
    }
    for _ in 0..after {
        builder.grow();
    }
    let (mut arena, random) = builder.into_arena();
    if large {
        cut_to_limits(random, &mut arena);
    }
    complete(random, &mut arena);
    (arena, finish)
}

/// What stands beside the records that the builder made.
fn complete(random: &mut Random, arena: &mut Arena) {
    add_capabilities(random, arena);
    blend::sprinkle(random, arena);
    add_unused_members(random, arena);
    arena.rows_len = ROW_WORDS * arena.type_count() + spare_words(random);
}

/// How many types stand before and after a recipe's.
fn sizes(random: &mut Random, large: bool) -> (u32, u32) {
    if large {
        let count = random.pick(&[200, 500, 1000, 1016]);
        let after = random.below(count);
        return (count - after, after);
    }
    match random.below(20) {
        0 => (random.below(3), 0),
        1 | 2 => (random.between(12, 30), random.below(10)),
        _ => (random.between(1, 14), random.below(5)),
    }
}

/// Large arenas come to just 1,024 types or 4,096 members, if not above them.
fn cut_to_limits(random: &mut Random, arena: &mut Arena) {
    if random.one_in(2) {
        arena.types.truncate(TYPE_WORDS * MAX_TYPES);
        damage::fill_types(arena, MAX_TYPES);
    }
    if random.one_in(2) && arena.member_count() < MAX_MEMBERS {
        arena.members.resize(MEMBER_WORDS * MAX_MEMBERS, 0);
    }
}

fn add_capabilities(random: &mut Random, arena: &mut Arena) {
    arena.capabilities |= match random.below(4) {
        0 => 0,
        1 => random.word() & ALL_CAPABILITIES,
        _ => ALL_CAPABILITIES,
    };
}

/// Rows that no struct names may hold anything.
fn add_unused_members(random: &mut Random, arena: &mut Arena) {
    if random.one_in(8) && arena.member_count() < MAX_MEMBERS {
        arena
            .members
            .extend([0; MEMBER_WORDS].map(|_| random.word()));
    }
}

fn spare_words(random: &mut Random) -> usize {
    match random.below(3) {
        0 => random.between(1, 40) as usize,
        _ => 0,
    }
}

/// A number that is no type of the arena.
pub fn number_outside(random: &mut Random, count: u32) -> u32 {
    // Six times this number wraps in 32 bits.
    let wraps = (u64::from(u32::MAX) + 1).div_ceil(TYPE_WORDS as u64) as u32;
    let later = count.saturating_add(random.below(5));
    random.pick(&[
        count,
        later,
        wraps,
        wraps + later,
        1 << 31,
        u32::MAX - 1,
        u32::MAX,
    ])
}
