//! Damage to a finished arena: single words, lengths, capability bits.

use crate::random::Random;
use crate::recipes::Finish;
use crate::records::*;

const INTERESTING: [u32; 27] = [
    0,
    1,
    2,
    3,
    4,
    5,
    7,
    8,
    12,
    13,
    14,
    15,
    16,
    17,
    31,
    32,
    255,
    256,
    1024,
    65536,
    (1 << 31) - 1,
    1 << 31,
    (1 << 31) + 1,
    u32::MAX - 16,
    u32::MAX - 15,
    u32::MAX - 1,
    u32::MAX,
];

/// One to three changes of any sort.
pub fn at_random(random: &mut Random, arena: &mut Arena) {
    for _ in 0..random.between(1, 3) {
        match random.below(20) {
            0 => wrong_length(random, arena),
            1 => arena.capabilities &= !(1 << random.below(CAPABILITY_BITS)),
            2..=10 => change_word(random, &mut arena.types, arena.rows_len, any_word),
            _ => change_word(random, &mut arena.members, arena.rows_len, member_word),
        }
    }
}

fn any_word(random: &mut Random, words: u32) -> u32 {
    random.below(words)
}

/// Mostly a type or an offset: a blend source alone is number 2.
fn member_word(random: &mut Random, words: u32) -> u32 {
    let index = random.below(words);
    match random.one_in(4) {
        true => index,
        false => index & !2,
    }
}

fn change_word(
    random: &mut Random,
    words: &mut [u32],
    rows_len: usize,
    choose: fn(&mut Random, u32) -> u32,
) {
    if words.is_empty() {
        return;
    }
    let index = choose(random, words.len() as u32) as usize;
    let old = words[index];
    words[index] = match random.below(6) {
        0 | 1 => random.pick(&INTERESTING),
        2 => old.wrapping_add(random.pick(&[1, 4, 12, 16])),
        3 => old.wrapping_sub(random.pick(&[1, 4, 12, 16])),
        4 => random.below((rows_len / ROW_WORDS) as u32 + 2),
        _ => words[random.below(words.len() as u32) as usize],
    };
}

/// Lengths that are no whole records, too long or too short, or a bit too many.
pub fn wrong_length(random: &mut Random, arena: &mut Arena) {
    match random.below(8) {
        0 => lengthen(random, &mut arena.types, TYPE_WORDS),
        1 => shorten(random, &mut arena.types, TYPE_WORDS),
        2 => lengthen(random, &mut arena.members, MEMBER_WORDS),
        3 => shorten(random, &mut arena.members, MEMBER_WORDS),
        4 => too_many(random, arena),
        5 => arena.capabilities |= 1 << random.between(CAPABILITY_BITS, 31),
        _ => {
            let exact = ROW_WORDS * arena.type_count();
            arena.rows_len = exact - random.between(0, 20).min(exact as u32) as usize;
        }
    }
}

fn lengthen(random: &mut Random, words: &mut Vec<u32>, record: usize) {
    for _ in 0..random.between(1, record as u32) {
        words.push(0);
    }
}

fn shorten(random: &mut Random, words: &mut Vec<u32>, record: usize) {
    let less = random.between(1, record as u32) as usize;
    words.truncate(words.len().saturating_sub(less));
}

fn too_many(random: &mut Random, arena: &mut Arena) {
    if random.one_in(2) {
        fill_types(arena, MAX_TYPES + 1);
        arena.rows_len = ROW_WORDS * (MAX_TYPES + 1);
    } else {
        arena.members.resize(MEMBER_WORDS * (MAX_MEMBERS + 1), 0);
    }
}

/// Scalars up to the given count of types.
pub fn fill_types(arena: &mut Arena, count: usize) {
    while arena.types.len() / TYPE_WORDS < count {
        arena.types.extend([kind::SCALAR, 2, 4, 0, 0, 0]);
    }
}

/// Does what a recipe has left to be done.
pub fn finish(random: &mut Random, arena: &mut Arena, finish: Finish) {
    let count = arena.type_count() as u32;
    match finish {
        Finish::Nothing => {}
        Finish::WrongLength => wrong_length(random, arena),
        Finish::BadField => bad_field(random, arena),
        Finish::BaseOutside(number) => {
            let base = random.pick(&[count, count, count + 1, 1 << 31, u32::MAX - 1, u32::MAX]);
            arena.types[TYPE_WORDS * number as usize + 1] = base;
        }
        Finish::BaseLater(number) => {
            arena.types[TYPE_WORDS * number as usize + 1] = random.between(number, count - 1);
        }
        Finish::Without(bits) => arena.capabilities &= !bits,
    }
}

/// How many words each kind names after itself.
const NAMED: [usize; 14] = [2, 3, 4, 5, 2, 2, 3, 4, 3, 3, 0, 1, 1, 3];

fn bad_field(random: &mut Random, arena: &mut Arena) {
    if arena.type_count() == 0 {
        fill_types(arena, 1);
        arena.rows_len = arena.rows_len.max(ROW_WORDS);
    }
    let number = random.below(arena.type_count() as u32) as usize;
    let member_count = arena.member_count() as u32;
    let record = &mut arena.types[TYPE_WORDS * number..TYPE_WORDS * (number + 1)];
    let named = NAMED[record[0] as usize];
    let (word, value) = match random.below(6) {
        0 => (0, random.pick(&[14, 15, 16, 255, 256, 1 << 31, u32::MAX])),
        1 | 2 if named < 5 => {
            let unnamed = random.between(1 + named as u32, 5);
            (unnamed as usize, random.pick(&[1, 2, 4, 1 << 31, u32::MAX]))
        }
        _ => out_of_set(random, record, member_count),
    };
    record[word] = value;
}

/// A named word of the record and a value outside its set.
fn out_of_set(random: &mut Random, record: &[u32], members: u32) -> (usize, u32) {
    let big = random.pick(&[256, 257, 1 << 31, u32::MAX]);
    let kinds = random.pick(&[6, 7, 8, big]);
    let spaces = random.pick(&[10, 11, big]);
    let small = random.pick(&[0, 1, 5, 8, big]);
    let wide = random.pick(&[0, 7, 9, 15, 17, 32, big]);
    let flag = random.pick(&[2, 3, big]);
    let role = random.pick(&[3, 4, big]);
    let four = random.pick(&[4, 5, big]);
    let choices: &[(usize, u32)] = match record[0] {
        kind::SCALAR | kind::ATOMIC => &[(1, kinds), (2, big)],
        kind::VECTOR => &[(1, small), (2, kinds), (3, big)],
        kind::MATRIX => &[(1, small), (2, small), (3, kinds), (4, big)],
        kind::COOPERATIVE_MATRIX => &[(1, wide), (2, wide), (3, kinds), (4, big), (5, role)],
        kind::POINTER => &[(2, spaces)],
        kind::VALUE_POINTER => &[(1, kinds), (2, big), (3, spaces)],
        kind::ARRAY | kind::BINDING_ARRAY => match record[2] {
            0 => &[(2, 1), (2, flag), (3, 0)],
            _ => &[(2, 0), (2, flag), (3, 1), (3, big)],
        },
        kind::STRUCT => &[
            (1, members - record[2].min(members) + 1),
            (1, u32::MAX),
            (1, record[2].wrapping_neg()),
            (2, members - record[1].min(members) + 1),
            (2, u32::MAX),
            (2, record[1].wrapping_neg()),
        ],
        kind::IMAGE => &[(1, four), (2, flag), (3, four)],
        kind::SAMPLER => &[(1, 1), (0, 14)],
        _ => &[(1, flag)],
    };
    random.pick(choices)
}
