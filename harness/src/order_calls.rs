//! Compares the call for an order that fits.

use crate::compare::two;
use crate::guarded::Guarded;
use crate::histogram::Histogram;
use crate::order::{self, Call, Owed, FOUND_WORDS, MOST_GIVEN};
use crate::random::Random;
use crate::records::*;
use crate::{generator, newer, port, print};

pub fn order(count: u64, seed: u64) -> bool {
    let mut histogram = Histogram::default();
    for index in 0..count {
        let random = &mut Random::new(!seed, index);
        let call = call(random, seed, index);
        let owed = order::of(&call);
        count_order(&mut histogram, &call, &owed);
        if let Some(difference) = difference(&call, &owed, random) {
            println!("seed {seed}, index {index}: {difference}");
            println!("wanted {:?}, span {}", call.wanted, call.span);
            println!(
                "{} and {} words of tables",
                call.types_len, call.members_len
            );
            print::arena(&call.arena);
            println!("{} cases, then a difference", index + 1);
            return false;
        }
    }
    histogram.print();
    println!("{count} cases, 0 differences");
    true
}

fn count_order(histogram: &mut Histogram, call: &Call, owed: &Owed) {
    histogram.count_answer(owed.answer);
    let own = call.arena.type_count() as u32;
    if owed.answer[0] == 21 && owed.answer[1] == own {
        histogram.note("21 of the struct passed on");
    }
    if owed.answer == ACCEPTED {
        let places = &owed.found[2..2 + call.wanted.len()];
        histogram.note(match places.is_sorted() {
            true => "found, as given",
            false => "found, in another order",
        });
        if call.wanted.len() == MOST_GIVEN {
            histogram.note("found, seven members");
        }
    }
}

/// Whole records in use, tables and rows with room behind them, and types of
/// the arena.
fn call(random: &mut Random, seed: u64, index: u64) -> Call {
    let mut arena = generator::mostly_sound(seed, index);
    arena.rule = newer::chosen_rule(seed, index);
    arena.types.truncate(arena.type_count() * TYPE_WORDS);
    arena.members.truncate(arena.member_count() * MEMBER_WORDS);
    let long = random.one_in(12) && arena.type_count() + 3 < MAX_TYPES;
    if long {
        add_long_struct(random, &mut arena);
    }
    let wanted = wanted(random, &arena, long);
    let rows = ROW_WORDS * (arena.type_count() + 1);
    arena.rows_len = room(random, rows, ROW_WORDS);
    let types = arena.types.len() + TYPE_WORDS;
    let members = arena.members.len() + wanted.len() * MEMBER_WORDS;
    let mut call = Call {
        types_len: room(random, types, TYPE_WORDS).max(arena.types.len()),
        members_len: room(random, members, MEMBER_WORDS).max(arena.members.len()),
        arena,
        wanted,
        span: 0,
    };
    call.span = span(random, &call);
    call
}

/// A float, and a struct of it whose span is near the end of 32 bits.
fn add_long_struct(random: &mut Random, arena: &mut Arena) {
    let scalar = arena.type_count() as u32;
    let row = arena.member_count() as u32;
    let span = u32::MAX - random.below(48);
    arena.types.extend([kind::SCALAR, 2, 4, 0, 0, 0]);
    arena.types.extend([kind::STRUCT, row, 1, span, 0, 0]);
    arena.members.extend(member(scalar, 0));
}

/// One to seven types, now and then none, eight, or one outside the arena.
fn wanted(random: &mut Random, arena: &Arena, long: bool) -> Vec<u32> {
    let types = arena.type_count() as u32;
    let count = match random.below(24) {
        0 => 0,
        1 => MOST_GIVEN as u32 + 1,
        2..=9 => random.between(5, 7),
        _ => random.between(1, 5),
    };
    let mut wanted: Vec<u32> = (0..count).map(|_| random.below(types.max(1))).collect();
    if long {
        let own = [types - 1, types - 2];
        wanted = own[..random.between(1, 2) as usize].to_vec();
        if random.one_in(2) {
            wanted.reverse();
        }
    }
    if count > 0 && random.one_in(16) {
        let at = random.below(wanted.len() as u32) as usize;
        wanted[at] = generator::number_outside(random, types);
    }
    wanted
}

/// As much as is needed, more, or too little.
fn room(random: &mut Random, needed: usize, width: usize) -> usize {
    match random.below(32) {
        0 => needed.saturating_sub(1),
        1 => needed.saturating_sub(width),
        2..=9 => needed + random.below(3 * width as u32) as usize,
        _ => needed,
    }
}

/// Mostly the span of some order, or one byte less; else any.
fn span(random: &mut Random, call: &Call) -> u32 {
    let outcome = print::reference_of(&call.arena);
    let inside = |rows: &[Row]| call.wanted.iter().all(|&ty| (ty as usize) < rows.len());
    let Some(rows) = outcome.rows.filter(|rows| inside(rows)) else {
        return random.word();
    };
    let mut order: Vec<usize> = (0..call.wanted.len()).collect();
    for at in (1..order.len()).rev() {
        order.swap(at, random.below(at as u32 + 1) as usize);
    }
    let own = order::placed(call, &rows, &order).1;
    match random.below(8) {
        0 => random.word(),
        1 => u32::MAX,
        2 => own.saturating_sub(1).try_into().unwrap_or(u32::MAX),
        _ => own.try_into().unwrap_or(u32::MAX),
    }
}

/// Lends words with a pattern in them behind the records in use; the port must
/// leave all of it but what it owes.
fn difference(call: &Call, owed: &Owed, pattern: &mut Random) -> Option<String> {
    let mut types = Guarded::new(call.types_len, pattern, Random::word);
    types.hold(&call.arena.types);
    let mut members = Guarded::new(call.members_len, pattern, Random::word);
    members.hold(&call.arena.members);
    let mut rows = Guarded::new(call.arena.rows_len, pattern, Random::word);
    let found_len = match pattern.below(16) {
        0 => pattern.below(FOUND_WORDS as u32) as usize,
        1 => FOUND_WORDS + 2,
        _ => FOUND_WORDS,
    };
    let mut found = Guarded::new(found_len, pattern, Random::word);
    let mut answer = Guarded::new(owed.answer.len(), pattern, Random::word);
    port::order(
        call,
        types.lend(),
        members.lend(),
        rows.lend(),
        found.lend(),
        answer.lend(),
    );
    let own = [&call.arena.types[..], &owed.record].concat();
    let own_rows = [&call.arena.members[..], &owed.rows_of_members].concat();
    let shown: &[u32] = if found_len < FOUND_WORDS {
        &[]
    } else {
        &owed.found
    };
    let parts = [
        ("answer", &answer, &owed.answer[..]),
        ("found", &found, shown),
        ("types", &types, &own),
        ("members", &members, &own_rows),
        ("rows", &rows, &owed.rows),
    ];
    parts.iter().find_map(|(name, lent, first)| {
        let mut words = lent.before().to_vec();
        words[..first.len()].copy_from_slice(first);
        if lent.now() != words {
            return Some(two(name, lent.now(), &words));
        }
        let touched = lent.margins_are_touched();
        touched.then(|| format!("words beside the {name} are touched"))
    })
}
