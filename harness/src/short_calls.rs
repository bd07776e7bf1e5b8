//! Compares the place lookup by three words for each type, and many places in
//! one call, with the place lookup and with the reference.

use crate::compare::{two, Lent};
use crate::guarded::Guarded;
use crate::histogram::Histogram;
use crate::random::Random;
use crate::records::*;
use crate::reference::{self, Expected, Outcome};
use crate::{generator, place, place_calls, port, print};

pub const SHORT_WORDS: usize = 3;
const NO_PLACE: [u64; 2] = [u64::MAX; 2];

/// What is lent to a call that looks up many places.
pub struct ManyLent<'a> {
    pub scratch: &'a mut [u32],
    pub found: &'a mut [u64],
    pub answer: &'a mut [u32],
}

pub fn short(count: u64, seed: u64) -> bool {
    each(count, seed, |arena, random, histogram| {
        let (start, steps) = place_calls::start_and_steps(random, arena);
        let length = scratch_length(random, arena);
        let mut expected =
            place::look_up(outcome(arena), &arena.types, &arena.members, start, &steps);
        if length < SHORT_WORDS * arena.type_count() {
            expected.answer = WRONG_LENGTH;
            expected.output = vec![0; 2];
            histogram.note("scratch too short");
        }
        histogram.count_answer(expected.answer);
        let difference = short_difference(arena, start, &steps, length, &expected, random);
        difference.map(|text| format!("{start} {steps:?}, scratch of {length} words: {text}"))
    })
}

pub fn places(count: u64, seed: u64) -> bool {
    each(count, seed, |arena, random, histogram| {
        let runs = runs(random, arena);
        let length = scratch_length(random, arena);
        let read = read(&runs);
        let room = room(random, read.as_ref().map_or(0, Vec::len));
        let owed = owed(arena, read.as_deref(), length, room);
        histogram.count_answer(owed.answer);
        histogram.note(match (&read, owed.answer == WRONG_LENGTH) {
            (None, _) => "a run cut short",
            (_, true) => "number 1 otherwise",
            (Some(runs), _) if runs.is_empty() => "no run",
            _ => "runs answered",
        });
        let difference = many_difference(arena, &runs, length, room, &owed, random);
        difference.map(|text| {
            format!("runs {runs:?}, scratch of {length} words, {room} words of answers: {text}")
        })
    })
}

/// Arenas that are mostly sound and arenas of every sort, in turn.
fn each(
    count: u64,
    seed: u64,
    difference: impl Fn(&Arena, &mut Random, &mut Histogram) -> Option<String>,
) -> bool {
    let mut histogram = Histogram::default();
    for index in 0..count {
        let arena = match index % 2 {
            0 => generator::mostly_sound(seed, index),
            _ => generator::arena(seed, index),
        };
        let random = &mut Random::new(!seed, index);
        if let Some(difference) = difference(&arena, random, &mut histogram) {
            println!("seed {seed}, index {index}: {difference}");
            print::arena(&arena);
            println!("{} cases, then a difference", index + 1);
            return false;
        }
    }
    histogram.print();
    println!("{count} cases, 0 differences");
    true
}

/// Three words a type, more, or too few.
fn scratch_length(random: &mut Random, arena: &Arena) -> usize {
    let needed = SHORT_WORDS * arena.type_count();
    match random.below(24) {
        0 => random.below(needed as u32 + 1) as usize,
        1 => needed.saturating_sub(1),
        2..=7 => needed + random.between(1, 40) as usize,
        _ => needed,
    }
}

/// By the reference, with as many rows as the arena has types.
fn outcome(arena: &Arena) -> Outcome {
    let rows_len = ROW_WORDS * arena.type_count();
    reference::check(
        &arena.types,
        &arena.members,
        arena.capabilities,
        OLDER,
        rows_len,
    )
}

/// Size, alignment and flags of each type; zeros on a refusal, nothing on
/// number 1.
fn owed_scratch(
    before: &[u32],
    arena: &Arena,
    answer: Answer,
    rows: &Option<Vec<Row>>,
) -> Vec<u32> {
    let mut owed = before.to_vec();
    if answer == WRONG_LENGTH {
        return owed;
    }
    let words = &mut owed[..SHORT_WORDS * arena.type_count()];
    match rows {
        None => words.fill(0),
        Some(rows) => {
            for (three, row) in words.chunks_exact_mut(SHORT_WORDS).zip(rows) {
                three.copy_from_slice(&row[..SHORT_WORDS]);
            }
        }
    }
    owed
}

fn short_difference(
    arena: &Arena,
    start: u32,
    steps: &[u32],
    length: usize,
    expected: &Expected,
    pattern: &mut Random,
) -> Option<String> {
    let mut scratch = Guarded::new(length, pattern, Random::word);
    let mut place = Guarded::new(2, pattern, Random::next);
    let mut answer = Guarded::new(4, pattern, Random::word);
    let lent = Lent {
        rows: scratch.lend(),
        output: place.lend(),
        answer: answer.lend(),
    };
    port::place_short(arena, start, steps, lent);
    let owed = owed_scratch(scratch.before(), arena, expected.answer, &expected.rows);
    if answer.now() != expected.answer {
        return Some(two("answer", answer.now(), &expected.answer));
    }
    if place.now() != expected.output {
        return Some(two("place", place.now(), &expected.output));
    }
    if scratch.now() != owed {
        return Some(two("scratch", scratch.now(), &owed));
    }
    if scratch.margins_are_touched() || place.margins_are_touched() || answer.margins_are_touched()
    {
        return Some("words beside the lent ones are touched".to_string());
    }
    let same = length >= SHORT_WORDS * arena.type_count();
    if same && by_place(arena, start, steps) != (expected.answer, expected.output.clone()) {
        return Some("the place lookup answers otherwise".to_string());
    }
    None
}

/// What the place lookup answers, with a row for each type.
fn by_place(arena: &Arena, start: u32, steps: &[u32]) -> (Answer, Vec<u64>) {
    let mut rows = vec![0; ROW_WORDS * arena.type_count()];
    let (mut place, mut answer) = (vec![0; 2], [0; 4]);
    let lent = Lent {
        rows: &mut rows,
        output: &mut place,
        answer: &mut answer,
    };
    port::place(arena, start, steps, lent);
    (answer, place)
}

/// Runs of steps, at times with a word cut off, added or changed.
fn runs(random: &mut Random, arena: &Arena) -> Vec<u32> {
    let mut words = Vec::new();
    for _ in 0..random.below(9) {
        let (start, steps) = place_calls::start_and_steps(random, arena);
        words.extend([start, steps.len() as u32]);
        words.extend(steps);
    }
    match random.below(10) {
        0 => drop(words.pop()),
        1 => words.push(random.below(4)),
        2 if !words.is_empty() => {
            let at = random.below(words.len() as u32) as usize;
            words[at] = random.pick(&[0, 1, u32::MAX, words[at].wrapping_add(1)]);
        }
        _ => {}
    }
    words
}

/// The starts and steps of runs; none if one is cut short.
pub fn read(mut words: &[u32]) -> Option<Vec<(u32, Vec<u32>)>> {
    let mut runs = Vec::new();
    while let [start, count, rest @ ..] = words {
        let steps = rest.get(..*count as usize)?;
        runs.push((*start, steps.to_vec()));
        words = &rest[*count as usize..];
    }
    words.is_empty().then_some(runs)
}

/// Words for the answers of so many runs: exact, more, or too few.
fn room(random: &mut Random, runs: usize) -> usize {
    match random.below(12) {
        0 => (2 * runs).saturating_sub(1),
        1 => random.below(2 * runs as u32 + 1) as usize,
        2..=4 => 2 * runs + random.between(1, 5) as usize,
        _ => 2 * runs,
    }
}

/// What a call with these runs owes: its answer, the rows of which the scratch
/// has three words each, and the words of the runs (none: untouched).
struct Owed {
    answer: Answer,
    rows: Option<Vec<Row>>,
    found: Option<Vec<u64>>,
}

fn owed(arena: &Arena, runs: Option<&[(u32, Vec<u32>)]>, length: usize, room: usize) -> Owed {
    let Outcome { answer, rows, .. } = outcome(arena);
    let enough = length >= SHORT_WORDS * arena.type_count();
    let fitting = runs.filter(|runs| enough && answer != WRONG_LENGTH && 2 * runs.len() <= room);
    let Some(runs) = fitting else {
        return Owed {
            answer: WRONG_LENGTH,
            rows: None,
            found: None,
        };
    };
    let place = |(start, steps): &(u32, Vec<u32>)| {
        let place = place::of(&arena.types, &arena.members, *start, steps);
        let found = place.filter(|_| rows.is_some());
        found.map_or(NO_PLACE, |(byte, leaf)| [byte, u64::from(leaf)])
    };
    // A refused arena may go round in circles: it has no place.
    let found = match rows {
        Some(_) => runs.iter().flat_map(place).collect(),
        None => NO_PLACE.repeat(runs.len()),
    };
    Owed {
        answer,
        rows,
        found: Some(found),
    }
}

fn many_difference(
    arena: &Arena,
    runs: &[u32],
    length: usize,
    room: usize,
    owed: &Owed,
    pattern: &mut Random,
) -> Option<String> {
    let mut scratch = Guarded::new(length, pattern, Random::word);
    let mut found = Guarded::new(room, pattern, Random::next);
    let mut answer = Guarded::new(4, pattern, Random::word);
    let lent = ManyLent {
        scratch: scratch.lend(),
        found: found.lend(),
        answer: answer.lend(),
    };
    port::places(arena, runs, lent);
    let three = owed_scratch(scratch.before(), arena, owed.answer, &owed.rows);
    let mut words = found.before().to_vec();
    if let Some(owed) = &owed.found {
        words[..owed.len()].copy_from_slice(owed);
    }
    if answer.now() != owed.answer {
        return Some(two("answer", answer.now(), &owed.answer));
    }
    if found.now() != words {
        return Some(two("places", found.now(), &words));
    }
    if scratch.now() != three {
        return Some(two("scratch", scratch.now(), &three));
    }
    if scratch.margins_are_touched() || found.margins_are_touched() || answer.margins_are_touched()
    {
        return Some("words beside the lent ones are touched".to_string());
    }
    None
}
