//! Runs the port and the reference over the same arenas.

use crate::guarded::Guarded;
use crate::held::{self, Held};
use crate::histogram::Histogram;
use crate::random::Random;
use crate::records::*;
use crate::reference::{self, Expected};
use crate::{generator, newer, port, print};

/// What a call is lent to write to.
pub struct Lent<'a> {
    pub rows: &'a mut [u32],
    pub output: &'a mut [u64],
    pub answer: &'a mut [u32],
}

/// One call of the port and what it owes.
pub struct Case<'a> {
    /// The numbers that are handed over beside the tables.
    pub asked: Vec<u32>,
    pub expected: Expected,
    pub call: Box<dyn Fn(Lent) + 'a>,
}

pub fn layout(count: u64, seed: u64) -> bool {
    run(count, seed, generator::arena, |arena, _, histogram| {
        let outcome = reference::layout(&arena.types, &arena.members, arena.rows_len);
        histogram.count_answer(outcome.answer);
        if outcome.layouts.is_some() {
            histogram.count_accepted(arena);
        }
        Case {
            asked: Vec::new(),
            expected: outcome.into(),
            call: Box::new(|lent| port::layout(arena, lent)),
        }
    })
}

/// Over rows that hold random words, what the rows of the arena accepted last
/// leave there, and the arena's own layouts with a word changed.
#[cfg(feature = "check")]
pub fn judge(count: u64, seed: u64) -> bool {
    checked(count, seed, held::rows, port::judge)
}

#[cfg(feature = "check")]
pub fn check(count: u64, seed: u64) -> bool {
    checked(count, seed, held::nothing, port::check)
}

#[cfg(feature = "check")]
fn checked(count: u64, seed: u64, held: Held, call: fn(&Arena, Lent)) -> bool {
    let source = generator::arena;
    run_over(count, seed, source, held, |arena, _, histogram| {
        let outcome = print::reference_of(arena);
        count_outcome(histogram, arena, &outcome);
        Case {
            asked: Vec::new(),
            expected: outcome.into(),
            call: Box::new(move |lent| call(arena, lent)),
        }
    })
}

/// The reference alone, to see what the arenas are.
pub fn histogram(count: u64, seed: u64) {
    let mut histogram = Histogram::default();
    for index in 0..count {
        let arena = generator::arena(seed, index);
        let outcome = print::reference_of(&arena);
        count_outcome(&mut histogram, &arena, &outcome);
    }
    histogram.print();
    println!("{count} arenas");
}

fn count_outcome(histogram: &mut Histogram, arena: &Arena, outcome: &reference::Outcome) {
    if arena.has_blend_source() {
        histogram.note("arenas with blend sources");
    }
    histogram.count_answer(outcome.answer);
    histogram.count_panic(&outcome.panic_site);
    if let Some(rows) = &outcome.rows {
        histogram.note(match arena.rule {
            OLDER => "accepted, by the older rule",
            _ => "accepted, by the newer rule",
        });
        histogram.count_accepted(arena);
        histogram.count_rows(rows);
    }
}

/// Whether the port agrees on all cases, over rows that hold random words.
pub fn run(
    count: u64,
    seed: u64,
    source: fn(u64, u64) -> Arena,
    judge: impl for<'a> Fn(&'a Arena, &mut Random, &mut Histogram) -> Case<'a>,
) -> bool {
    run_over(count, seed, source, held::nothing, judge)
}

/// The same, and then over rows that hold each run of words of `held`.
fn run_over(
    count: u64,
    seed: u64,
    source: fn(u64, u64) -> Arena,
    held: Held,
    judge: impl for<'a> Fn(&'a Arena, &mut Random, &mut Histogram) -> Case<'a>,
) -> bool {
    let mut histogram = Histogram::default();
    let mut last = Vec::new();
    for index in 0..count {
        let mut arena = source(seed, index);
        arena.rule = newer::chosen_rule(seed, index);
        let mut random = Random::new(!seed, index);
        let case = judge(&arena, &mut random, &mut histogram);
        let held = held(&arena, &last, &mut random);
        if let Some(difference) = difference(&arena, &case, &held, &mut random) {
            println!("seed {seed}, index {index}: {difference}");
            println!("asked beside the tables: {:?}", case.asked);
            print::arena(&arena);
            println!("{} cases, then a difference", index + 1);
            return false;
        }
        if let Some(rows) = case.expected.rows {
            last = rows;
        }
    }
    histogram.print();
    println!("{count} cases, 0 differences");
    true
}

/// Lends words with a pattern in them, and then each run of words in `held`.
fn difference(
    arena: &Arena,
    case: &Case,
    held: &[Vec<u32>],
    pattern: &mut Random,
) -> Option<String> {
    let rows = Guarded::new(arena.rows_len, pattern, Random::word);
    let first = difference_over(rows, arena, case, pattern);
    first.or_else(|| {
        held.iter().find_map(|words| {
            let mut rows = Guarded::new(arena.rows_len, pattern, Random::word);
            rows.hold(words);
            let difference = difference_over(rows, arena, case, pattern)?;
            Some(format!("over rows that hold {words:?}: {difference}"))
        })
    })
}

/// The port must leave all of the lent words but what it owes.
fn difference_over(
    mut rows: Guarded<u32>,
    arena: &Arena,
    case: &Case,
    pattern: &mut Random,
) -> Option<String> {
    let expected = &case.expected;
    let mut output = Guarded::new(expected.output.len(), pattern, Random::next);
    let mut answer = Guarded::new(expected.answer.len(), pattern, Random::word);
    (case.call)(Lent {
        rows: rows.lend(),
        output: output.lend(),
        answer: answer.lend(),
    });
    if answer.now() != expected.answer {
        return Some(two("answer", answer.now(), &expected.answer));
    }
    if output.now() != expected.output {
        return Some(two("output", output.now(), &expected.output));
    }
    if answer.margins_are_touched() || output.margins_are_touched() {
        return Some("words beside the answer or the output are touched".to_string());
    }
    if rows.margins_are_touched() {
        return Some("words beside the lent rows are touched".to_string());
    }
    row_difference(&rows, arena, expected)
}

pub fn two<W: std::fmt::Debug>(name: &str, port: &[W], reference: &[W]) -> String {
    format!("{name} of the port {port:?}, of the reference {reference:?}")
}

pub fn row_difference(rows: &Guarded<u32>, arena: &Arena, expected: &Expected) -> Option<String> {
    let owed = owed_words(rows.before(), arena, expected);
    let words = rows.now();
    let at = words
        .iter()
        .zip(&owed)
        .position(|(word, owed)| word != owed)?;
    let row = at / ROW_WORDS;
    if row >= arena.type_count() {
        return Some(format!("word {at} of the lent rows is touched"));
    }
    let part = ROW_WORDS * row..words.len().min(ROW_WORDS * (row + 1));
    let name = format!("row {row}");
    Some(two(&name, &words[part.clone()], &owed[part]))
}

fn owed_words(before: &[u32], arena: &Arena, expected: &Expected) -> Vec<u32> {
    let mut owed = before.to_vec();
    if expected.answer == WRONG_LENGTH {
        return owed;
    }
    let rows = &mut owed[..ROW_WORDS * arena.type_count()];
    match &expected.rows {
        None => rows.fill(0),
        Some(expected) => rows.copy_from_slice(expected.as_flattened()),
    }
    owed
}
