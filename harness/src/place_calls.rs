//! Compares the place lookup.

use crate::compare::{run, Case};
use crate::histogram::Histogram;
use crate::random::Random;
use crate::records::*;
use crate::reference::{Expected, Outcome};
use crate::{generator, place, port, print};

const DATA_FLAG: u32 = 1;
/// No sound arena is deeper; a damaged one may go round in circles.
const DEEPEST: usize = 2000;

/// A step, and the count that it must stay below (none at a runtime array).
pub type Step = (u32, Option<u32>);

pub fn place(count: u64, seed: u64) -> bool {
    run(
        count,
        seed,
        generator::mostly_sound,
        |arena, random, histogram| {
            let (start, steps) = start_and_steps(random, arena);
            let outcome = print::reference_of(arena);
            assert_reading(arena, &outcome);
            let expected = place::look_up(outcome, &arena.types, &arena.members, start, &steps);
            count_place(histogram, &expected, &steps);
            count_columns(histogram, &expected, arena, start, &steps);
            let mut asked = vec![start];
            asked.extend(&steps);
            Case {
                asked,
                expected,
                call: Box::new(move |lent| port::place(arena, start, &steps, lent)),
            }
        },
    )
}

/// The reading of kinds and columns agrees with the Rust's flags and sizes.
pub fn assert_reading(arena: &Arena, outcome: &Outcome) {
    let records = arena.types.chunks_exact(TYPE_WORDS);
    for (record, row) in records.zip(outcome.rows.iter().flatten()) {
        assert_eq!(place::is_data(record[0]), row[2] & DATA_FLAG != 0);
        if record[0] == kind::MATRIX {
            let (columns, step) = (record[1], place::column_step(record));
            assert_eq!([columns * step, step], [row[0], row[1]]);
        }
    }
}

fn count_place(histogram: &mut Histogram, expected: &Expected, steps: &[u32]) {
    histogram.count_answer(expected.answer);
    histogram.note(match (expected.answer[0], steps.len()) {
        (0, 0) => "place, no step",
        (0, 1) => "place, 1 step",
        (0, 2..=3) => "place, 2 or 3 steps",
        (0, 4..=6) => "place, 4 to 6 steps",
        (0, _) => "place, more steps",
        (NO_SUCH, _) => "26",
        _ => "arena refused",
    });
    if expected.output[0] > u64::from(u32::MAX) {
        histogram.note("place above 32 bits");
    }
}

/// The calls that come to a matrix, by their answers.
fn count_columns(
    histogram: &mut Histogram,
    expected: &Expected,
    arena: &Arena,
    start: u32,
    steps: &[u32],
) {
    let Some(left) = place::steps_at_a_matrix(arena, start, steps) else {
        return;
    };
    match (expected.answer[0], left) {
        (0, _) => histogram.note("at a matrix: a column"),
        (NO_SUCH, []) => histogram.note("at a matrix: 26, no column"),
        (NO_SUCH, [_]) => histogram.note("at a matrix: 26, a column past the last"),
        (NO_SUCH, _) => histogram.note("at a matrix: 26, steps after the column"),
        _ => {}
    }
}

/// Mostly a walk to a leaf, else one that is damaged.
pub fn start_and_steps(random: &mut Random, arena: &Arena) -> (u32, Vec<u32>) {
    let count = arena.type_count() as u32;
    let start = start(random, arena);
    let steps = steps_to_a_leaf(random, arena, start);
    let mut numbers: Vec<u32> = steps.iter().map(|step| step.0).collect();
    match random.below(24) {
        0 => step_too_far(random, &steps, &mut numbers),
        1 => drop(numbers.pop()),
        2 => numbers.push(random.below(3)),
        3 => return (generator::number_outside(random, count), numbers),
        4 => return (no_data(random, arena), numbers),
        5 if !numbers.is_empty() => drop(numbers.remove(0)),
        6 => numbers.clear(),
        _ => {}
    }
    (start, numbers)
}

/// A type of the arena if it has one, arrays and structs preferred.
fn start(random: &mut Random, arena: &Arena) -> u32 {
    let count = arena.type_count().max(1) as u32;
    let choices = [0; 3].map(|_| random.below(count));
    let is_composite = |&ty: &u32| {
        let record = type_record(&arena.types, ty);
        record.is_some_and(|w| matches!(w[0], kind::ARRAY | kind::STRUCT))
    };
    // Later ones lie deeper.
    let composite = choices.into_iter().filter(is_composite).max();
    composite.unwrap_or_else(|| random.below(count))
}

/// A type that is no data, if there is one.
fn no_data(random: &mut Random, arena: &Arena) -> u32 {
    let records = arena.types.chunks_exact(TYPE_WORDS).enumerate();
    let others: Vec<u32> = records
        .filter(|(_, record)| !place::is_data(record[0]))
        .map(|(number, _)| number as u32)
        .collect();
    match others.is_empty() {
        true => generator::number_outside(random, arena.type_count() as u32),
        false => random.pick(&others),
    }
}

/// Follows the records at random.
pub fn steps_to_a_leaf(random: &mut Random, arena: &Arena, start: u32) -> Vec<Step> {
    let (mut number, mut steps) = (start, Vec::new());
    while let Some(w) = type_record(&arena.types, number) {
        let step = match w[0] {
            kind::ARRAY if w[2] == DYNAMIC => (runtime_element(random), None),
            kind::ARRAY => (element(random, w[3]), Some(w[3])),
            kind::STRUCT => (element(random, w[2]), Some(w[2])),
            kind::MATRIX => {
                steps.push((element(random, w[1]), Some(w[1])));
                break;
            }
            _ => break,
        };
        let row = u64::from(w[1]) + u64::from(step.0);
        number = match (w[0], member_row(&arena.members, row)) {
            (kind::ARRAY, _) => w[1],
            (_, Some((ty, _))) => ty,
            (_, None) => break,
        };
        steps.push(step);
        if steps.len() == DEEPEST {
            break;
        }
    }
    steps
}

fn element(random: &mut Random, count: u32) -> u32 {
    match random.below(6) {
        0 => 0,
        1 => count.saturating_sub(1),
        _ => random.below(count.max(1)),
    }
}

fn runtime_element(random: &mut Random) -> u32 {
    match random.below(6) {
        0 => u32::MAX,
        1 => 0,
        2 => 1 << random.below(32),
        3 => random.word(),
        _ => random.below(100),
    }
}

/// A step at its count or above it.
fn step_too_far(random: &mut Random, steps: &[Step], numbers: &mut [u32]) {
    if steps.is_empty() {
        return;
    }
    let at = random.below(steps.len() as u32) as usize;
    if let Some(count) = steps[at].1 {
        let above = count.saturating_add(random.below(9));
        numbers[at] = random.pick(&[count, count, above, u32::MAX]);
    }
}
