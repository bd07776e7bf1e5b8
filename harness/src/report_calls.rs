//! Compares the report.

use crate::compare::{row_difference, two, Lent};
use crate::guarded::Guarded;
use crate::histogram::Histogram;
use crate::random::Random;
use crate::records::*;
use crate::report::{self, Owed, NARROW_STRIDE, REPORT_WORDS};
use crate::{generator, newer, port, print};

/// So deep that no walk of every path comes to an end.
const LEVELS: u32 = 28;

pub fn report(count: u64, seed: u64) -> bool {
    let (mut histogram, mut counted) = (Histogram::default(), [0; 2]);
    for index in 0..count {
        let mut arena = match index {
            0 => generator::doubled(LEVELS),
            _ => generator::mostly_shareable(seed, index),
        };
        arena.rule = newer::chosen_rule(seed, index);
        let random = &mut Random::new(!seed, index);
        let length = report_length(random, &arena);
        let owed = report::of(&arena, print::reference_of(&arena), length);
        count_report(&mut histogram, &owed);
        counted = [0, 1].map(|at| counted[at] + owed.counted[at]);
        if let Some(difference) = difference(&arena, &owed, length, random) {
            println!("seed {seed}, index {index}, {length} words of report: {difference}");
            print::arena(&arena);
            println!("{} cases, then a difference", index + 1);
            return false;
        }
    }
    histogram.print();
    let [bytes, sums] = counted;
    println!("structs counted byte by byte: {bytes}, larger ones by sums: {sums}");
    println!("{count} cases, 0 differences");
    true
}

/// Two words a type, more, or too few.
fn report_length(random: &mut Random, arena: &Arena) -> usize {
    let needed = REPORT_WORDS * arena.type_count();
    match random.below(24) {
        0 => random.below(needed as u32 + 1) as usize,
        1 => needed.saturating_sub(1),
        2..=7 => needed + random.between(1, 9) as usize,
        _ => needed,
    }
}

fn count_report(histogram: &mut Histogram, owed: &Owed) {
    let Owed {
        expected, report, ..
    } = owed;
    histogram.count_answer(expected.answer);
    histogram.note(match (expected.answer[0], report) {
        (NARROW_STRIDE, _) => "27",
        (1, _) => "wrong length",
        (_, None) => "arena refused",
        (_, Some(_)) if expected.output == [0, 0] => "no struct reported",
        (_, Some(_)) => "structs reported",
    });
    if expected.output[1] > 0 {
        histogram.note("bytes wasted");
    }
}

/// Lends words with a pattern in them; the port must leave all of it but what
/// it owes.
fn difference(arena: &Arena, owed: &Owed, length: usize, pattern: &mut Random) -> Option<String> {
    let expected = &owed.expected;
    let mut rows = Guarded::new(arena.rows_len, pattern, Random::word);
    let mut report = Guarded::new(length, pattern, Random::next);
    let mut totals = Guarded::new(expected.output.len(), pattern, Random::next);
    let mut answer = Guarded::new(expected.answer.len(), pattern, Random::word);
    let lent = Lent {
        rows: rows.lend(),
        output: totals.lend(),
        answer: answer.lend(),
    };
    port::report(arena, report.lend(), lent);
    let words = report::owed_words(report.before(), arena, owed);
    if answer.now() != expected.answer {
        return Some(two("answer", answer.now(), &expected.answer));
    }
    if totals.now() != expected.output {
        return Some(two("totals", totals.now(), &expected.output));
    }
    if report.now() != words {
        return Some(two("report", report.now(), &words));
    }
    let touched = [
        rows.margins_are_touched(),
        report.margins_are_touched(),
        totals.margins_are_touched(),
        answer.margins_are_touched(),
    ];
    if touched.contains(&true) {
        return Some("words beside what was lent are touched".to_string());
    }
    row_difference(&rows, arena, expected)
}
