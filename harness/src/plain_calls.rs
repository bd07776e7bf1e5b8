//! Compares the call for plain types: every shape and width of a small range,
//! then any.

use crate::guarded::Guarded;
use crate::histogram::Histogram;
use crate::plain::{self, Numbers};
use crate::port;
use crate::random::Random;
use crate::records::*;
use std::collections::BTreeSet;

const SHAPES: u32 = 40;
const WIDTHS: u32 = 300;
/// Of the lent numbers: fewer than three words are left as they were, and so
/// are the words after three.
const MOST_WORDS: usize = 5;

pub fn plain(count: u64, seed: u64) -> bool {
    let mut histogram = Histogram::default();
    let mut entries = BTreeSet::new();
    let small = (0..SHAPES).flat_map(|shape| (0..WIDTHS).map(move |width| (shape, width)));
    let any = (0..count).map(|index| shape_and_width(&mut Random::new(seed, index)));
    let mut cases = 0;
    for (shape, width) in small.chain(any) {
        let (answer, numbers) = plain::owed(shape, width);
        let random = &mut Random::new(!seed, cases);
        let differences = |length| difference(shape, width, length, answer, numbers, random);
        if let Some(difference) = (0..=MOST_WORDS).find_map(differences) {
            println!("shape {shape}, width {width}: {difference}");
            println!("{} cases, then a difference", cases + 1);
            return false;
        }
        histogram.count_answer(answer);
        if answer == ACCEPTED {
            entries.insert((shape, width));
        }
        cases += 1;
    }
    histogram.print();
    println!("{} entries, each with every scalar kind", entries.len());
    println!("{cases} cases, 0 differences");
    true
}

fn difference(
    shape: u32,
    width: u32,
    length: usize,
    answer: Answer,
    numbers: Numbers,
    pattern: &mut Random,
) -> Option<String> {
    let mut lent = Guarded::new(length, pattern, Random::word);
    let mut found = Guarded::new(answer.len(), pattern, Random::word);
    port::plain(shape, width, lent.lend(), found.lend());
    let mut owed = lent.before().to_vec();
    if let Some(first) = owed.first_chunk_mut() {
        *first = numbers;
    }
    if found.now() != answer {
        let found = found.now();
        return Some(format!("answer of the port {found:?}, owed {answer:?}"));
    }
    if lent.now() != owed {
        let lent = lent.now();
        return Some(format!("numbers of the port {lent:?}, owed {owed:?}"));
    }
    let touched = found.margins_are_touched() || lent.margins_are_touched();
    touched.then(|| "words beside the answer or the numbers are touched".to_string())
}

/// One of them near an entry's, or both.
fn shape_and_width(random: &mut Random) -> (u32, u32) {
    let shape = random.below(16);
    let width = 1 << random.below(5);
    match random.below(8) {
        0 => (shape, width),
        1 => (shape, random.word()),
        2 => (random.word(), width),
        3 => (shape, random.below(300)),
        4 => (shape | 1 << random.between(4, 31), width),
        5 => (shape, width | 1 << random.below(32)),
        6 => (shape, width << random.below(28)),
        _ => (random.word(), random.word()),
    }
}
