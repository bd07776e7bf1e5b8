//! Compares the calls of a pass, over histories: the words that a call leaves
//! are lent to the next one.

use crate::compare::{row_difference, two, Lent};
use crate::guarded::Guarded;
use crate::histogram::Histogram;
use crate::pass::{self, Pass, NOT_READY, PASS_WORDS};
use crate::random::Random;
use crate::records::*;
use crate::slot_calls::{offset_and_size, walked_type};
use crate::{generator, newer, port, print};

const MOST_ARENAS: u32 = 3;
const MOST_STEPS: u32 = 14;

pub fn pass(count: u64, seed: u64) -> bool {
    let mut histogram = Histogram::default();
    for index in 0..count {
        let mut history = History::new(seed, index);
        if let Some(difference) = history.difference(&mut histogram) {
            println!("seed {seed}, index {index}: {difference}");
            history.told.iter().for_each(|step| println!("{step}"));
            history.arenas.iter().for_each(print::arena);
            println!("{} histories, then a difference", index + 1);
            return false;
        }
    }
    histogram.print();
    println!("{count} histories, 0 differences");
    true
}

struct History {
    random: Random,
    arenas: Vec<Arena>,
    /// The words of the pass.
    words: Vec<u64>,
    told: Vec<String>,
}

impl History {
    /// Mostly started by the call, on three words or more; else any words, or
    /// fewer.
    fn new(seed: u64, index: u64) -> Self {
        let mut random = Random::new(!seed, index);
        let count = random.between(1, MOST_ARENAS);
        let numbers = (0..count).map(|k| index * u64::from(MOST_ARENAS) + u64::from(k));
        let arenas = numbers.map(|number| Arena {
            rule: newer::chosen_rule(seed, number),
            ..generator::mostly_sound(seed, number)
        });
        let length = match random.below(16) {
            0 => random.below(3) as usize,
            1..=3 => PASS_WORDS + random.between(1, 4) as usize,
            _ => PASS_WORDS,
        };
        Self {
            arenas: arenas.collect(),
            words: (0..length).map(|_| random.next()).collect(),
            random,
            told: vec![],
        }
    }

    fn difference(&mut self, histogram: &mut Histogram) -> Option<String> {
        if self.random.one_in(8) {
            if self.random.one_in(2) && self.words.len() >= PASS_WORDS {
                self.words[2] = 0;
            }
        } else if let Some(difference) = self.start() {
            return Some(difference);
        }
        (0..self.random.between(1, MOST_STEPS)).find_map(|_| {
            match self.random.weighted(&[5, 3, 4]) {
                0 => self.set(histogram),
                1 => self.choose(histogram),
                _ => self.dispatch(histogram),
            }
        })
    }

    fn start(&mut self) -> Option<String> {
        self.told.push("start".to_string());
        let mut lent = self.lent_pass();
        port::pass_start(lent.lend());
        let zeros = (self.words.len() >= PASS_WORDS).then_some([0; PASS_WORDS]);
        self.taken_back(&lent, zeros)
    }

    fn lent_pass(&mut self) -> Guarded<u64> {
        let mut lent = Guarded::new(self.words.len(), &mut self.random, Random::next);
        lent.hold(&self.words);
        lent
    }

    /// An accepted step leaves its pass in the first three words; nothing else
    /// is touched.
    fn taken_back(&mut self, lent: &Guarded<u64>, after: Option<[u64; 3]>) -> Option<String> {
        let mut owed = self.words.clone();
        if let (Some(first), Some(after)) = (owed.first_chunk_mut(), after) {
            *first = after;
        }
        self.words = lent.now().to_vec();
        if lent.now() != owed {
            return Some(two("pass", lent.now(), &owed));
        }
        let touched = lent.margins_are_touched();
        touched.then(|| "words beside the pass are touched".to_string())
    }

    /// Mostly in fours, and often within the immediates.
    fn range(&mut self) -> (u32, u32) {
        let random = &mut self.random;
        let (offset, size) = match random.below(3) {
            0 => offset_and_size(random),
            _ => (4 * random.below(8), 4 * random.below(48)),
        };
        match random.below(8) {
            0 => (offset ^ random.below(4), size),
            1 => (offset, size ^ random.below(4)),
            _ => (offset & !3, size & !3),
        }
    }

    fn set(&mut self, histogram: &mut Histogram) -> Option<String> {
        let (offset, size) = self.range();
        self.told.push(format!("set {offset} {size}"));
        let after = Pass::of(&self.words).map_or(Err(1), |pass| pass.set(offset, size));
        let answer = [after.as_ref().err().copied().unwrap_or(0), 0, 0, 0];
        note(histogram, "set", answer);
        let mut found = Guarded::new(4, &mut self.random, Random::word);
        let mut lent = self.lent_pass();
        port::pass_set(lent.lend(), offset, size, found.lend());
        let words = after.ok().map(|pass| pass.words());
        answer_difference(&found, answer).or_else(|| self.taken_back(&lent, words))
    }

    fn choose(&mut self, histogram: &mut Histogram) -> Option<String> {
        let arena = self.random.pick(&[0, 1, 2]) % self.arenas.len();
        let ty = walked_type(&mut self.random, &self.arenas[arena]);
        self.told.push(format!("choose {ty} of arena {arena}"));
        let outcome = print::reference_of(&self.arenas[arena]);
        let before = Pass::of(&self.words);
        let (expected, after) = pass::choose(before.as_ref(), outcome, ty);
        note(histogram, "choose", expected.answer);
        let mut found = Guarded::new(4, &mut self.random, Random::word);
        let mut lent = self.lent_pass();
        let arena = self.arenas[arena].clone();
        let mut rows = Guarded::new(arena.rows_len, &mut self.random, Random::word);
        port::pass_choose(
            &arena,
            ty,
            Lent {
                rows: rows.lend(),
                output: lent.lend(),
                answer: found.lend(),
            },
        );
        if rows.margins_are_touched() {
            return Some("words beside the rows are touched".to_string());
        }
        answer_difference(&found, expected.answer)
            .or_else(|| row_difference(&rows, &arena, &expected))
            .or_else(|| self.taken_back(&lent, after.map(|pass| pass.words())))
    }

    fn dispatch(&mut self, histogram: &mut Histogram) -> Option<String> {
        self.told.push("dispatch".to_string());
        let (number, missing) = match Pass::of(&self.words).map(|pass| pass.dispatch()) {
            None => (1, 0),
            Some(Ok(())) => (0, 0),
            Some(Err(missing)) => (NOT_READY, missing),
        };
        note(histogram, "dispatch", [number, 0, 0, 0]);
        if number == NOT_READY {
            histogram.note(match missing {
                0 => "no pipeline",
                _ => "slots missing",
            });
        }
        let mut found = Guarded::new(4, &mut self.random, Random::word);
        let length = self.random.below(3) as usize;
        let mut lent_missing = Guarded::new(length, &mut self.random, Random::next);
        let mut lent = self.lent_pass();
        port::pass_dispatch(lent.lend(), lent_missing.lend(), found.lend());
        let mut owed = lent_missing.before().to_vec();
        owed.iter_mut().take(1).for_each(|word| *word = missing);
        if lent_missing.now() != owed || lent_missing.margins_are_touched() {
            return Some(two("missing", lent_missing.now(), &owed));
        }
        answer_difference(&found, [number, 0, 0, 0]).or_else(|| self.taken_back(&lent, None))
    }
}

fn note(histogram: &mut Histogram, step: &str, answer: Answer) {
    histogram.count_answer(answer);
    histogram.note(&match answer[0] {
        0 => format!("{step} accepted"),
        2..=24 => format!("{step}: arena refused"),
        number => format!("{step}: {number}"),
    });
}

fn answer_difference(found: &Guarded<u32>, owed: Answer) -> Option<String> {
    if found.now() != owed {
        return Some(two("answer", found.now(), &owed));
    }
    let touched = found.margins_are_touched();
    touched.then(|| "words beside the answer are touched".to_string())
}
