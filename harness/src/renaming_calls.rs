//! Compares the calls with themselves: rows, slots and places of an arena and of
//! the same arena under another numbering.

use crate::compare::Lent;
use crate::histogram::Histogram;
use crate::place_calls::start_and_steps;
use crate::random::Random;
use crate::records::*;
use crate::renaming::{renamed, Renamed};
use crate::slot_calls::{start, walk_lengths, LONGEST_WALK};
use crate::{generator, newer, place, port, print};

const UNIFORM: usize = 3;
const STORAGE: usize = 8;
const WALKS: u32 = 3;
const LOOKUPS: u32 = 5;
/// From so many arenas on, each of these must be seen.
const ENOUGH_ARENAS: u64 = 1000;
const SOUGHT: [&str; 7] = [
    POINTER,
    BINDING_ARRAY,
    NAMED,
    COLUMN,
    RUNTIME_ARRAY,
    SOURCES,
    MERGED,
];
const POINTER: &str = "pointers renamed";
const BINDING_ARRAY: &str = "binding arrays renamed";
const RUNTIME_ARRAY: &str = "runtime arrays renamed";
const NAMED: &str = "verdicts whose type has another number";
const COLUMN: &str = "columns found";
const SOURCES: &str = "arenas with blend sources";
const MERGED: &str = "arenas with types that share a number";

/// COUNT accepted arenas.
pub fn renaming(count: u64, seed: u64) -> bool {
    let mut histogram = Histogram::default();
    let (mut index, mut accepted) = (0, 0);
    while accepted < count {
        let arena = Arena {
            rule: newer::chosen_rule(seed, index),
            ..generator::mostly_sound(seed, index)
        };
        let mut random = Random::new(!seed, index);
        match try_arena(&arena, &mut random, &mut histogram) {
            Ok(was_accepted) => accepted += u64::from(was_accepted),
            Err(difference) => {
                println!("seed {seed}, index {index}: {difference}");
                println!("{accepted} arenas, then a difference");
                return false;
            }
        }
        index += 1;
    }
    histogram.print();
    println!("{count} arenas of {index}, 0 differences");
    let unseen = SOUGHT.into_iter().find(|what| histogram.noted(what) == 0);
    if let Some(what) = unseen {
        println!("but no {what}");
    }
    count < ENOUGH_ARENAS || unseen.is_none()
}

/// Whether the arena was accepted and could be renamed.
fn try_arena(
    arena: &Arena,
    random: &mut Random,
    histogram: &mut Histogram,
) -> Result<bool, String> {
    let first = called(arena, random, 0, |lent| port::check(arena, lent));
    if first.answer != ACCEPTED {
        return Ok(false);
    }
    let Some(renamed) = renamed(random, arena) else {
        histogram.note("too many rows");
        return Ok(false);
    };
    let pair = Pair { arena, renamed };
    pair.difference(&first, random, histogram)
        .map_or(Ok(true), |difference| {
            print::arena(arena);
            print::arena(&pair.renamed.arena);
            Err(format!("{difference}; numbers {:?}", pair.renamed.numbers))
        })
}

/// What a call leaves.
struct Called {
    answer: Answer,
    rows: Vec<u32>,
    output: Vec<u64>,
}

fn called(arena: &Arena, random: &mut Random, words: usize, call: impl FnOnce(Lent)) -> Called {
    let mut called = Called {
        answer: [0; 4].map(|_: u32| random.word()),
        rows: (0..arena.rows_len).map(|_| random.word()).collect(),
        output: (0..words).map(|_| random.next()).collect(),
    };
    call(Lent {
        rows: &mut called.rows,
        output: &mut called.output,
        answer: &mut called.answer,
    });
    called
}

struct Pair<'a> {
    arena: &'a Arena,
    renamed: Renamed,
}

impl Pair<'_> {
    fn difference(
        &self,
        first: &Called,
        random: &mut Random,
        histogram: &mut Histogram,
    ) -> Option<String> {
        self.note_types(histogram);
        let other = &self.renamed.arena;
        let second = called(other, random, 0, |lent| port::check(other, lent));
        if second.answer != ACCEPTED {
            return Some(format!("the second is refused: {:?}", second.answer));
        }
        self.rows(first, &second, histogram)
            .or_else(|| (0..WALKS).find_map(|_| self.slots(random, histogram)))
            .or_else(|| (0..LOOKUPS).find_map(|_| self.place(random, histogram)))
    }

    fn number(&self, ty: u32) -> Option<u32> {
        self.renamed.numbers.get(ty as usize).copied().flatten()
    }

    fn note_types(&self, histogram: &mut Histogram) {
        let records = self.arena.types.chunks_exact(TYPE_WORDS);
        for (record, _) in records
            .zip(&self.renamed.numbers)
            .filter(|(_, n)| n.is_some())
        {
            match (record[0], record[2]) {
                (kind::POINTER, _) => histogram.note(POINTER),
                (kind::BINDING_ARRAY, _) => histogram.note(BINDING_ARRAY),
                (kind::ARRAY, DYNAMIC) => histogram.note(RUNTIME_ARRAY),
                _ => {}
            }
        }
        if self.renamed.arena.has_blend_source() {
            histogram.note(SOURCES);
        }
        if self.renamed.merged > 0 {
            histogram.note(MERGED);
        }
    }

    /// The second word of a verdict is a type unless its code is 0.
    fn rows(&self, first: &Called, second: &Called, histogram: &mut Histogram) -> Option<String> {
        let rows = first.rows.chunks_exact(ROW_WORDS);
        rows.zip(&self.renamed.numbers)
            .enumerate()
            .find_map(|(ty, (row, number))| {
                let at = ROW_WORDS * (*number)? as usize;
                let mut owed = row.to_vec();
                for verdict in [UNIFORM, STORAGE] {
                    if row[verdict] != 0 {
                        owed[verdict + 1] = self.number(row[verdict + 1]).unwrap_or(u32::MAX);
                        if owed[verdict + 1] != row[verdict + 1] {
                            histogram.note(NAMED);
                        }
                    }
                }
                let found = &second.rows[at..at + ROW_WORDS];
                (found != owed).then(|| format!("type {ty}: row {found:?}, owed {owed:?}"))
            })
    }

    fn slots(&self, random: &mut Random, histogram: &mut Histogram) -> Option<String> {
        let ty = random.below(self.arena.type_count().max(1) as u32);
        let number = self.number(ty)?;
        if walk_lengths(self.arena)[ty as usize] > LONGEST_WALK {
            return None;
        }
        let offset = start(random);
        let other = &self.renamed.arena;
        let first = called(self.arena, random, 2, |lent| {
            port::slots(self.arena, ty, offset, lent)
        });
        let second = called(other, random, 2, |lent| {
            port::slots(other, number, offset, lent)
        });
        histogram.note(match first.answer[0] {
            0 => "masks compared",
            _ => "25 compared",
        });
        let same = first.answer == second.answer && first.output == second.output;
        (!same).then(|| {
            let (found, owed) = ((second.answer, second.output), (first.answer, first.output));
            format!("type {ty} at {offset}: slots {found:?}, owed {owed:?}")
        })
    }

    fn place(&self, random: &mut Random, histogram: &mut Histogram) -> Option<String> {
        let (ty, steps) = start_and_steps(random, self.arena);
        let number = self.number(ty)?;
        let other = &self.renamed.arena;
        let first = called(self.arena, random, 2, |lent| {
            port::place(self.arena, ty, &steps, lent)
        });
        let second = called(other, random, 2, |lent| {
            port::place(other, number, &steps, lent)
        });
        let mut owed = first.output.clone();
        if first.answer == ACCEPTED {
            owed[1] = u64::from(self.number(owed[1] as u32).unwrap_or(u32::MAX));
            let columns = place::steps_at_a_matrix(self.arena, ty, &steps);
            histogram.note(columns.map_or("places found", |_| COLUMN));
        } else {
            histogram.note("26 compared");
        }
        let same = first.answer == second.answer && owed == second.output;
        (!same).then(|| {
            let (found, owed) = ((second.answer, second.output), (first.answer, owed));
            format!("type {ty}, steps {steps:?}: place {found:?}, owed {owed:?}")
        })
    }
}
