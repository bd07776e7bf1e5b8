//! The leaves of a type of an accepted arena, by all of their step lists.

use crate::place;
use crate::records::*;
use std::ops::Range;

/// How many elements of a runtime array are taken.
const RUNTIME_ELEMENTS: u32 = 3;

#[derive(Debug)]
pub struct Leaf {
    #[allow(dead_code)] // printed
    pub steps: Vec<u32>,
    pub place: u64,
    pub ty: u32,
    pub size: u32,
    /// The bytes after a column that no leaf has.
    pub gap: u32,
    /// Whether it stands in a runtime element past the first.
    pub past_first: bool,
}

impl Leaf {
    pub fn end(&self) -> u64 {
        self.place + u64::from(self.size)
    }

    /// The bytes of it that a buffer of this length has.
    pub fn bytes_in(&self, length: usize) -> Range<usize> {
        within(self.place..self.end(), length)
    }

    /// The bytes of the gap after it that a buffer of this length has.
    pub fn gap_in(&self, length: usize) -> Range<usize> {
        within(self.end()..self.end() + u64::from(self.gap), length)
    }
}

fn within(bytes: Range<u64>, length: usize) -> Range<usize> {
    let most = length as u64;
    bytes.start.min(most) as usize..bytes.end.min(most) as usize
}

/// How many leaves each type has.
pub fn leaf_counts(arena: &Arena) -> Vec<u64> {
    let mut counts: Vec<u64> = Vec::with_capacity(arena.type_count());
    for w in arena.types.chunks_exact(TYPE_WORDS) {
        let rows = arena.rows_of(w).map(|(ty, _)| counts[ty as usize]);
        let count = match w[0] {
            kind::ARRAY => counts[w[1] as usize].saturating_mul(u64::from(element_count(w))),
            kind::STRUCT => rows.fold(0, u64::saturating_add),
            kind::MATRIX => u64::from(w[1]),
            _ => 1,
        };
        counts.push(count);
    }
    counts
}

fn element_count(array: &[u32]) -> u32 {
    match array[2] {
        DYNAMIC => RUNTIME_ELEMENTS,
        _ => array[3],
    }
}

pub fn leaves_of(arena: &Arena, start: u32, size: impl Fn(usize) -> u32) -> Vec<Leaf> {
    let mut lists = Vec::new();
    step_lists(arena, start, false, &mut Vec::new(), &mut lists);
    let leaf = |(steps, past_first): (Vec<u32>, bool)| {
        let found = place::of(&arena.types, &arena.members, start, &steps);
        let (place, ty) = found.expect("the steps lead to a leaf");
        let (size, gap) = measure(arena, ty, size(ty as usize));
        Leaf {
            steps,
            place,
            ty,
            size,
            gap,
            past_first,
        }
    };
    lists.into_iter().map(leaf).collect()
}

/// The bytes of a leaf, and of the gap after it.
fn measure(arena: &Arena, ty: u32, size: u32) -> (u32, u32) {
    let w = &arena.types[TYPE_WORDS * ty as usize..][..TYPE_WORDS];
    match w[0] {
        kind::MATRIX => {
            let length = place::column_length(w);
            (length, place::column_step(w) - length)
        }
        _ => (size, 0),
    }
}

/// All ways on from a type, each with whether it goes past a first runtime element.
fn step_lists(
    arena: &Arena,
    number: u32,
    past_first: bool,
    steps: &mut Vec<u32>,
    lists: &mut Vec<(Vec<u32>, bool)>,
) {
    let w = &arena.types[TYPE_WORDS * number as usize..][..TYPE_WORDS];
    let next: Vec<Option<u32>> = match w[0] {
        kind::ARRAY => vec![Some(w[1]); element_count(w) as usize],
        kind::STRUCT => arena.rows_of(w).map(|(ty, _)| Some(ty)).collect(),
        kind::MATRIX => vec![None; w[1] as usize],
        _ => return lists.push((steps.clone(), past_first)),
    };
    let runtime = w[0] == kind::ARRAY && w[2] == DYNAMIC;
    for (step, &ty) in next.iter().enumerate() {
        let past_first = past_first || (runtime && step > 0);
        steps.push(step as u32);
        match ty {
            Some(ty) => step_lists(arena, ty, past_first, steps, lists),
            None => lists.push((steps.clone(), past_first)),
        }
        steps.pop();
    }
}
