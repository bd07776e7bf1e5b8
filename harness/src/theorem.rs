//! Term 3's conclusion about leaves, tried on small types of accepted arenas by
//! rewriting every leaf. Flags, sizes and verdicts are the Rust's.

use crate::growth;
use crate::histogram::Histogram;
use crate::leaves::{leaf_counts, leaves_of, Leaf};
use crate::random::Random;
use crate::records::*;
use crate::{generator, print};
use std::collections::BTreeSet;
use std::ops::Range;

const LARGEST_TYPE: u32 = 256;
const MOST_LEAVES: u64 = 64;
/// With narrow strides a leaf may stand far past the type's size.
const LONGEST_BUFFER: u64 = 1024;
/// From so many arenas on, types outside the hypotheses must be seen to overlap.
const ENOUGH_ARENAS: u64 = 1000;

const SIZE: usize = 0;
const FLAGS: usize = 2;
const STORAGE_CODE: usize = 8;
const STORAGE_ALIGNMENT: usize = 9;
const DATA: u32 = 1;
const HOST_SHAREABLE: u32 = 16;

/// An accepted arena and its rows.
struct Accepted<'a> {
    arena: &'a Arena,
    rows: &'a [Row],
    /// For each type: is every array that it reaches as wide as its element?
    wide: Vec<bool>,
}

/// Whether no type within the hypotheses fails, and others do.
pub fn theorem(count: u64, seed: u64) -> bool {
    let mut histogram = Histogram::default();
    for index in 0..count {
        let arena = generator::mostly_sound(seed, index);
        let random = &mut Random::new(!seed, index);
        if let Err(failure) = try_arena(&arena, random, &mut histogram) {
            println!("seed {seed}, index {index}: {failure}");
            print::arena(&arena);
            return false;
        }
    }
    histogram.print();
    println!("{count} arenas, no type within the hypotheses fails");
    count < ENOUGH_ARENAS || (overlaps_seen(&histogram) && gaps_seen(&histogram))
}

/// Whether types outside the hypotheses overlap, for either cause.
fn overlaps_seen(histogram: &Histogram) -> bool {
    let overlap = |sort| histogram.noted(&format!("{sort}: overlap")) > 0;
    let seen = overlap(NARROW) && overlap(NOT_SHAREABLE);
    if !seen {
        println!("but no type outside them overlaps: the arenas show nothing");
    }
    seen
}

/// Whether every matrix with gaps was met, of f32 and of f16.
fn gaps_seen(histogram: &Histogram) -> bool {
    let shapes = (2..=4).flat_map(|columns| [(columns, 2), (columns, 4)]);
    let mut unseen = shapes.filter(|&(columns, width)| histogram.noted(&gaps(columns, width)) == 0);
    let first = unseen.next();
    if let Some((columns, width)) = first {
        println!("but {} is never met", gaps(columns, width));
    }
    first.is_none()
}

/// The name of a matrix with gaps: it has three rows.
fn gaps(columns: u32, width: u32) -> String {
    format!("{WITHIN}: with gaps of mat{columns}x3, width {width}")
}

fn try_arena(arena: &Arena, random: &mut Random, histogram: &mut Histogram) -> Result<(), String> {
    let Some(rows) = print::reference_of(arena).rows else {
        histogram.note("arena refused");
        return Ok(());
    };
    histogram.note("arena accepted");
    growth::try_growth(arena, &rows, random, histogram)?;
    let counts = leaf_counts(arena);
    let accepted = Accepted {
        arena,
        rows: &rows,
        wide: wide_strides(arena, &rows),
    };
    for (number, row) in rows.iter().enumerate() {
        let small = row[SIZE] <= LARGEST_TYPE && counts[number] <= MOST_LEAVES;
        if row[FLAGS] & DATA != 0 && small {
            let tried = accepted.try_type(number, random, histogram);
            tried.map_err(|failure| format!("type {number}: {failure}"))?;
        }
    }
    Ok(())
}

/// By earlier types: the type itself, its base or its members.
fn wide_strides(arena: &Arena, rows: &[Row]) -> Vec<bool> {
    let mut wide: Vec<bool> = Vec::with_capacity(rows.len());
    for w in arena.types.chunks_exact(TYPE_WORDS) {
        let is_wide = match w[0] {
            kind::ARRAY => w[4] >= rows[w[1] as usize][SIZE] && wide[w[1] as usize],
            kind::STRUCT => arena.rows_of(w).all(|(ty, _)| wide[ty as usize]),
            _ => true,
        };
        wide.push(is_wide);
    }
    wide
}

const WITHIN: &str = "within the hypotheses";
const NARROW: &str = "host-shareable, a stride below its element";
const NOT_SHAREABLE: &str = "not host-shareable, wide strides";
const NEITHER: &str = "not host-shareable, a stride below its element";

impl Accepted<'_> {
    fn try_type(
        &self,
        number: usize,
        random: &mut Random,
        histogram: &mut Histogram,
    ) -> Result<(), String> {
        let row = &self.rows[number];
        let shareable = row[FLAGS] & HOST_SHAREABLE != 0;
        let sort = match (shareable, self.wide[number]) {
            (true, true) => WITHIN,
            (true, false) => NARROW,
            (false, true) => NOT_SHAREABLE,
            (false, false) => NEITHER,
        };
        let leaves = leaves_of(self.arena, number as u32, |ty| self.rows[ty][SIZE]);
        let owed = sort == WITHIN;
        histogram.note(sort);
        if owed {
            self.note_leaves(&leaves, histogram);
        }
        judge(
            histogram,
            sort,
            owed,
            "overlap",
            rewriting(&leaves, row[SIZE], random),
        )?;
        judge(
            histogram,
            sort,
            owed,
            "past the size",
            past_the_size(&leaves, row[SIZE]),
        )?;
        let verdict = row[STORAGE_CODE] == 0;
        let name = if verdict {
            "misaligned, Ok"
        } else {
            "misaligned, not Ok"
        };
        judge(
            histogram,
            sort,
            shareable && verdict,
            name,
            self.misaligned(&leaves),
        )
    }

    /// Runtime elements past the first, and each sort of matrix that leaves gaps.
    fn note_leaves(&self, leaves: &[Leaf], histogram: &mut Histogram) {
        if leaves.iter().any(|leaf| leaf.past_first) {
            histogram.note(&format!("{WITHIN}: with runtime elements"));
        }
        let with_gaps = leaves.iter().filter(|leaf| leaf.gap > 0);
        let matrices = with_gaps.filter_map(|leaf| type_record(&self.arena.types, leaf.ty));
        let names: BTreeSet<String> = matrices.map(|w| gaps(w[1], w[4])).collect();
        names.iter().for_each(|name| histogram.note(name));
    }

    /// A leaf that is not at a multiple of its own storage alignment.
    fn misaligned(&self, leaves: &[Leaf]) -> Option<String> {
        let misaligned = |leaf: &&Leaf| {
            let row = &self.rows[leaf.ty as usize];
            let aligned = leaf.place.is_multiple_of(u64::from(row[STORAGE_ALIGNMENT]));
            row[STORAGE_CODE] != 0 || !aligned
        };
        let leaf = leaves.iter().find(misaligned)?;
        Some(format!("{leaf:?} is not aligned"))
    }
}

/// What is owed must not fail; elsewhere failures are counted.
fn judge(
    histogram: &mut Histogram,
    sort: &str,
    owed: bool,
    name: &str,
    failure: Option<String>,
) -> Result<(), String> {
    match failure {
        Some(failure) if owed => return Err(failure),
        Some(_) => histogram.note(&format!("{sort}: {name}")),
        None => {}
    }
    Ok(())
}

/// A leaf that ends past the type's size, runtime elements past the first aside.
fn past_the_size(leaves: &[Leaf], size: u32) -> Option<String> {
    let mut first = leaves.iter().filter(|leaf| !leaf.past_first);
    let leaf = first.find(|leaf| leaf.end() > u64::from(size))?;
    Some(format!("{leaf:?} ends past {size}"))
}

/// Rewrites each leaf in a buffer of any length and looks at the others; tells
/// of the first that changes.
fn rewriting(leaves: &[Leaf], size: u32, random: &mut Random) -> Option<String> {
    let furthest = leaves.iter().map(Leaf::end).max().unwrap_or(0);
    let whole = furthest.max(u64::from(size)).min(LONGEST_BUFFER) as usize;
    for (at, leaf) in leaves.iter().enumerate() {
        let length = match random.below(3) {
            0 => random.below(whole as u32 + 1) as usize,
            _ => whole + random.below(40) as usize,
        };
        let before: Vec<u8> = (0..length).map(|_| random.word() as u8).collect();
        let mut buffer = before.clone();
        for byte in leaf.bytes_in(length) {
            // Never the old byte, so that every change is seen.
            buffer[byte] ^= random.between(1, 255) as u8;
        }
        let changed = |bytes: Range<usize>| buffer[bytes.clone()] != before[bytes];
        let mut others = leaves[..at].iter().chain(&leaves[at + 1..]);
        if let Some(other) = others.find(|other| changed(other.bytes_in(length))) {
            return Some(format!("rewriting {leaf:?} changes {other:?}"));
        }
        if let Some(column) = leaves.iter().find(|column| changed(column.gap_in(length))) {
            return Some(format!(
                "rewriting {leaf:?} changes the gap after {column:?}"
            ));
        }
    }
    None
}
