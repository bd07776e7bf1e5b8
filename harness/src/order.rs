//! An order that fits, which the Rust does not have: read from 02 over the
//! words of the records, by trying every permutation. Rows are the Rust's.

use crate::print;
use crate::records::*;

/// The most types that an order may have.
pub const MOST_GIVEN: usize = 7;
/// Type, span and a word for each place.
pub const FOUND_WORDS: usize = 2 + MOST_GIVEN;
/// The number for no order that fits.
pub const NONE_FITS: u32 = 35;

const SIZE: usize = 0;
const ALIGNMENT: usize = 1;
const FLAGS: usize = 2;
const DATA: u32 = 1;
const SIZED: u32 = 2;

/// What one call is handed: the records in use, and the lengths of the tables.
pub struct Call {
    pub arena: Arena,
    pub types_len: usize,
    pub members_len: usize,
    pub wanted: Vec<u32>,
    pub span: u32,
}

/// What the call owes.
pub struct Owed {
    pub answer: Answer,
    pub found: [u32; FOUND_WORDS],
    /// The record and the member rows that are written.
    pub record: Vec<u32>,
    pub rows_of_members: Vec<u32>,
    /// The first words of the rows; none: nothing is touched.
    pub rows: Vec<u32>,
}

fn refused(answer: Answer, rows: Vec<u32>) -> Owed {
    Owed {
        answer,
        found: [0; FOUND_WORDS],
        record: vec![],
        rows_of_members: vec![],
        rows,
    }
}

pub fn of(call: &Call) -> Owed {
    let arena = &call.arena;
    let (types, rows) = (
        arena.type_count() + 1,
        arena.member_count() + call.wanted.len(),
    );
    let no_room = types > MAX_TYPES
        || types * TYPE_WORDS > call.types_len
        || rows > MAX_MEMBERS
        || rows * MEMBER_WORDS > call.members_len
        || types * ROW_WORDS > arena.rows_len;
    if call.wanted.len() > MOST_GIVEN || no_room {
        return refused(WRONG_LENGTH, vec![]);
    }
    let outcome = print::reference_of(arena);
    let Some(rows) = outcome.rows else {
        return refused(outcome.answer, zeros(outcome.answer, arena.type_count()));
    };
    let kept = rows.as_flattened().to_vec();
    match chosen(call, &rows) {
        Err(number) => refused([number, 0, 0, 0], kept),
        Ok(order) => with_struct(call, &rows, &order),
    }
}

/// Number 1 touches nothing; any other refusal of an arena zeroes its rows.
fn zeros(answer: Answer, types: usize) -> Vec<u32> {
    let count = if answer == WRONG_LENGTH { 0 } else { types };
    vec![0; count * ROW_WORDS]
}

fn chosen(call: &Call, rows: &[Row]) -> Result<Vec<usize>, u32> {
    let given = &call.wanted;
    if given.is_empty() {
        return Err(16);
    }
    if given.iter().any(|&ty| ty as usize >= rows.len()) {
        return Err(6);
    }
    let flags = |ty: u32| rows[ty as usize][FLAGS];
    if given.iter().any(|&ty| flags(ty) & DATA == 0) {
        return Err(17);
    }
    let is_unsized = |ty: u32| flags(ty) & SIZED == 0;
    let kind = |ty: u32| call.arena.types[ty as usize * TYPE_WORDS];
    let mut arrays =
        (0..given.len()).filter(|&at| is_unsized(given[at]) && kind(given[at]) == kind::ARRAY);
    let (last, second) = (arrays.next(), arrays.next());
    if second.is_some()
        || given
            .iter()
            .any(|&ty| is_unsized(ty) && kind(ty) == kind::STRUCT)
    {
        return Err(20);
    }
    let orders = permutations(given.len()).into_iter();
    let allowed = orders.filter(|order| last.is_none() || order.last() == last.as_ref());
    let fitting = allowed.filter(|order| placed(call, rows, order).1 <= u128::from(call.span));
    fitting.min().ok_or(NONE_FITS)
}

/// All orders of so many, in no order of their own.
fn permutations(count: usize) -> Vec<Vec<usize>> {
    if count == 0 {
        return vec![vec![]];
    }
    let shorter = permutations(count - 1);
    let longer = shorter.iter().flat_map(|order| {
        (0..count).map(move |at| {
            let mut order = order.clone();
            order.insert(at, count - 1);
            order
        })
    });
    longer.collect()
}

/// The offsets of an order, and its span.
pub fn placed(call: &Call, rows: &[Row], order: &[usize]) -> (Vec<u128>, u128) {
    let row = |at: usize| &rows[call.wanted[at] as usize];
    let mut end = 0;
    let mut offsets = vec![];
    for &at in order {
        let offset = rounded(end, row(at)[ALIGNMENT]);
        offsets.push(offset);
        end = offset + u128::from(row(at)[SIZE]);
    }
    let most = order.iter().map(|&at| row(at)[ALIGNMENT]).max();
    (offsets, rounded(end, most.unwrap_or(1)))
}

fn rounded(n: u128, alignment: u32) -> u128 {
    let k = u128::from(alignment);
    (n + k - 1) / k * k
}

/// The arena with the struct goes through the check.
fn with_struct(call: &Call, rows: &[Row], order: &[usize]) -> Owed {
    let (offsets, span) = placed(call, rows, order);
    let (ty, first) = (rows.len() as u32, call.arena.member_count() as u32);
    let record = vec![kind::STRUCT, first, order.len() as u32, span as u32, 0, 0];
    let pairs = order.iter().zip(&offsets);
    let own = pairs.map(|(&at, &offset)| member(call.wanted[at], offset as u32));
    let rows_of_members = own.collect::<Vec<_>>().into_flattened();
    let mut arena = call.arena.clone();
    arena.types.extend(&record);
    arena.members.extend(&rows_of_members);
    let outcome = print::reference_of(&arena);
    let Some(rows) = outcome.rows else {
        return refused(outcome.answer, zeros(outcome.answer, arena.type_count()));
    };
    let mut found = [0; FOUND_WORDS];
    found[0] = ty;
    found[1] = span as u32;
    for (word, &at) in found[2..].iter_mut().zip(order) {
        *word = at as u32;
    }
    Owed {
        answer: ACCEPTED,
        found,
        record,
        rows_of_members,
        rows: rows.as_flattened().to_vec(),
    }
}
