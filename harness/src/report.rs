//! The report, which the Rust does not have: read from 02 over the words of the
//! records. Flags and sizes are the Rust's.

use crate::records::*;
use crate::reference::{Expected, Outcome};
use std::collections::BTreeSet;

/// The number for a stride below the element's size.
pub const NARROW_STRIDE: u32 = 27;
/// Words of the report for each type.
pub const REPORT_WORDS: usize = 2;
/// The largest struct whose bytes are counted one by one.
const LARGEST_COUNTED: u32 = 4096;

const SIZE: usize = 0;
const FLAGS: usize = 2;
const HOST_SHAREABLE: u32 = 16;

/// Bytes carried, bytes wasted.
pub type Counts = [u64; REPORT_WORDS];

/// What the call owes.
pub struct Owed {
    /// The output is the totals.
    pub expected: Expected,
    /// The words of each type; none: zeroes.
    pub report: Option<Vec<Counts>>,
    /// How many structs were counted byte by byte, and how many by sums.
    pub counted: [u64; 2],
}

pub fn of(arena: &Arena, outcome: Outcome, report_len: usize) -> Owed {
    if report_len < REPORT_WORDS * arena.type_count() {
        return refused(WRONG_LENGTH, None);
    }
    let Some(rows) = outcome.rows else {
        return refused(outcome.answer, None);
    };
    let accepted = Accepted { arena, rows: &rows };
    if let Some(ty) = accepted.first_narrow() {
        return refused([NARROW_STRIDE, ty as u32, 0, 0], Some(rows));
    }
    let (report, counted) = accepted.report();
    let total = |column: usize| report.iter().map(|counts| counts[column]).sum();
    Owed {
        expected: Expected {
            answer: ACCEPTED,
            output: vec![total(0), total(1)],
            rows: Some(rows),
        },
        report: Some(report),
        counted,
    }
}

fn refused(answer: Answer, rows: Option<Vec<Row>>) -> Owed {
    Owed {
        expected: Expected {
            answer,
            rows,
            output: vec![0; REPORT_WORDS],
        },
        report: None,
        counted: [0; 2],
    }
}

/// The lent report as it is owed: number 1 leaves it, acceptance and every other
/// refusal change the words of the types.
pub fn owed_words(before: &[u64], arena: &Arena, owed: &Owed) -> Vec<u64> {
    let mut words = before.to_vec();
    if owed.expected.answer == WRONG_LENGTH {
        return words;
    }
    let own = &mut words[..REPORT_WORDS * arena.type_count()];
    match &owed.report {
        None => own.fill(0),
        Some(report) => own.copy_from_slice(report.as_flattened()),
    }
    words
}

/// An accepted arena and its rows.
struct Accepted<'a> {
    arena: &'a Arena,
    rows: &'a [Row],
}

impl Accepted<'_> {
    fn record(&self, number: usize) -> &[u32] {
        &self.arena.types[TYPE_WORDS * number..][..TYPE_WORDS]
    }

    fn size(&self, number: usize) -> u32 {
        self.rows[number][SIZE]
    }

    fn is_reported(&self, number: usize) -> bool {
        let shareable = self.rows[number][FLAGS] & HOST_SHAREABLE != 0;
        self.record(number)[0] == kind::STRUCT && shareable
    }

    /// The array's base, the struct's member types.
    fn leads_to(&self, number: usize) -> Vec<usize> {
        let w = self.record(number);
        match w[0] {
            kind::ARRAY => vec![w[1] as usize],
            kind::STRUCT => self.arena.rows_of(w).map(|row| row.0 as usize).collect(),
            _ => Vec::new(),
        }
    }

    fn reached(&self, start: usize) -> BTreeSet<usize> {
        let (mut found, mut open) = (BTreeSet::new(), vec![start]);
        while let Some(number) = open.pop() {
            if found.insert(number) {
                open.extend(self.leads_to(number));
            }
        }
        found
    }

    /// Whether the type is an array with a stride below its element's size.
    fn is_narrow(&self, number: usize) -> bool {
        let w = self.record(number);
        w[0] == kind::ARRAY && w[4] < self.size(w[1] as usize)
    }

    fn first_narrow(&self) -> Option<usize> {
        let mut structs = (0..self.rows.len()).filter(|&ty| self.is_reported(ty));
        structs.find(|&ty| self.reached(ty).into_iter().any(|ty| self.is_narrow(ty)))
    }

    /// The words of each type, 0 for the unreported.
    fn report(&self) -> (Vec<Counts>, [u64; 2]) {
        let sums = self.sums();
        let mut counted = [0; 2];
        let counts = (0..self.rows.len()).map(|number| {
            if !self.is_reported(number) {
                return [0; REPORT_WORDS];
            }
            let size = u64::from(self.size(number));
            let carried = sums[number];
            let summed = [carried, size - carried];
            if self.size(number) > LARGEST_COUNTED {
                counted[1] += 1;
                return summed;
            }
            counted[0] += 1;
            let counts = self.count(number);
            assert_eq!(counts, summed, "the sums of type {number}");
            counts
        });
        (counts.collect(), counted)
    }

    /// Byte by byte: those that a leaf holds, and those that none does.
    fn count(&self, number: usize) -> Counts {
        let mut held = vec![false; self.size(number) as usize];
        self.hold(number, 0, &mut held);
        let carried = held.iter().filter(|&&byte| byte).count();
        let wasted = held.iter().filter(|&&byte| !byte).count();
        [carried as u64, wasted as u64]
    }

    /// Marks the bytes of the leaves that steps lead to, the first element of a
    /// runtime array alone.
    fn hold(&self, number: usize, at: usize, held: &mut [bool]) {
        let w = self.record(number);
        match w[0] {
            kind::ARRAY => {
                for element in 0..elements(w) as usize {
                    self.hold(w[1] as usize, at + element * w[4] as usize, held);
                }
            }
            kind::STRUCT => {
                for (ty, offset) in self.arena.rows_of(w) {
                    self.hold(ty as usize, at + offset as usize, held);
                }
            }
            kind::MATRIX => {
                let (column, step) = column(w);
                for start in (0..w[1]).map(|number| at + (number * step) as usize) {
                    held[start..start + column as usize].fill(true);
                }
            }
            _ => held[at..at + self.size(number) as usize].fill(true),
        }
    }

    /// The bytes in leaves of each type as sums, which cost no time for each
    /// byte. They are right where leaves lie apart, so for all that is reported.
    fn sums(&self) -> Vec<u64> {
        let mut sums: Vec<u64> = Vec::with_capacity(self.rows.len());
        for number in 0..self.rows.len() {
            let w = self.record(number);
            let members = self.arena.rows_of(w).map(|row| sums[row.0 as usize]);
            let sum = match w[0] {
                kind::ARRAY => sums[w[1] as usize].saturating_mul(u64::from(elements(w))),
                kind::STRUCT => members.fold(0, u64::saturating_add),
                kind::MATRIX => u64::from(w[1] * column(w).0),
                _ => u64::from(self.size(number)),
            };
            sums.push(sum);
        }
        sums
    }
}

/// A runtime array counts as one element.
fn elements(array: &[u32]) -> u32 {
    match array[2] {
        DYNAMIC => 1,
        _ => array[3],
    }
}

/// How long a matrix's column is, and how far from the next.
fn column(matrix: &[u32]) -> (u32, u32) {
    let (rows, width) = (matrix[2], matrix[4]);
    let step = if rows == 2 { 2 } else { 4 };
    (rows * width, step * width)
}

#[cfg(test)]
mod tests {
    use super::*;
    use crate::{generator, print};

    const E: [u32; 6] = [kind::SCALAR, 2, 4, 0, 0, 0];
    const V: [u32; 6] = [kind::VECTOR, 3, 2, 4, 0, 0];
    const B: [u32; 6] = [kind::SCALAR, 3, 1, 0, 0, 0];
    const M: [u32; 6] = [kind::MATRIX, 3, 3, 2, 4, 0];

    fn structure(first: u32, count: u32, span: u32) -> [u32; 6] {
        [kind::STRUCT, first, count, span, 0, 0]
    }

    fn array(base: u32, form: u32, count: u32, stride: u32) -> [u32; 6] {
        [kind::ARRAY, base, form, count, stride, 0]
    }

    /// The refusal, or the totals and the words of each type. Members by type and offset.
    fn report(types: &[[u32; 6]], members: &[u32]) -> Result<(Vec<u64>, Vec<Counts>), Answer> {
        let arena = Arena {
            types: types.as_flattened().to_vec(),
            members: members_of_pairs(members),
            capabilities: 0,
            rule: OLDER,
            rows_len: ROW_WORDS * types.len(),
        };
        let owed = of(
            &arena,
            print::reference_of(&arena),
            REPORT_WORDS * types.len(),
        );
        let Some(report) = owed.report else {
            return Err(owed.expected.answer);
        };
        Ok((owed.expected.output, report))
    }

    #[test]
    fn structs() {
        assert_eq!(report(&[], &[]), Ok((vec![0, 0], vec![])));
        assert_eq!(
            report(&[V, structure(0, 1, 16)], &[0, 0]),
            Ok((vec![12, 4], vec![[0, 0], [12, 4]]))
        );
        assert_eq!(
            report(&[M, structure(0, 1, 48)], &[0, 0]),
            Ok((vec![36, 12], vec![[0, 0], [36, 12]]))
        );
        let nested = [E, structure(0, 1, 4), structure(1, 2, 16)];
        assert_eq!(
            report(&nested, &[0, 0, 1, 0, 0, 8]),
            Ok((vec![12, 8], vec![[0, 0], [4, 0], [8, 8]]))
        );
        let runtime = [E, array(0, DYNAMIC, 0, 8), structure(0, 2, 24)];
        assert_eq!(
            report(&runtime, &[0, 0, 1, 8]),
            Ok((vec![8, 16], vec![[0, 0], [0, 0], [8, 16]]))
        );
        let not_shareable = report(&[E, V, structure(0, 2, 16)], &[1, 0, 0, 0]);
        assert_eq!(not_shareable, Ok((vec![0, 0], vec![[0, 0]; 3])));
    }

    #[test]
    fn narrow_strides() {
        let strideless = array(0, CONSTANT, 1, 0);
        let types = [E, strideless, structure(0, 1, 4)];
        assert_eq!(report(&types, &[1, 0]), Err([27, 2, 0, 0]));
        assert_eq!(
            report(&types, &[0, 0]),
            Ok((vec![4, 0], vec![[0, 0], [0, 0], [4, 0]]))
        );
        let bools = [B, array(0, CONSTANT, 2, 0), structure(0, 1, 4)];
        assert_eq!(report(&bools, &[1, 0]), Ok((vec![0, 0], vec![[0, 0]; 3])));
        let nested = [
            E,
            array(0, CONSTANT, 2, 2),
            structure(0, 1, 4),
            structure(1, 1, 8),
        ];
        assert_eq!(report(&nested, &[1, 0, 2, 0]), Err([27, 2, 0, 0]));
    }

    #[test]
    fn shared_many_levels_deep() {
        let arena = generator::doubled(28);
        let owed = of(&arena, print::reference_of(&arena), 2 * arena.type_count());
        let report = owed.report.unwrap();
        assert_eq!(report[1..3], [[8, 0], [16, 0]]);
        assert_eq!(report[28], [1 << 30, 0]);
        assert_eq!(owed.expected.output, [(1 << 31) - 8, 0]);
    }
}
