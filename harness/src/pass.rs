//! A pass, which the Rust of these files does not have: read from 02 over the
//! bytes of the immediates. The slots of a type, and 25, are the Rust's; the
//! arena is judged by it.

use crate::records::*;
use crate::reference::{Expected, Outcome};
use crate::slots::{self, PAST_THE_SLOTS};
use std::collections::BTreeSet;

/// Words of a pass.
pub const PASS_WORDS: usize = 3;
pub const NOT_READY: u32 = 36;
pub const NO_IMMEDIATES: u32 = 37;

const IMMEDIATES: usize = 13;
const IMMEDIATE_BYTES: u64 = 256;

/// The bytes set, and the slots that the type chosen last needs.
#[derive(Clone, Debug)]
pub struct Pass {
    bytes: BTreeSet<u64>,
    needed: Option<BTreeSet<u64>>,
    /// The second word while no pipeline is chosen, which says nothing.
    idle: u64,
}

fn slots_of(mask: u64) -> BTreeSet<u64> {
    (0..SLOTS).filter(|slot| mask >> slot & 1 == 1).collect()
}

fn mask_of(slots: impl Iterator<Item = u64>) -> u64 {
    slots.fold(0, |mask, slot| mask | 1 << slot)
}

impl Pass {
    /// Any three words are a pass; fewer are none.
    pub fn of(words: &[u64]) -> Option<Self> {
        let &[set, needed, chosen] = words.first_chunk()?;
        let bytes = slots_of(set).into_iter().flat_map(|k| 4 * k..4 * k + 4);
        Some(Self {
            bytes: bytes.collect(),
            needed: (chosen != 0).then(|| slots_of(needed)),
            idle: needed,
        })
    }

    pub fn words(&self) -> [u64; PASS_WORDS] {
        let set = mask_of(self.bytes.iter().map(|byte| byte / 4));
        match &self.needed {
            Some(slots) => [set, mask_of(slots.iter().copied()), 1],
            None => [set, self.idle, 0],
        }
    }

    /// The pass after the step, or the number that refuses it.
    pub fn set(&self, offset: u32, size: u32) -> Result<Self, u32> {
        if !offset.is_multiple_of(4) || !size.is_multiple_of(4) {
            return Err(NO_IMMEDIATES);
        }
        let range = u64::from(offset)..u64::from(offset) + u64::from(size);
        if !range.is_empty() && range.end > IMMEDIATE_BYTES {
            return Err(PAST_THE_SLOTS);
        }
        let mut pass = self.clone();
        pass.bytes.extend(range);
        Ok(pass)
    }

    fn choose(&self, mask: u64) -> Self {
        let mut pass = self.clone();
        pass.needed = Some(slots_of(mask));
        pass
    }

    /// The missing slots, or none where it passes.
    pub fn dispatch(&self) -> Result<(), u64> {
        let needed = self.needed.as_ref().ok_or(0u64)?;
        let unset = |slot: &&u64| (4 * **slot..4 * **slot + 4).any(|b| !self.bytes.contains(&b));
        match mask_of(needed.iter().filter(unset).copied()) {
            0 => Ok(()),
            missing => Err(missing),
        }
    }
}

/// What choosing owes, and the pass after it. On fewer than three words the
/// arena is not judged.
pub fn choose(before: Option<&Pass>, outcome: Outcome, ty: u32) -> (Expected, Option<Pass>) {
    let Some(before) = before else {
        return (refused(WRONG_LENGTH, None), None);
    };
    let word = |rows: &Vec<Row>| rows.get(ty as usize).map(|row| row[IMMEDIATES]);
    if outcome.rows.as_ref().and_then(word).unwrap_or(0) != 0 {
        return (refused([NO_IMMEDIATES, 0, 0, 0], outcome.rows), None);
    }
    let walked = slots::walk(outcome, ty, 0);
    let pass = (walked.answer == ACCEPTED).then(|| before.choose(walked.output[0]));
    (refused(walked.answer, walked.rows), pass)
}

/// An answer and rows alone.
fn refused(answer: Answer, rows: Option<Vec<Row>>) -> Expected {
    Expected {
        answer,
        rows,
        output: vec![],
    }
}

#[test]
fn the_smallest_passes() {
    let start = Pass::of(&[0; PASS_WORDS]).unwrap();
    assert_eq!(start.dispatch(), Err(0));
    assert_eq!(start.set(300, 0).map(|pass| pass.words()), Ok([0; 3]));
    let refusals = [(301, 0, 37), (256, 4, 25), (257, 4, 37), (0, 6, 37)];
    for (offset, size, number) in refusals {
        assert_eq!(start.set(offset, size).err(), Some(number));
    }
    let set = start.set(0, 4).unwrap();
    assert_eq!(set.dispatch(), Err(0));
    assert_eq!(set.choose(1).dispatch(), Ok(()));
    assert_eq!(set.choose(7).dispatch(), Err(6));
    assert_eq!(set.choose(7).set(4, 8).unwrap().dispatch(), Ok(()));
    assert_eq!(set.choose(7).words(), [1, 7, 1]);
    assert_eq!(start.choose(0).dispatch(), Ok(()));
    assert!(Pass::of(&[0; 2]).is_none());
}

#[test]
fn the_smallest_pipelines() {
    let start = Pass::of(&[0; PASS_WORDS]).unwrap();
    let number = |types: &[u32], capabilities, ty| {
        let rows_len = ROW_WORDS * (types.len() / TYPE_WORDS);
        let outcome = crate::reference::check(types, &[], capabilities, OLDER, rows_len);
        let (expected, pass) = choose(Some(&start), outcome, ty);
        (expected.answer[0], pass.map(|pass| pass.words()[1]))
    };
    let (half, boolean) = ([0, 2, 2, 0, 0, 0], [0, 3, 1, 0, 0, 0]);
    assert_eq!(number(&half, 2, 0), (37, None));
    assert_eq!(number(&half, 2, 1), (26, None));
    assert_eq!(number(&half, 0, 0), (8, None));
    assert_eq!(number(&boolean, 0, 0), (0, Some(1)));
    let wide = [[0, 2, 4, 0, 0, 0], [7, 0, 0, 65, 4, 0]];
    assert_eq!(number(wide.as_flattened(), 0, 1), (25, None));
    let wide = [half, [7, 0, 0, 200, 2, 0]];
    assert_eq!(number(wide.as_flattened(), 2, 1), (37, None));
}
