//! The two slot words: the slots touched are the Rust's, and 25 is where it
//! panics; those covered only in part are read byte by byte.

use crate::panics::caught;
use crate::partly::{self, Part};
use crate::records::*;
use crate::reference::{self, Expected, Outcome};
use naga::proc::GlobalCtx;
use naga::valid::ImmediateSlots;
use naga::{Type, TypeInner, UniqueArena};

pub const PAST_THE_SLOTS: u32 = 25;

/// Slots touched, slots covered only in part.
pub type Masks = [u64; 2];

/// What the call for a range owes; it has no arena.
pub fn range(offset: u32, size: u32) -> Expected {
    let (answer, masks) = match of_range(offset, size) {
        Ok(masks) => (ACCEPTED, masks),
        Err(number) => ([number, 0, 0, 0], [0; 2]),
    };
    Expected {
        answer,
        rows: None,
        output: masks.to_vec(),
    }
}

/// What the call for a type owes.
pub fn walk(outcome: Outcome, number: u32, offset: u32) -> Expected {
    reference::check_then(outcome, 2, |types| {
        if number as usize >= types.len() {
            return Err(NO_SUCH);
        }
        of_type(types, number, offset).map(|masks| masks.to_vec())
    })
}

pub fn of_range(offset: u32, size: u32) -> Result<Masks, u32> {
    let touched = word(|| ImmediateSlots::from_range(offset, size))?;
    Ok([touched, partly::mask(&[(offset, size)])])
}

/// The walk over a type of an accepted arena.
pub fn of_type(types: &UniqueArena<Type>, number: u32, offset: u32) -> Result<Masks, u32> {
    let inner = &types[naga::handle_of(number)].inner;
    let touched =
        word(|| ImmediateSlots::from_type(inner, offset, types, GlobalCtx::of_types(types)))?;
    Ok([touched, partly::mask(&parts(types, inner, offset))])
}

/// The parts of a type at an offset.
pub fn parts(types: &UniqueArena<Type>, inner: &TypeInner, offset: u32) -> Vec<Part> {
    let mut parts = Vec::new();
    add_parts(types, inner, offset, &mut parts);
    parts
}

/// The type itself, or the parts of its members if it is a struct. Where the Rust has a word, the sums stay within 32 bits.
fn add_parts(types: &UniqueArena<Type>, inner: &TypeInner, offset: u32, parts: &mut Vec<Part>) {
    let TypeInner::Struct { members, .. } = inner else {
        return parts.push((offset, inner.size(GlobalCtx::of_types(types))));
    };
    for member in members {
        let at = offset + member.offset;
        add_parts(types, &types[member.ty].inner, at, parts);
    }
}

fn word(slots: impl FnOnce() -> ImmediateSlots) -> Result<u64, u32> {
    caught(slots).map(bits).map_err(|_| PAST_THE_SLOTS)
}

/// The Rust's mask as a word; it hands out no bits, so each is asked for.
pub fn bits(slots: ImmediateSlots) -> u64 {
    let bits = (0..SLOTS).map(|bit| 1u64 << bit);
    let set = bits.filter(|&bit| slots.contains(ImmediateSlots::from_raw(bit)));
    set.fold(0, |word, bit| word | bit)
}
