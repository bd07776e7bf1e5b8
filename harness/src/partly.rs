//! The slots that a part covers only in part, which the Rust does not know:
//! read from 02 alone, byte by byte.

use crate::records::SLOTS;

/// A part: its first byte and how many bytes it has.
pub type Part = (u32, u32);

/// The slots that one of the parts covers only in part.
pub fn mask(parts: &[Part]) -> u64 {
    parts.iter().fold(0, |mask, &part| mask | of_part(part))
}

/// The slots of which the part has some of the four bytes, and not all.
fn of_part((offset, size): Part) -> u64 {
    let bytes = u64::from(offset)..u64::from(offset) + u64::from(size);
    let partly = |slot: &u64| {
        let covered = (4 * slot..4 * slot + 4).filter(|byte| bytes.contains(byte));
        matches!(covered.count(), 1..=3)
    };
    (0..SLOTS).filter(partly).map(|slot| 1 << slot).sum()
}
