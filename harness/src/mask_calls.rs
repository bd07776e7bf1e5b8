//! Compares the three calls on masks: contains, difference and union.

use crate::histogram::Histogram;
use crate::random::Random;
use crate::{port, slots};
use naga::valid::ImmediateSlots;

pub fn masks(count: u64, seed: u64) -> bool {
    let mut histogram = Histogram::default();
    for index in 0..count {
        let (mask, other) = two_masks(&mut Random::new(seed, index));
        if let Some(difference) = difference(mask, other) {
            println!("seed {seed}, index {index}: masks {mask:#x} and {other:#x}: {difference}");
            println!("{} cases, then a difference", index + 1);
            return false;
        }
        histogram.note(match (mask & other, contained(mask, other)) {
            (0, true) => "contains an empty mask",
            (0, false) => "no slot in both",
            (_, true) => "contains some slots",
            (_, false) => "some slots in both",
        });
    }
    histogram.print();
    println!("{count} cases of each call, 0 differences");
    true
}

fn difference(mask: u64, other: u64) -> Option<String> {
    let found = port::contains(mask, other);
    let owed = contained(mask, other);
    if found != owed {
        return Some(format!("contains of the port {found}, of the Rust {owed}"));
    }
    let (found, owed) = (port::difference(mask, other), left(mask, other));
    if found != owed {
        return Some(format!(
            "difference of the port {found:#x}, of the Rust {owed:#x}"
        ));
    }
    let (found, owed) = (port::union(mask, other), joined(mask, other));
    (found != owed).then(|| format!("union of the port {found:#x}, of the Rust {owed:#x}"))
}

pub fn contained(mask: u64, other: u64) -> bool {
    ImmediateSlots::from_raw(mask).contains(ImmediateSlots::from_raw(other))
}

pub fn left(mask: u64, other: u64) -> u64 {
    slots::bits(ImmediateSlots::from_raw(mask).difference(ImmediateSlots::from_raw(other)))
}

pub fn joined(mask: u64, other: u64) -> u64 {
    slots::bits(ImmediateSlots::from_raw(mask) | ImmediateSlots::from_raw(other))
}

/// Unrelated, one within the other, within it but for a slot, or without a
/// slot in common.
fn two_masks(random: &mut Random) -> (u64, u64) {
    let (mask, other) = (any_mask(random), any_mask(random));
    let slot = 1 << random.below(64);
    match random.below(6) {
        0 => (mask, other & mask),
        1 => (mask, (other & mask) ^ slot),
        2 => (mask & other, other),
        3 => (mask, other & !mask),
        _ => (mask, other),
    }
}

/// Few slots, many, half of them, or those of a range.
fn any_mask(random: &mut Random) -> u64 {
    match random.below(8) {
        0 => 0,
        1 => u64::MAX,
        2 => 1 << random.below(64),
        3 => random.next() & random.next() & random.next(),
        4 => random.next() | random.next() | random.next(),
        5 => u64::MAX << random.below(64) & u64::MAX >> random.below(64),
        _ => random.next(),
    }
}
