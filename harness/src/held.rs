//! What lent rows hold before a call that must not read them.

use crate::random::Random;
use crate::records::*;
use crate::reference::{self, Expected};

/// The runs of words, given the rows of the arena that was accepted last.
pub type Held = fn(&Arena, &[Row], &mut Random) -> Vec<Vec<u32>>;

pub fn nothing(_: &Arena, _: &[Row], _: &mut Random) -> Vec<Vec<u32>> {
    Vec::new()
}

/// The rows of the other arena, over and over, and the layouts of this one, in
/// which a size or an alignment is changed.
pub fn rows(arena: &Arena, other: &[Row], random: &mut Random) -> Vec<Vec<u32>> {
    let words = other.as_flattened().iter().copied();
    let others = words.cycle().take(arena.rows_len).collect();
    let outcome = reference::layout(&arena.types, &arena.members, arena.rows_len);
    let layouts = Expected::from(outcome).rows.unwrap_or_default();
    vec![others, changed(layouts, random)]
}

fn changed(mut layouts: Vec<Row>, random: &mut Random) -> Vec<u32> {
    if !layouts.is_empty() {
        let row = random.below(layouts.len() as u32) as usize;
        let word = random.below(2) as usize;
        let nearby = layouts[row][word]
            .wrapping_add(random.below(9))
            .wrapping_sub(4);
        layouts[row][word] = random.pick(&[0, 1, nearby, u32::MAX]);
    }
    layouts.into_flattened()
}
