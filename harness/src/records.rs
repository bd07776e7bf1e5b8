//! The tables of 01 as words, and the numbers that name their parts.

pub const TYPE_WORDS: usize = 6;
pub const MEMBER_WORDS: usize = 4;
pub const ROW_WORDS: usize = 14;
pub const MAX_TYPES: usize = 1024;
pub const MAX_MEMBERS: usize = 4096;
pub const CAPABILITY_BITS: u32 = 14;
/// The last of them.
pub const DUAL_SOURCE_BLENDING: u32 = 1 << 13;
pub const ALL_CAPABILITIES: u32 = (1 << CAPABILITY_BITS) - 1;
pub const SLOTS: u64 = 64;
/// The uniform rules.
pub const OLDER: u32 = 0;
pub const NEWER: u32 = 1;

/// The kinds of a type record, by their numbers.
pub mod kind {
    pub const SCALAR: u32 = 0;
    pub const VECTOR: u32 = 1;
    pub const MATRIX: u32 = 2;
    pub const COOPERATIVE_MATRIX: u32 = 3;
    pub const ATOMIC: u32 = 4;
    pub const POINTER: u32 = 5;
    pub const VALUE_POINTER: u32 = 6;
    pub const ARRAY: u32 = 7;
    pub const STRUCT: u32 = 8;
    pub const IMAGE: u32 = 9;
    pub const SAMPLER: u32 = 10;
    pub const ACCELERATION_STRUCTURE: u32 = 11;
    pub const RAY_QUERY: u32 = 12;
    pub const BINDING_ARRAY: u32 = 13;
}

/// Number, type, member, detail.
pub type Answer = [u32; 4];
pub type Row = [u32; ROW_WORDS];

pub const ACCEPTED: Answer = [0; 4];
pub const WRONG_LENGTH: Answer = [1, 0, 0, 0];
/// The number for no such type or place.
pub const NO_SUCH: u32 = 26;

/// The forms of an array or a binding array.
pub const CONSTANT: u32 = 0;
pub const DYNAMIC: u32 = 1;

/// What one call of the port is handed.
#[derive(Clone, Default)]
pub struct Arena {
    pub types: Vec<u32>,
    pub members: Vec<u32>,
    pub capabilities: u32,
    /// The uniform rule.
    pub rule: u32,
    pub rows_len: usize,
}

impl Arena {
    pub fn type_count(&self) -> usize {
        self.types.len() / TYPE_WORDS
    }
    pub fn member_count(&self) -> usize {
        self.members.len() / MEMBER_WORDS
    }
    /// Whether a struct's row has a blend source.
    pub fn has_blend_source(&self) -> bool {
        let records = self.types.chunks_exact(TYPE_WORDS);
        let mut structs = records.filter(|record| record[0] == kind::STRUCT);
        structs.any(|record| {
            let (first, count) = (record[1] as usize, record[2] as usize);
            let rows = self.members.chunks_exact(MEMBER_WORDS);
            rows.skip(first).take(count).any(|row| row[3] != 0)
        })
    }
    /// Type and offset of the members of a struct record, as far as the table goes.
    pub fn rows_of<'a>(&'a self, record: &'a [u32]) -> impl Iterator<Item = (u32, u32)> + 'a {
        let first = u64::from(record[1]);
        let rows = first..first + u64::from(record[2]);
        rows.map_while(|number| member_row(&self.members, number))
    }
}

/// A member row without location and blend source.
pub const fn member(ty: u32, offset: u32) -> [u32; MEMBER_WORDS] {
    [ty, offset, 0, 0]
}

/// Such rows, of the type and offset of each member.
#[cfg(test)]
pub fn members_of_pairs(pairs: &[u32]) -> Vec<u32> {
    let rows = pairs.chunks_exact(2).map(|pair| member(pair[0], pair[1]));
    rows.collect::<Vec<_>>().into_flattened()
}

/// The record of a type number, if the table holds all of it.
pub fn type_record(types: &[u32], number: u32) -> Option<&[u32]> {
    types.chunks_exact(TYPE_WORDS).nth(number as usize)
}

/// Type and offset of a member row, if the table holds all of it.
pub fn member_row(members: &[u32], number: u64) -> Option<(u32, u32)> {
    let row = members.chunks_exact(MEMBER_WORDS).nth(number as usize)?;
    Some((row[0], row[1]))
}
