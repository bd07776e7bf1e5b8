//! An arena under another numbering: its types in another order, in which they
//! still name earlier ones, among other types, with their member rows elsewhere
//! and other capabilities.

use crate::builder::{FLOAT, SINT, UINT};
use crate::random::Random;
use crate::records::*;

pub struct Renamed {
    pub arena: Arena,
    /// What each type of the first arena is called in the other, if it is there.
    pub numbers: Vec<Option<u32>>,
    /// How many types of the first arena share a number with another one.
    pub merged: u32,
}

/// A type record without the place of its member rows, and these rows.
#[derive(Clone, PartialEq)]
struct Content {
    record: Vec<u32>,
    rows: Vec<Vec<u32>>,
}

/// None where the member rows would be too many.
pub fn renamed(random: &mut Random, arena: &Arena) -> Option<Renamed> {
    let merging = random.one_in(4);
    let (mut contents, mut merged) = (Vec::<Content>::new(), 0);
    let mut numbers = vec![None; arena.type_count()];
    let wanted = wanted(random, arena);
    let order = another_order(random, arena, &wanted);
    for (done, &ty) in order.iter().enumerate() {
        if contents.len() + order.len() - done < MAX_TYPES && random.one_in(6) {
            contents.push(another_type(random, &contents));
        }
        let content = content(arena, ty, &numbers);
        let same = contents.iter().position(|other| *other == content);
        numbers[ty] = match same {
            Some(number) if merging => {
                merged += 1;
                Some(number as u32)
            }
            _ => {
                contents.push(content);
                Some(contents.len() as u32 - 1)
            }
        };
    }
    let (types, members) = tables(random, contents)?;
    let arena = Arena {
        rows_len: ROW_WORDS * types.len() / TYPE_WORDS + random.below(9) as usize,
        types,
        members,
        capabilities: arena.capabilities | random.word() & ALL_CAPABILITIES,
        rule: arena.rule,
    };
    Some(Renamed {
        arena,
        numbers,
        merged,
    })
}

/// The types that a record of an accepted arena names.
fn named(arena: &Arena, record: &[u32]) -> Vec<usize> {
    match record[0] {
        kind::ARRAY | kind::POINTER | kind::BINDING_ARRAY => vec![record[1] as usize],
        kind::STRUCT => arena.rows_of(record).map(|(ty, _)| ty as usize).collect(),
        _ => vec![],
    }
}

/// All types, or those that one of them reaches.
fn wanted(random: &mut Random, arena: &Arena) -> Vec<bool> {
    let count = arena.type_count();
    if count == 0 || random.one_in(2) {
        return vec![true; count];
    }
    let mut wanted = vec![false; count];
    wanted[random.below(count as u32) as usize] = true;
    // A type names earlier ones.
    for (ty, record) in arena.types.chunks_exact(TYPE_WORDS).enumerate().rev() {
        if wanted[ty] {
            named(arena, record)
                .into_iter()
                .for_each(|base| wanted[base] = true);
        }
    }
    wanted
}

/// The wanted types, each after those that it names.
fn another_order(random: &mut Random, arena: &Arena, wanted: &[bool]) -> Vec<usize> {
    let records: Vec<&[u32]> = arena.types.chunks_exact(TYPE_WORDS).collect();
    let mut users = vec![vec![]; records.len()];
    let mut missing = vec![0; records.len()];
    for ty in (0..records.len()).filter(|&ty| wanted[ty]) {
        for base in named(arena, records[ty]) {
            users[base].push(ty);
            missing[ty] += 1;
        }
    }
    let is_ready = |&ty: &usize| wanted[ty] && missing[ty] == 0;
    let mut ready: Vec<usize> = (0..records.len()).filter(is_ready).collect();
    let mut order = Vec::new();
    while !ready.is_empty() {
        let ty = ready.swap_remove(random.below(ready.len() as u32) as usize);
        order.push(ty);
        for &user in &users[ty] {
            missing[user] -= 1;
            if missing[user] == 0 {
                ready.push(user);
            }
        }
    }
    order
}

/// What a type says, with the numbers that those it names have in the other arena.
fn content(arena: &Arena, ty: usize, numbers: &[Option<u32>]) -> Content {
    let number = |ty: u32| numbers[ty as usize].expect("a type names earlier ones");
    let mut record = arena.types[TYPE_WORDS * ty..TYPE_WORDS * (ty + 1)].to_vec();
    let mut rows = vec![];
    match record[0] {
        kind::ARRAY | kind::POINTER | kind::BINDING_ARRAY => record[1] = number(record[1]),
        kind::STRUCT => {
            let first = MEMBER_WORDS * record[1] as usize;
            let words = &arena.members[first..first + MEMBER_WORDS * record[2] as usize];
            rows = words.chunks(MEMBER_WORDS).map(<[u32]>::to_vec).collect();
            rows.iter_mut().for_each(|row| row[0] = number(row[0]));
            record[1] = 0;
        }
        _ => {}
    }
    Content { record, rows }
}

/// A word that is no type of the first arena, or a type that stands there already.
fn another_type(random: &mut Random, contents: &[Content]) -> Content {
    if !contents.is_empty() && random.one_in(2) {
        return contents[random.below(contents.len() as u32) as usize].clone();
    }
    let word = random.pick(&[SINT, UINT, FLOAT]);
    Content {
        record: vec![kind::SCALAR, word, 4, 0, 0, 0],
        rows: vec![],
    }
}

/// The rows of the structs in any order, some over the rows of others, some
/// after rows of no struct.
fn tables(random: &mut Random, mut contents: Vec<Content>) -> Option<(Vec<u32>, Vec<u32>)> {
    let is_struct = |ty: &usize| contents[*ty].record[0] == kind::STRUCT;
    let mut structs: Vec<usize> = (0..contents.len()).filter(is_struct).collect();
    let mut members: Vec<u32> = Vec::new();
    while !structs.is_empty() {
        let ty = structs.swap_remove(random.below(structs.len() as u32) as usize);
        let words = contents[ty].rows.concat();
        let mut standing = 0..members.len() / MEMBER_WORDS;
        let shared = standing.find(|row| members[MEMBER_WORDS * row..].starts_with(&words));
        contents[ty].record[1] = match shared {
            Some(row) if random.one_in(2) => row as u32,
            _ => {
                if random.one_in(5) {
                    members.extend((0..MEMBER_WORDS).map(|_| random.word()));
                }
                let first = members.len() / MEMBER_WORDS;
                members.extend(words);
                first as u32
            }
        };
    }
    let types = contents.into_iter().flat_map(|content| content.record);
    (members.len() <= MEMBER_WORDS * MAX_MEMBERS).then(|| (types.collect(), members))
}
