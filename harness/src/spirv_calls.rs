//! Compares the reading of SPIR-V modules: random ones in order, damaged ones,
//! and any words.

use crate::guarded::Guarded;
use crate::port;
use crate::random::Random;
use crate::spirv::{self, HEADER_WORDS, MAGIC};
use std::collections::BTreeMap;

pub fn spirv(count: u64, seed: u64) -> bool {
    let mut numbers = BTreeMap::<u32, u64>::new();
    let (mut types, mut members) = (0, 0);
    for index in 0..count {
        let random = &mut Random::new(seed, index);
        let words = module(random);
        let lent = (length(random, 6), length(random, 4));
        let owed = spirv::read(&words, lent.0 / 6, lent.1 / 4);
        if let Some(difference) = difference(&words, lent, &owed, random) {
            println!("module {index} of seed {seed}: {difference}");
            println!(
                "lent {} and {} words; the module: {words:?}",
                lent.0, lent.1
            );
            println!("{} modules, then a difference", index + 1);
            return false;
        }
        *numbers
            .entry(owed.as_ref().err().copied().unwrap_or(0))
            .or_default() += 1;
        if let Ok(section) = owed {
            types += section.types.len();
            members += section.members.len();
        }
    }
    for (number, modules) in numbers {
        println!("number {number:2} {modules:9}");
    }
    println!("{types} types and {members} members read");
    println!("{count} modules, 0 differences");
    true
}

fn length(random: &mut Random, record: u32) -> usize {
    (match random.below(16) {
        0 => 0,
        1 => random.below(record * 8),
        2 => record * 1030,
        _ => record * 80 + random.below(record),
    }) as usize
}

fn difference(
    words: &[u32],
    lent: (usize, usize),
    owed: &Result<spirv::Section, u32>,
    pattern: &mut Random,
) -> Option<String> {
    let mut types = Guarded::new(lent.0, pattern, Random::word);
    let mut members = Guarded::new(lent.1, pattern, Random::word);
    let mut counts = Guarded::new(3, pattern, Random::word);
    let mut answer = Guarded::new(5, pattern, Random::word);
    port::read_spirv(
        words,
        types.lend(),
        members.lend(),
        counts.lend(),
        answer.lend(),
    );
    let (mut owed_types, mut owed_members) = (types.before().to_vec(), members.before().to_vec());
    let (mut owed_counts, mut owed_answer) = (counts.before().to_vec(), answer.before().to_vec());
    owed_answer[..4].fill(0);
    owed_counts[..2].fill(0);
    match owed {
        Ok(section) => {
            fill(&mut owed_types, section.types.as_flattened());
            fill(&mut owed_members, section.members.as_flattened());
            owed_counts[0] = section.types.len() as u32;
            owed_counts[1] = section.members.len() as u32;
        }
        Err(number) => {
            owed_types.fill(0);
            owed_members.fill(0);
            owed_answer[0] = *number;
        }
    }
    if answer.now() != owed_answer {
        return Some(format!(
            "answer of the port {:?}, owed {owed_answer:?}",
            answer.now()
        ));
    }
    if counts.now() != owed_counts {
        return Some(format!(
            "counts of the port {:?}, owed {owed_counts:?}",
            counts.now()
        ));
    }
    if types.now() != owed_types {
        return Some("other type records".to_string());
    }
    if members.now() != owed_members {
        return Some("other member records".to_string());
    }
    let touched = types.margins_are_touched()
        || members.margins_are_touched()
        || counts.margins_are_touched()
        || answer.margins_are_touched();
    touched.then(|| "words beside a buffer are touched".to_string())
}

fn fill(words: &mut [u32], records: &[u32]) {
    words[..records.len()].copy_from_slice(records);
}

/// Small, extreme or any.
fn wild(random: &mut Random) -> u32 {
    match random.below(6) {
        0 => random.word(),
        1 => 1 << random.below(32),
        2 => u32::MAX - random.below(20),
        3 => 4 * random.below(80),
        _ => random.below(20),
    }
}

/// Types that are made so far: what they are, so that most references fit.
#[derive(Default)]
struct Made {
    scalars: Vec<u32>,
    integers: Vec<u32>,
    vectors: Vec<u32>,
    all: Vec<u32>,
    constants: Vec<u32>,
    others: Vec<u32>,
}

fn module(random: &mut Random) -> Vec<u32> {
    let mut words = vec![MAGIC, 0x10300, wild(random), wild(random), 0];
    if random.one_in(40) {
        let count = random.below(60);
        words.extend((0..count).map(|_| wild(random)));
        return words;
    }
    let (mut decorations, mut types) = (Vec::new(), Vec::new());
    let mut made = Made::default();
    let count = if random.one_in(6) { 40 } else { 12 };
    for id in 1..=random.below(count) + 2 {
        let into = if random.one_in(40) { 1 } else { 0 };
        let mut parts = [&mut decorations, &mut types];
        instruction(&mut made, &mut parts, into, id, random);
    }
    words.extend(decorations);
    words.extend(types);
    damage(&mut words, random);
    words
}

fn put(words: &mut Vec<u32>, opcode: u32, operands: &[u32]) {
    words.push((operands.len() as u32 + 1) << 16 | opcode);
    words.extend(operands);
}

/// Of those, or of any number where there are none or by chance.
fn one_of(ids: &[u32], id: u32, random: &mut Random) -> u32 {
    if ids.is_empty() || random.one_in(60) {
        random.below(id + 3)
    } else {
        random.pick(ids)
    }
}

/// One type, constant or skipped instruction. `parts`: the decorations and the types; `into`: where decorations go.
fn instruction(
    made: &mut Made,
    parts: &mut [&mut Vec<u32>; 2],
    into: usize,
    id: u32,
    random: &mut Random,
) {
    let fault = |random: &mut Random| random.one_in(80);
    let kind = random.weighted(&[2, 6, 6, 5, 4, 4, 3, 5, 3, 2, 1]);
    // Something that it can refer to comes first.
    let kind = match kind {
        3..=7 if made.scalars.is_empty() => 2,
        4 if made.vectors.is_empty() => 3,
        8 if made.integers.is_empty() => 1,
        _ => kind,
    };
    match kind {
        0 => {
            put(parts[1], 20, &[id]);
            made.scalars.push(id);
            made.all.push(id);
        }
        1 => {
            let bits = if fault(random) {
                wild(random)
            } else {
                random.pick(&[32, 32, 32, 8, 16, 64])
            };
            let most = if fault(random) { 4 } else { 2 };
            let signedness = random.below(most);
            put(parts[1], 21, &[id, bits, signedness]);
            made.scalars.push(id);
            made.integers.push(id);
            made.all.push(id);
        }
        2 => {
            let bits = if fault(random) {
                wild(random)
            } else {
                random.pick(&[32, 32, 16, 64])
            };
            if fault(random) {
                put(parts[1], 22, &[id, bits, 0]);
            } else {
                put(parts[1], 22, &[id, bits]);
            }
            made.scalars.push(id);
            made.all.push(id);
        }
        3 => {
            let n = if fault(random) {
                random.below(7)
            } else {
                random.between(2, 4)
            };
            let base = one_of(&made.scalars, id, random);
            put(parts[1], 23, &[id, base, n]);
            made.vectors.push(id);
            made.all.push(id);
        }
        4 => {
            let n = if fault(random) {
                random.below(7)
            } else {
                random.between(2, 4)
            };
            let base = one_of(&made.vectors, id, random);
            put(parts[1], 24, &[id, base, n]);
            made.all.push(id);
        }
        5 | 6 => array(made, parts, into, id, random),
        7 => structure(made, parts, into, id, random),
        8 => {
            let ty = one_of(&made.integers, id, random);
            let value = if random.one_in(3) {
                wild(random)
            } else {
                random.between(1, 9)
            };
            if random.one_in(6) {
                put(parts[1], 43, &[ty, id, value, 0]);
            } else {
                put(parts[1], 43, &[ty, id, value]);
            }
            made.constants.push(id);
        }
        9 => {
            let opcode = random.pick(&[19, 25, 26, 27, 31, 32, 33, 38]);
            put(parts[1], opcode, &[id, 1, 2]);
            made.others.push(id);
        }
        _ => put(
            parts[1],
            random.pick(&[17, 59, 61, 5, 73, 5341]),
            &[id, wild(random)],
        ),
    }
}

fn array(
    made: &mut Made,
    parts: &mut [&mut Vec<u32>; 2],
    into: usize,
    id: u32,
    random: &mut Random,
) {
    let element = reference(made, id, random);
    let stride = if random.one_in(8) {
        wild(random)
    } else {
        16 * random.between(1, 12)
    };
    if !random.one_in(40) {
        put(parts[into], 71, &[id, 6, stride]);
    }
    if random.one_in(60) {
        put(parts[into], 71, &[id, 6, stride]);
    }
    if random.one_in(2) || made.constants.is_empty() {
        put(parts[1], 29, &[id, element]);
    } else {
        let length = one_of(&made.constants, id, random);
        put(parts[1], 28, &[id, element, length]);
    }
    made.all.push(id);
}

/// Mostly a type that is read.
fn reference(made: &Made, id: u32, random: &mut Random) -> u32 {
    if random.one_in(60) {
        one_of(&made.others, id, random)
    } else {
        one_of(&made.all, id, random)
    }
}

fn structure(
    made: &mut Made,
    parts: &mut [&mut Vec<u32>; 2],
    into: usize,
    id: u32,
    random: &mut Random,
) {
    let mut operands = vec![id];
    let mut offset = 0;
    for j in 0..random.below(6) {
        operands.push(reference(made, id, random));
        if !random.one_in(60) {
            put(parts[into], 72, &[id, j, 35, offset]);
        }
        if random.one_in(80) {
            put(parts[into], 72, &[id, j, 35, offset]);
        }
        if random.one_in(6) {
            put(
                parts[into],
                72,
                &[id, j, 7, random.pick(&[8, 16, 16, 16, 32])],
            );
        }
        if random.one_in(12) {
            put(parts[into], 72, &[id, j, random.pick(&[4, 5, 5, 5])]);
        }
        offset = if random.one_in(12) {
            wild(random)
        } else {
            offset.wrapping_add(16 * random.between(1, 8))
        };
    }
    put(parts[1], 30, &operands);
    made.all.push(id);
}

/// One module in three: a word changed, moved, left out or doubled, or the end cut off.
fn damage(words: &mut Vec<u32>, random: &mut Random) {
    if !random.one_in(3) {
        return;
    }
    let at = random.below(words.len() as u32) as usize;
    match random.below(7) {
        0 => words[at] = wild(random),
        1 => words[at] = words[at].wrapping_add(random.pick(&[1, u32::MAX, 0x10000])),
        2 => words[at] ^= 1 << random.below(32),
        3 => drop(words.remove(at)),
        4 => words.insert(at, words[at]),
        5 => words.truncate(at),
        _ => {
            let other = random.below(words.len() as u32) as usize;
            let at = at.max(HEADER_WORDS.min(words.len() - 1));
            words[at] = words[other];
        }
    }
}
