//! Times layout, judge and check on the largest tables, 1,024 types and 4,096
//! members, cold and warm, beside the time that moving the same words takes.

use crate::compare::Lent;
use crate::records::*;
use crate::{port, shapes, sized};
use std::hint::black_box;
use std::time::Instant;

const SAMPLES: usize = 201;
/// More than the caches of a core and of its neighbours hold.
const OTHER_BYTES: usize = 256 << 20;
/// A stride of one cache line.
const LINE: usize = 64;

pub fn bench() {
    let mixed = sized::arenas(1, 1, MAX_TYPES).remove(0);
    let subjects = [
        ("1022 structs of 4 f32", shapes::structs_of_f32()),
        ("4096 members in one struct", sized::one_struct(MAX_MEMBERS)),
        ("mixed kinds", mixed),
    ];
    let mut other = vec![1u8; OTHER_BYTES];
    println!("| arena | types | members | bytes | | moved | layout | judge | check |");
    println!("|---|---|---|---|---|---|---|---|---|");
    for (name, arena) in subjects {
        for (state, cold) in [("cold", true), ("warm", false)] {
            let times = calls().map(|call| median(&arena, call, cold.then_some(&mut other)));
            row(name, &arena, state, times);
        }
    }
}

/// Microseconds of each call.
fn row(name: &str, arena: &Arena, state: &str, times: [f64; 4]) {
    let (types, members) = (arena.type_count(), arena.member_count());
    let rows = ROW_WORDS * types;
    let bytes = 4 * (arena.types.len() + arena.members.len() + rows);
    print!("| {name} | {types} | {members} | {bytes} | {state} |");
    for time in times {
        print!(" {:.1} |", time / 1000.0);
    }
    println!();
}

type Call = fn(&Arena, &mut [u32]);

fn calls() -> [Call; 4] {
    [
        moved,
        |arena, rows| called(arena, rows, port::layout),
        |arena, rows| called(arena, rows, port::judge),
        |arena, rows| called(arena, rows, port::check),
    ]
}

fn called(arena: &Arena, rows: &mut [u32], call: fn(&Arena, Lent)) {
    let mut answer = [0; 4];
    let lent = Lent {
        rows,
        output: &mut [],
        answer: &mut answer,
    };
    call(black_box(arena), lent);
    assert_eq!(answer, ACCEPTED);
}

/// The least that any check does: both tables are read and all rows written.
fn moved(arena: &Arena, rows: &mut [u32]) {
    let read = |words: &[u32]| {
        words
            .iter()
            .fold(0, |sum: u32, word| sum.wrapping_add(*word))
    };
    let sum = read(&arena.types) ^ read(&arena.members);
    rows.fill(black_box(sum));
    black_box(rows);
}

/// The median of the samples in nanoseconds; cold where other bytes have been
/// written in between.
fn median(arena: &Arena, call: Call, mut other: Option<&mut Vec<u8>>) -> f64 {
    let mut rows = vec![0; ROW_WORDS * arena.type_count()];
    call(arena, &mut rows);
    let mut times: Vec<f64> = (0..SAMPLES)
        .map(|_| {
            if let Some(other) = other.as_deref_mut() {
                let bytes = other.iter_mut().step_by(LINE);
                bytes.for_each(|byte| *byte = byte.wrapping_add(1));
            }
            let start = Instant::now();
            call(arena, &mut rows);
            start.elapsed().as_nanos() as f64
        })
        .collect();
    times.sort_by(f64::total_cmp);
    times[SAMPLES / 2]
}
