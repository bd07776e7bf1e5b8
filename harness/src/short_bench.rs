//! Times place lookups by three words for each type: one in a call, and 10,000
//! runs of three steps in a call, judging included.

use crate::compare::Lent;
use crate::random::Random;
use crate::records::*;
use crate::short_calls::{ManyLent, SHORT_WORDS};
use crate::{place, place_calls, port, sized};
use std::hint::black_box;
use std::time::Instant;

const SEED: u64 = 1;
const ARENA_SIZES: [usize; 3] = [8, 64, 1024];
const RUNS: usize = 10_000;
const STEPS: usize = 3;
const SAMPLES: usize = 101;

pub fn bench() {
    println!("| types | place, ns | short, ns | short, lookups a second | {RUNS} runs of {STEPS} steps, ns a place | places a second |");
    println!("|---|---|---|---|---|---|");
    for count in ARENA_SIZES {
        let (arena, ways) = with_ways(count);
        let (start, steps) = &ways[0];
        let mut rows = vec![0; ROW_WORDS * count];
        let place = median(1000, || {
            let (mut place, mut answer) = ([0; 2], [0; 4]);
            let lent = Lent {
                rows: &mut rows,
                output: &mut place,
                answer: &mut answer,
            };
            port::place(black_box(&arena), *start, steps, lent);
            assert_eq!(answer, ACCEPTED);
        });
        let mut scratch = vec![0; SHORT_WORDS * count];
        let short = median(1000, || {
            let (mut place, mut answer) = ([0; 2], [0; 4]);
            let lent = Lent {
                rows: &mut scratch,
                output: &mut place,
                answer: &mut answer,
            };
            port::place_short(black_box(&arena), *start, steps, lent);
            assert_eq!(answer, ACCEPTED);
        });
        let many = many(&arena, &ways) / RUNS as f64;
        println!(
            "| {count} | {place:.0} | {short:.0} | {:.0} | {many:.1} | {:.0} |",
            1e9 / short,
            1e9 / many
        );
    }
}

/// An arena of so many types, and ways of three steps to its leaves.
fn with_ways(count: usize) -> (Arena, Vec<(u32, Vec<u32>)>) {
    for seed in SEED.. {
        let arena = sized::arenas(seed, 1, count).remove(0);
        let random = &mut Random::new(seed, 0);
        let ways: Vec<(u32, Vec<u32>)> = (0..200_000)
            .map(|_| {
                let start = random.below(count as u32);
                let steps = place_calls::steps_to_a_leaf(random, &arena, start);
                (start, steps.into_iter().map(|step| step.0).collect())
            })
            .filter(|(start, steps): &(u32, Vec<u32>)| {
                steps.len() == STEPS
                    && place::of(&arena.types, &arena.members, *start, steps).is_some()
            })
            .take(RUNS)
            .collect();
        if ways.len() == RUNS {
            return (arena, ways);
        }
    }
    unreachable!()
}

/// Nanoseconds of a call with all runs; each answer is that of the reading.
fn many(arena: &Arena, ways: &[(u32, Vec<u32>)]) -> f64 {
    let run =
        |(start, steps): &(u32, Vec<u32>)| [&[*start, steps.len() as u32], &steps[..]].concat();
    let runs: Vec<u32> = ways.iter().flat_map(run).collect();
    let mut scratch = vec![0; SHORT_WORDS * arena.type_count()];
    let mut found = vec![0; 2 * ways.len()];
    let time = median(1, || {
        let mut answer = [0; 4];
        let lent = ManyLent {
            scratch: &mut scratch,
            found: &mut found,
            answer: &mut answer,
        };
        port::places(black_box(arena), &runs, lent);
        assert_eq!(answer, ACCEPTED);
    });
    for (pair, (start, steps)) in found.chunks_exact(2).zip(ways) {
        let (byte, leaf) = place::of(&arena.types, &arena.members, *start, steps).unwrap();
        assert_eq!(pair, [byte, u64::from(leaf)]);
    }
    time
}

/// The median of the samples, each of so many calls, in nanoseconds a call.
fn median(calls: usize, mut call: impl FnMut()) -> f64 {
    let mut times: Vec<f64> = (0..SAMPLES)
        .map(|_| {
            let start = Instant::now();
            (0..calls).for_each(|_| call());
            start.elapsed().as_nanos() as f64 / calls as f64
        })
        .collect();
    times.sort_by(f64::total_cmp);
    times[SAMPLES / 2]
}
