//! Compares the port with naga's own code; see README.md.

// A build without all of the calls leaves some code unused.
#![cfg_attr(
    not(all(
        feature = "check",
        feature = "slots",
        feature = "masks",
        feature = "place",
        feature = "short",
        feature = "members",
        feature = "report",
        feature = "plain",
        feature = "pass",
        feature = "spirv",
        feature = "wgsl",
        feature = "order"
    )),
    allow(dead_code)
)]

#[cfg(all(feature = "check", feature = "slots", feature = "place"))]
mod bench;
mod blend;
#[cfg(all(feature = "slots", feature = "place", feature = "members"))]
mod borders;
mod builder;
mod compare;
mod damage;
mod generator;
mod growth;
mod guarded;
mod held;
mod histogram;
#[cfg(all(feature = "check", feature = "slots", feature = "place"))]
mod large_bench;
mod leaves;
#[cfg(test)]
mod marked;
#[cfg(feature = "masks")]
mod mask_calls;
#[cfg(feature = "members")]
mod member_calls;
#[cfg(all(feature = "slots", feature = "place"))]
mod member_records;
mod members;
#[cfg(feature = "mock")]
mod mock;
mod newer;
mod order;
#[cfg(feature = "order")]
mod order_calls;
mod panics;
mod partly;
mod pass;
#[cfg(all(feature = "pass", feature = "slots"))]
mod pass_calls;
mod place;
#[cfg(feature = "place")]
mod place_calls;
mod plain;
#[cfg(feature = "plain")]
mod plain_calls;
mod port;
mod print;
mod random;
mod recipes;
mod records;
mod reference;
#[cfg(all(feature = "check", feature = "slots", feature = "place"))]
mod renaming;
#[cfg(all(feature = "check", feature = "slots", feature = "place"))]
mod renaming_calls;
#[cfg(all(feature = "slots", feature = "place", feature = "members"))]
mod replay;
mod report;
#[cfg(feature = "report")]
mod report_calls;
#[cfg(all(feature = "check", feature = "slots", feature = "place"))]
mod shapes;
#[cfg(feature = "short")]
mod short_bench;
#[cfg(feature = "short")]
mod short_calls;
#[cfg(all(feature = "check", feature = "slots", feature = "place"))]
mod sides;
mod sized;
#[cfg(feature = "slots")]
mod slot_calls;
mod slots;
mod spirv;
#[cfg(feature = "spirv")]
mod spirv_calls;
#[cfg(all(feature = "check", feature = "slots", feature = "place"))]
mod stopwatch;
mod tables;
mod theorem;
mod translate;
mod wgsl;
#[cfg(feature = "wgsl")]
mod wgsl_bench;
#[cfg(feature = "wgsl")]
mod wgsl_calls;
#[cfg(feature = "wgsl")]
mod wgsl_places;
mod wild;

use std::process::ExitCode;

const USAGE: &str = "usage: layout COUNT [SEED]
       judge COUNT [SEED] | check COUNT [SEED]  (feature check)
       range COUNT [SEED] | slots COUNT [SEED]  (feature slots)
       masks COUNT [SEED]                       (feature masks)
       place COUNT [SEED]                       (feature place)
       short COUNT [SEED] | places COUNT [SEED] (feature short)
       members COUNT [SEED]                     (feature members)
       report COUNT [SEED]                      (feature report)
       plain COUNT [SEED]                       (feature plain)
       pass COUNT [SEED]                        (features pass, slots)
       wgsl COUNT [SEED]                        (feature wgsl)
       wgsl_places COUNT SEED PROGRAM           (feature wgsl)
       order COUNT [SEED]                       (feature order)
       renaming COUNT [SEED]                    (features check, slots, place)
       spirv COUNT [SEED]                       (feature spirv)
       replay COUNT [SEED [STDIN STDOUT]]       (features slots, place, members)
       member_records COUNT SEED FOLDER         (features slots, place)
       bench | bench_large                      (features check, slots, place)
       bench_wgsl                               (feature wgsl)
       bench_short                              (feature short)
       theorem COUNT [SEED] | histogram COUNT [SEED] | show SEED INDEX";

fn main() -> ExitCode {
    let words: Vec<String> = std::env::args().skip(1).collect();
    let number = |at: usize| words.get(at).and_then(|word| word.parse::<u64>().ok());
    let command = words.first().map(String::as_str);
    #[cfg(all(feature = "check", feature = "slots", feature = "place"))]
    if command == Some("bench") {
        bench::bench();
        return ExitCode::SUCCESS;
    }
    #[cfg(all(feature = "check", feature = "slots", feature = "place"))]
    if command == Some("bench_large") {
        large_bench::bench();
        return ExitCode::SUCCESS;
    }
    #[cfg(feature = "wgsl")]
    if command == Some("bench_wgsl") {
        wgsl_bench::bench();
        return ExitCode::SUCCESS;
    }
    #[cfg(feature = "short")]
    if command == Some("bench_short") {
        short_bench::bench();
        return ExitCode::SUCCESS;
    }
    let (Some(command), Some(first)) = (command, number(1)) else {
        return usage();
    };
    let second = number(2);
    let seed = second.unwrap_or(1);
    let agreed = match command {
        "layout" => compare::layout(first, seed),
        #[cfg(feature = "check")]
        "judge" => compare::judge(first, seed),
        #[cfg(feature = "check")]
        "check" => compare::check(first, seed),
        #[cfg(feature = "slots")]
        "range" => slot_calls::range(first, seed),
        #[cfg(feature = "slots")]
        "slots" => slot_calls::slots(first, seed),
        #[cfg(feature = "masks")]
        "masks" => mask_calls::masks(first, seed),
        #[cfg(feature = "place")]
        "place" => place_calls::place(first, seed),
        #[cfg(feature = "short")]
        "short" => short_calls::short(first, seed),
        #[cfg(feature = "short")]
        "places" => short_calls::places(first, seed),
        #[cfg(feature = "members")]
        "members" => member_calls::members(first, seed),
        #[cfg(feature = "report")]
        "report" => report_calls::report(first, seed),
        #[cfg(feature = "plain")]
        "plain" => plain_calls::plain(first, seed),
        #[cfg(all(feature = "pass", feature = "slots"))]
        "pass" => pass_calls::pass(first, seed),
        #[cfg(feature = "wgsl")]
        "wgsl" => wgsl_calls::read_wgsl(first, seed),
        #[cfg(feature = "wgsl")]
        "wgsl_places" => match words.get(3) {
            Some(program) => wgsl_places::places(first, seed, program),
            None => return usage(),
        },
        #[cfg(feature = "order")]
        "order" => order_calls::order(first, seed),
        #[cfg(all(feature = "check", feature = "slots", feature = "place"))]
        "renaming" => renaming_calls::renaming(first, seed),
        #[cfg(feature = "spirv")]
        "spirv" => spirv_calls::spirv(first, seed),
        #[cfg(all(feature = "slots", feature = "place", feature = "members"))]
        "replay" => replay::replay(first, seed, words.get(3..).unwrap_or_default()),
        #[cfg(all(feature = "slots", feature = "place"))]
        "member_records" => match words.get(3) {
            Some(folder) => member_records::member_records(first, seed, folder),
            None => return usage(),
        },
        "theorem" => theorem::theorem(first, seed),
        "histogram" => {
            compare::histogram(first, seed);
            true
        }
        "show" => {
            let index = second.unwrap_or(0);
            print::arena_and_reference(&generator::arena(first, index));
            true
        }
        _ => return usage(),
    };
    ExitCode::from(u8::from(!agreed))
}

fn usage() -> ExitCode {
    eprintln!("{USAGE}");
    ExitCode::from(2)
}
