//! Times the reader of WGSL text.

use crate::port;
use crate::wgsl::{MEMBER_WORDS, TYPE_WORDS};
use std::fmt::Write;
use std::time::Instant;

const SAMPLES: usize = 31;

/// A line for each text: its bytes and members, and the middle and the least
/// of the times.
pub fn bench() {
    println!("| text | bytes | members | ms | least ms | ns a byte |");
    println!("|---|---|---|---|---|---|");
    for structs in [16, 32, 64, 128] {
        row(&format!("{structs} structs of 32 members"), &many(structs));
    }
    for members in [512, 1024, 2048, 4096] {
        row(
            &format!("{members} members in one struct"),
            &one(members, ""),
        );
    }
    row("128 structs of 32 members, with comments", &commented());
    let long = "_".to_owned() + &"x".repeat(236);
    row("4096 names alike but at their start", &one(4096, &long));
}

fn row(name: &str, text: &str) {
    let mut types = vec![0; 1024 * TYPE_WORDS];
    let mut members = vec![0; 4096 * MEMBER_WORDS];
    let mut counts = [0; 2];
    let mut answer = [0; 4];
    let mut times = Vec::new();
    for _ in 0..SAMPLES {
        let start = Instant::now();
        port::read_wgsl(
            text.as_bytes(),
            &mut types,
            &mut members,
            &mut counts,
            &mut answer,
        );
        times.push(start.elapsed().as_nanos() as f64);
    }
    assert_eq!(answer, [0; 4], "{name} is read");
    times.sort_by(f64::total_cmp);
    let middle = times[SAMPLES / 2];
    println!(
        "| {name} | {} | {} | {:.2} | {:.2} | {:.1} |",
        text.len(),
        counts[1],
        middle / 1e6,
        times[0] / 1e6,
        middle / text.len() as f64
    );
}

const CELL: &str = "struct Cell {\n    flow: vec3<f32>,\n}\n";

/// Structs of 32 members, of which three have a type of their own and the
/// others an earlier struct's. The first has one less, for that of `Cell`.
fn many(structs: usize) -> String {
    let mut text = CELL.to_owned();
    for number in 0..structs {
        writeln!(text, "struct Block{number} {{").unwrap();
        for member in usize::from(number == 0)..32 {
            let ty = match member {
                0 => "vec4<f32>",
                1 => "f32",
                2 => "array<u32, 4>",
                _ => "Cell",
            };
            writeln!(text, "    member_{member:02}: {ty},").unwrap();
        }
        text.push_str("}\n");
    }
    text
}

/// All members but that of `Cell` in one struct; `end` stands at the end of
/// each name.
fn one(members: usize, end: &str) -> String {
    let mut text = CELL.to_owned();
    text.push_str("struct Block {\n");
    for member in 1..members {
        writeln!(text, "    member_{member:04}{end}: Cell,").unwrap();
    }
    text.push_str("}\n");
    text
}

/// 128 structs of 32 members, with a comment after each line.
fn commented() -> String {
    let comment = format!(" /* {} */\n", "x".repeat(220));
    many(128).replace('\n', &comment)
}
