//! Compares the places that the program `from_wgsl` tells with those that the
//! harness's reader notes, over random texts, sound or damaged.

use crate::random::Random;
use crate::wgsl::{self, MEMBER_WORDS, TYPE_WORDS};
use crate::wgsl_calls;
use std::io::Write;
use std::process::{Command, Stdio};

pub fn places(count: u64, seed: u64, program: &str) -> bool {
    let mut refused = 0;
    for index in 0..count {
        let text = wgsl_calls::text(&mut Random::new(seed, index));
        let Err((number, place)) = wgsl::read(&text, 1024 * TYPE_WORDS, 4096 * MEMBER_WORDS) else {
            continue;
        };
        refused += 1;
        let (line, column) = line_and_column(&text, place);
        let owed = format!("refused {number} 0 0 0\nline {line}, column {column}: ");
        let told = run(program, &text);
        if !told.starts_with(owed.as_bytes()) {
            println!(
                "seed {seed}, index {index}: {}",
                String::from_utf8_lossy(&text)
            );
            println!("owed {owed}\ntold {}", String::from_utf8_lossy(&told));
            return false;
        }
    }
    println!("{count} cases, {refused} refused, 0 differences");
    true
}

/// Both from 1: what stands before the place is cut at line breaks, a carriage
/// return and a line feed after it being one.
fn line_and_column(text: &[u8], place: usize) -> (usize, usize) {
    let mut before: Vec<u8> = text[..place].to_vec();
    let cut_in_two = before.last() == Some(&b'\r') && text.get(place) == Some(&b'\n');
    if cut_in_two {
        before.pop();
    }
    let text: String = before.iter().map(|&byte| char::from(byte)).collect();
    let text = text.replace("\r\n", "\n");
    let lines: Vec<&str> = text.split(['\n', '\x0b', '\x0c', '\r']).collect();
    let last = lines[lines.len() - 1];
    (
        lines.len(),
        last.chars().count() + usize::from(cut_in_two) + 1,
    )
}

fn run(program: &str, text: &[u8]) -> Vec<u8> {
    let mut child = Command::new(program)
        .stdin(Stdio::piped())
        .stdout(Stdio::piped())
        .spawn()
        .expect("the program starts");
    child
        .stdin
        .take()
        .expect("standard input is piped")
        .write_all(text)
        .expect("the text is taken");
    child.wait_with_output().expect("the program ends").stdout
}
