//! Writes a list of arenas and queries in the language of `inspect`, and the
//! lines that it owes: naga's answers, and the readings of 01 and 02 that the
//! harness keeps for numbers 1 to 3, places, member parts and the second of the
//! two masks. The arenas at 01's borders come last. The port is not called.

use crate::borders;
use crate::generator;
use crate::histogram::Histogram;
use crate::random::Random;
use crate::records::*;
use crate::reference::{Expected, Outcome};
use crate::{member_calls, members, place, place_calls, print, sized, slot_calls, slots};
use std::fmt::{Display, Write};
use std::path::PathBuf;

/// The answers that the arenas are picked for, in turn; 0 is acceptance. Some
/// numbers stand more often: 8 has many details, 21 four causes.
const WANTED: [u32; 40] = [
    0, 1, 2, 3, 0, 4, 5, 0, 6, 7, 8, 0, 9, 10, 0, 11, 12, 8, 0, 13, 14, 0, 15, 16, 0, 17, 18, 0,
    19, 20, 0, 21, 8, 0, 22, 23, 0, 24, 21, 0,
];
/// Then come six for number 34, one for each detail.
const DETAILS_OF_34: u32 = 6;
const LEAST_OF_1_TO_24: u64 = 40;
const LEAST_OF_25_AND_26: u64 = 100;
/// Of each detail.
const LEAST_OF_34: u64 = 15;
/// How large the arenas are, but for one in `RARELY`.
const MOST_TYPES: usize = 12;
const MOST_MEMBERS: usize = 24;
const RARELY: u32 = 40;
const MOST_STEPS: usize = 16;
/// The program's own rows are those of a full arena.
const ROWS_LEN: usize = ROW_WORDS * MAX_TYPES;
const FOLDER: &str = concat!(env!("CARGO_MANIFEST_DIR"), "/../crates/replay");

/// The two texts, with what they come to.
#[derive(Default)]
struct Script {
    commands: String,
    answers: String,
    arenas: u64,
    borders: u64,
    histogram: Histogram,
}

/// Writes both files; whether every number occurs often enough.
pub fn replay(count: u64, seed: u64, paths: &[String]) -> bool {
    let mut script = Script::default();
    head(&mut script, count, seed);
    let full = full_arenas(seed);
    let mut next = 0;
    for turn in 0..count.saturating_sub(full.len() as u64) {
        let (arena, index) = pick(seed, next, wanted(turn));
        write_case(&mut script, &arena, &mut Random::new(!seed, index));
        next = index + 1;
    }
    for (arena, index) in full.iter().zip(next..) {
        write_case(&mut script, arena, &mut Random::new(!seed, index));
    }
    write_borders(
        &mut script,
        &mut Random::new(!seed, next + full.len() as u64),
    );
    save(&script, paths);
    script.histogram.print();
    enough(&script.histogram)
}

fn head(script: &mut Script, count: u64, seed: u64) {
    let lines = [
        "Arenas and queries, made by harness/src/replay.rs; stdout holds the answers.",
        "Made in harness/ by: cargo run --release --offline",
        "  --features mock,check,slots,place,members -- replay COUNT SEED",
        "check, slots and range are answered by naga 30.0.1, compiled with overflow",
        "checks; numbers 1 to 3, place and members by the harness's reading of 01,",
        "the second mask of slots and range by its reading of 02, over bytes.",
        "The port is not called.",
        "A place in a matrix is that of a column, by E6 of 02; the last two words of a",
        "member are location and blend source, plus one, by E9.",
        "After COUNT arenas come those of harness/src/borders.rs; the answers of its",
        "list by sentences of 01 are also written there by hand.",
    ];
    for line in lines {
        script.comment(line);
    }
    script.comment(format!("COUNT {count}, SEED {seed}"));
}

/// The longest tables that there can be.
fn full_arenas(seed: u64) -> Vec<Arena> {
    let mut arenas = sized::arenas(seed, 1, MAX_TYPES);
    arenas.push(sized::one_struct(MAX_MEMBERS));
    arenas.push(sized::one_struct_in_slots(MAX_MEMBERS));
    for arena in &mut arenas {
        arena.rows_len = ROWS_LEN;
    }
    arenas
}

/// The number that an arena is picked for, and its detail, if that counts.
fn wanted(turn: u64) -> (u32, Option<u32>) {
    let at = turn as usize % (WANTED.len() + DETAILS_OF_34 as usize);
    match WANTED.get(at) {
        Some(&number) => (number, None),
        None => (34, Some((at - WANTED.len()) as u32 + 1)),
    }
}

/// The next arena that gets the wanted answer, with its index.
fn pick(seed: u64, from: u64, (number, detail): (u32, Option<u32>)) -> (Arena, u64) {
    for index in from.. {
        let mut arena = match index % 3 {
            0 => generator::mostly_sound(seed, index),
            _ => generator::arena(seed, index),
        };
        arena.rows_len = ROWS_LEN;
        if !can_be_written(&arena) || !is_small(&arena, index) {
            continue;
        }
        let answer = print::reference_of(&arena).answer;
        if answer[0] == number && detail.is_none_or(|detail| answer[3] == detail) {
            return (arena, index);
        }
    }
    unreachable!()
}

/// Whole records, and not too many: other tables cannot be said line by line.
fn can_be_written(arena: &Arena) -> bool {
    arena.types.len().is_multiple_of(TYPE_WORDS)
        && arena.members.len().is_multiple_of(MEMBER_WORDS)
        && arena.type_count() <= MAX_TYPES
        && arena.member_count() <= MAX_MEMBERS
}

fn is_small(arena: &Arena, index: u64) -> bool {
    let factor = match Random::new(index, 0).one_in(RARELY) {
        true => 3,
        false => 1,
    };
    arena.type_count() <= factor * MOST_TYPES && arena.member_count() <= factor * MOST_MEMBERS
}

/// An arena, its check and some queries; few where their answer is the arena's
/// refusal.
fn write_case(script: &mut Script, arena: &Arena, random: &mut Random) {
    let outcome = print::reference_of(arena);
    place_calls::assert_reading(arena, &outcome);
    script.arenas += 1;
    script.comment(format!("arena {}", script.arenas));
    write_tables(script, arena, random);
    script.command("check", &[]);
    write_outcome(script, arena, &outcome);
    let queries = match outcome.answer {
        ACCEPTED => random.below(5),
        _ => u32::from(random.one_in(3)),
    };
    for _ in 0..queries {
        write_query(script, random, arena);
    }
    if random.one_in(6) {
        write_range(script, random);
    }
}

/// The arenas at 01's borders, each with its check.
fn write_borders(script: &mut Script, random: &mut Random) {
    for border in borders::by_sentence() {
        script.comment(border.sentence);
        write_check(script, &border.arena, random);
    }
    script.comment("each word of a record of each kind at the borders of 01's sets");
    for arena in borders::by_word() {
        write_check(script, &arena, random);
    }
    script.comment("each capability alone, and all but that one");
    for arena in borders::by_capability() {
        write_check(script, &arena, random);
    }
}

fn write_check(script: &mut Script, arena: &Arena, random: &mut Random) {
    write_tables(script, arena, random);
    script.command("check", &[]);
    write_outcome(script, arena, &print::reference_of(arena));
    script.borders += 1;
}

fn write_tables(script: &mut Script, arena: &Arena, random: &mut Random) {
    script.command("clear", &[]);
    // `clear` leaves no capability.
    if arena.capabilities != 0 || random.one_in(2) {
        script.command("caps", &[arena.capabilities]);
    }
    let members_first = random.one_in(3);
    if members_first {
        write_members(script, arena);
    }
    for record in arena.types.chunks_exact(TYPE_WORDS) {
        let whole = random.one_in(8);
        script.command("type", if whole { record } else { shortened(record) });
    }
    if !members_first {
        write_members(script, arena);
    }
}

fn write_members(script: &mut Script, arena: &Arena) {
    for row in arena.members.chunks_exact(MEMBER_WORDS) {
        script.command("member", shortened_row(row));
    }
}

/// Without the location and the source that are left off; type and offset stay.
fn shortened_row(row: &[u32]) -> &[u32] {
    let last = row.iter().rposition(|&word| word != 0).unwrap_or(0);
    &row[..=last.max(1)]
}

/// Without the zeroes at the end; the kind stays.
fn shortened(record: &[u32]) -> &[u32] {
    let last = record.iter().rposition(|&word| word != 0).unwrap_or(0);
    &record[..=last]
}

fn write_outcome(script: &mut Script, arena: &Arena, outcome: &Outcome) {
    let histogram = &mut script.histogram;
    histogram.count_panic(&outcome.panic_site);
    let Some(rows) = &outcome.rows else {
        return script.refuse(outcome.answer);
    };
    histogram.count_answer(outcome.answer);
    histogram.count_accepted(arena);
    histogram.count_rows(rows);
    script.answer("ok", &[0; 0]);
    for (number, row) in rows.iter().enumerate() {
        script.answer(number, row);
    }
}

fn write_query(script: &mut Script, random: &mut Random, arena: &Arena) {
    match random.below(3) {
        0 => write_part(script, random, arena),
        1 => write_slots(script, random, arena),
        _ => write_place(script, random, arena),
    }
}

fn write_part(script: &mut Script, random: &mut Random, arena: &Arena) {
    let number = member_calls::number(random, arena);
    let [first, length] = members::part(&arena.types, &arena.members, number);
    let part = &arena.members[first as usize..][..length as usize];
    script.command("members", &[number]);
    script.histogram.note("members");
    script.answer("members", part);
}

fn write_slots(script: &mut Script, random: &mut Random, arena: &Arena) {
    let ty = slot_calls::walked_type(random, arena);
    let offset = slot_calls::start(random);
    script.command("slots", &[ty, offset]);
    let outcome = print::reference_of(arena);
    script.found("slots", slots::walk(outcome, ty, offset));
}

fn write_place(script: &mut Script, random: &mut Random, arena: &Arena) {
    let (start, mut steps) = place_calls::start_and_steps(random, arena);
    steps.truncate(MOST_STEPS);
    let mut words = vec![start];
    words.extend(&steps);
    script.command("place", &words);
    let outcome = print::reference_of(arena);
    let expected = place::look_up(outcome, &arena.types, &arena.members, start, &steps);
    script.found("place", expected);
}

fn write_range(script: &mut Script, random: &mut Random) {
    let (offset, size) = slot_calls::offset_and_size(random);
    script.command("range", &[offset, size]);
    script.found("slots", slots::range(offset, size));
}

impl Script {
    fn comment(&mut self, text: impl Display) {
        writeln!(self.commands, "# {text}").unwrap();
    }

    fn command(&mut self, name: &str, words: &[u32]) {
        write_line(&mut self.commands, name, words);
    }

    fn answer<W: Display>(&mut self, name: impl Display, words: &[W]) {
        write_line(&mut self.answers, name, words);
    }

    fn refuse(&mut self, answer: Answer) {
        self.histogram.count_answer(answer);
        self.answer("refused", &answer);
    }

    /// The answer of a query that may be refused.
    fn found(&mut self, name: &str, expected: Expected) {
        match expected.answer {
            ACCEPTED => {
                self.histogram.note(name);
                self.answer(name, &expected.output);
            }
            answer => self.refuse(answer),
        }
    }
}

fn write_line<W: Display>(text: &mut String, name: impl Display, words: &[W]) {
    write!(text, "{name}").unwrap();
    for word in words {
        write!(text, " {word}").unwrap();
    }
    text.push('\n');
}

fn save(script: &Script, paths: &[String]) {
    let texts = [("stdin", &script.commands), ("stdout", &script.answers)];
    for (at, (name, text)) in texts.into_iter().enumerate() {
        let path = match paths.get(at) {
            Some(path) => PathBuf::from(path),
            None => PathBuf::from(FOLDER).join(name),
        };
        std::fs::write(&path, text).unwrap_or_else(|e| panic!("{}: {e}", path.display()));
        println!("{}: {} bytes", path.display(), text.len());
    }
    println!("{} arenas, {} at borders", script.arenas, script.borders);
}

fn enough(histogram: &Histogram) -> bool {
    let details = (1..=DETAILS_OF_34).all(|detail| {
        let enough = histogram.answered_34(detail) >= LEAST_OF_34;
        if !enough {
            println!("detail {detail} of 34 occurs too seldom");
        }
        enough
    });
    details
        && (1..=NO_SUCH).all(|number| {
            let least = match number {
                slots::PAST_THE_SLOTS | NO_SUCH => LEAST_OF_25_AND_26,
                _ => LEAST_OF_1_TO_24,
            };
            let enough = histogram.answered(number) >= least;
            if !enough {
                println!("number {number} occurs too seldom");
            }
            enough
        })
}
