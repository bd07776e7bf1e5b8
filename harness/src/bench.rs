//! Times the port beside the Rust on the same arenas; docs/PERFORMANCE.md says
//! what is timed.

use crate::records::*;
use crate::sides::{both, PortSide, RustSide};
use crate::stopwatch::in_turns;
use crate::{shapes, sized};
use std::collections::HashSet;

const SEED: u64 = 1;
/// The repeated arenas of each size come to this many types in all.
const REPEATED_TYPES: usize = 1024;
/// The fresh ones come to so many, more than a processor can learn, and a run
/// goes over so many of them.
const FRESH_TYPES: usize = 131_072;
const FRESH_TYPES_OF_A_RUN: usize = 4096;
const ARENA_SIZES: [usize; 4] = [8, 64, 256, 1024];
const MEMBER_COUNTS: [usize; 4] = [512, 1024, 2048, 4096];

/// What one row of a table is about.
struct Subject {
    name: String,
    /// How many of the arenas a run goes over.
    of_a_run: usize,
    port: PortSide,
    rust: RustSide,
}

pub fn bench() {
    let mut by_types: Vec<Subject> = ARENA_SIZES.into_iter().map(repeated).collect();
    let mut by_members: Vec<Subject> = MEMBER_COUNTS.into_iter().map(of_members).collect();
    let mut by_shape: Vec<Subject> = shapes::all().into_iter().map(of_shape).collect();
    let mut fresh: Vec<Subject> = ARENA_SIZES.into_iter().map(fresh).collect();
    let full = sized::one_struct_in_slots(MAX_MEMBERS);
    let mut in_slots = subject(format!("{MAX_MEMBERS} members over the slots"), vec![full]);

    println!("| arenas | types | members | layout | judge | check | Rust | Rust / judge | Rust / check |");
    println!("|---|---|---|---|---|---|---|---|---|");
    by_types.iter_mut().for_each(check);
    fresh.iter_mut().for_each(check);
    by_members.iter_mut().for_each(check);
    by_shape.iter_mut().for_each(check);

    println!("\n| slots | parts, a call | port, ns a call | Rust, ns a call | Rust / port |");
    println!("|---|---|---|---|---|");
    by_types.iter_mut().for_each(slots);
    fresh.iter_mut().for_each(slots);
    slots(&mut in_slots);

    println!("\n| place | port, ns a call | lookups a second |");
    println!("|---|---|---|");
    by_types.iter_mut().for_each(place);
    fresh.iter_mut().for_each(place);
    by_members.last_mut().map(place);
}

fn repeated(count: usize) -> Subject {
    let how_many = REPEATED_TYPES / count;
    let name = format!("{how_many} of {count} types");
    subject(name, sized::arenas(SEED, how_many, count))
}

/// Arenas that differ from one another, each met once in a pass.
fn fresh(count: usize) -> Subject {
    let how_many = FRESH_TYPES / count;
    let arenas = sized::arenas(SEED, how_many, count);
    let tables = arenas.iter().map(|arena| (&arena.types, &arena.members));
    assert_eq!(tables.collect::<HashSet<_>>().len(), how_many);
    let name = format!("fresh: {how_many} of {count} types");
    in_runs_of(FRESH_TYPES_OF_A_RUN / count, name, arenas)
}

fn of_members(count: usize) -> Subject {
    let name = format!("{count} members in one struct");
    subject(name, vec![sized::one_struct(count)])
}

fn of_shape((name, arena): (&str, Arena)) -> Subject {
    subject(name.to_string(), vec![arena])
}

fn subject(name: String, arenas: Vec<Arena>) -> Subject {
    in_runs_of(arenas.len(), name, arenas)
}

fn in_runs_of(of_a_run: usize, name: String, arenas: Vec<Arena>) -> Subject {
    let (port, rust) = both(arenas, of_a_run);
    Subject {
        name,
        of_a_run,
        port,
        rust,
    }
}

impl Subject {
    /// How much of all that the subject has a run goes over.
    fn share(&self) -> f64 {
        self.of_a_run as f64 / self.port.asked.len() as f64
    }
}

/// Times are nanoseconds a type or member.
fn check(subject: &mut Subject) {
    let arenas = subject.port.asked.iter().map(|asked| &asked.arena);
    let types: usize = arenas.clone().map(Arena::type_count).sum();
    let members: usize = arenas.map(Arena::member_count).sum();
    let times = in_turns(
        subject,
        [
            |subject| subject.port.layout(),
            |subject| subject.port.judge(),
            |subject| subject.port.check(),
            |subject| subject.rust.check(),
        ],
    );
    let n = subject.share() * (types + members) as f64;
    let [layout, judge, check, rust] = times.map(|time| time / n);
    let name = &subject.name;
    println!(
        "| {name} | {types} | {members} | {layout:.1} | {judge:.1} | {check:.1} | {rust:.1} | {:.2} | {:.2} |",
        rust / judge,
        rust / check
    );
}

fn slots(subject: &mut Subject) {
    let [port, rust] = in_turns(
        subject,
        [
            |subject| subject.port.slots(),
            |subject| subject.rust.slots(),
        ],
    );
    let (name, ratio) = (&subject.name, rust / port);
    let parts: usize = subject.port.asked.iter().map(|asked| asked.parts).sum();
    let n = subject.of_a_run as f64;
    println!(
        "| {name} | {:.1} | {:.0} | {:.0} | {ratio:.2} |",
        subject.share() * parts as f64 / n,
        port / n,
        rust / n
    );
}

fn place(subject: &mut Subject) {
    let [port] = in_turns(subject, [|subject| subject.port.place()]);
    let (name, call) = (&subject.name, port / subject.of_a_run as f64);
    println!("| {name} | {call:.0} | {:.0} |", 1e9 / call);
}
