//! Arenas in the port's form and in the Rust's, with the calls to be timed. Each
//! side goes over its arenas with one stretch for results: the port's lent rows,
//! the Rust's validator.

use crate::compare::Lent;
use crate::partly::Part;
use crate::random::Random;
use crate::records::*;
use crate::reference::capability_set;
use crate::{place, place_calls, port, print, slot_calls, slots, translate};
use naga::proc::GlobalCtx;
use naga::valid::{ImmediateSlots, ValidationFlags, Validator};
use naga::{Type, UniqueArena};
use std::hint::black_box;
use std::ops::Range;

const SLOT_BYTES: u64 = 256;

/// An arena, and what is asked of it.
pub struct Asked {
    pub arena: Arena,
    /// The type whose slots are asked for.
    walked: u32,
    /// How many parts that walk has.
    pub parts: usize,
    /// The place that is looked up.
    start: u32,
    steps: Vec<u32>,
}

/// The arenas of the next run: all of them each time, or a part and then the
/// part after it.
#[derive(Clone)]
struct Turn {
    next: usize,
    of_a_run: usize,
    of_all: usize,
}

pub struct PortSide {
    pub asked: Vec<Asked>,
    rows: Vec<u32>,
    turn: Turn,
}

pub struct RustSide {
    arenas: Vec<RustArena>,
    validator: Validator,
    turn: Turn,
}

struct RustArena {
    types: UniqueArena<Type>,
    walked: u32,
}

/// Both sides of arenas with the same capabilities, so many of them in a run;
/// they have given the same results once.
pub fn both(arenas: Vec<Arena>, of_a_run: usize) -> (PortSide, RustSide) {
    let turn = Turn::new(of_a_run, arenas.len());
    let capabilities = arenas[0].capabilities;
    assert!(arenas
        .iter()
        .all(|arena| arena.capabilities == capabilities));
    let most_rows = arenas.iter().map(|arena| arena.rows_len).max();
    let mut rust = RustSide {
        arenas: Vec::new(),
        validator: Validator::new(ValidationFlags::all(), capability_set(capabilities)),
        turn: turn.clone(),
    };
    let mut port = PortSide {
        asked: Vec::new(),
        rows: vec![0; most_rows.unwrap()],
        turn,
    };
    for arena in arenas {
        let types = translate::arena(&arena.types, &arena.members);
        let asked = Asked::of(arena, &types);
        let walked = asked.walked;
        let arena = RustArena { types, walked };
        assert!(arena.check(&mut rust.validator));
        asked.assert_same(&arena, &mut port.rows);
        rust.arenas.push(arena);
        port.asked.push(asked);
    }
    (port, rust)
}

impl Turn {
    fn new(of_a_run: usize, of_all: usize) -> Self {
        assert_eq!(of_all % of_a_run, 0);
        Self {
            next: 0,
            of_a_run,
            of_all,
        }
    }

    fn next_run(&mut self) -> Range<usize> {
        let start = self.next;
        self.next = (start + self.of_a_run) % self.of_all;
        start..start + self.of_a_run
    }
}

impl PortSide {
    pub fn layout(&mut self) {
        self.each(Asked::layout);
    }

    pub fn judge(&mut self) {
        self.each(Asked::judge);
    }

    pub fn check(&mut self) {
        self.each(Asked::check);
    }

    pub fn slots(&mut self) {
        self.each(Asked::slots);
    }

    pub fn place(&mut self) {
        self.each(Asked::place);
    }

    fn each<R>(&mut self, call: fn(&Asked, &mut [u32]) -> R) {
        for asked in &self.asked[self.turn.next_run()] {
            black_box(call(asked, &mut self.rows));
        }
    }
}

impl Asked {
    fn of(arena: Arena, types: &UniqueArena<Type>) -> Self {
        let (walked, parts) = last_in_slots(&arena, types);
        let (start, steps) = deep_place(&arena);
        Self {
            arena,
            walked,
            parts,
            start,
            steps,
        }
    }

    fn assert_same(&self, rust: &RustArena, rows: &mut [u32]) {
        let owed = print::reference_of(&self.arena).rows.unwrap();
        for call in [Self::judge, Self::check] {
            assert_eq!(call(self, rows), ACCEPTED);
            assert_eq!(rows[..self.arena.rows_len], *owed.as_flattened());
        }
        let masks = slots::of_type(&rust.types, self.walked, 0).unwrap();
        assert_eq!(self.slots(rows), (ACCEPTED, masks));
        let Arena { types, members, .. } = &self.arena;
        let (byte, leaf) = place::of(types, members, self.start, &self.steps).unwrap();
        assert_eq!(self.place(rows), (ACCEPTED, [byte, u64::from(leaf)]));
    }

    fn layout(&self, rows: &mut [u32]) -> Answer {
        self.call::<0>(rows, port::layout).0
    }

    fn judge(&self, rows: &mut [u32]) -> Answer {
        self.call::<0>(rows, port::judge).0
    }

    fn check(&self, rows: &mut [u32]) -> Answer {
        self.call::<0>(rows, port::check).0
    }

    fn slots(&self, rows: &mut [u32]) -> (Answer, slots::Masks) {
        self.call(rows, |arena, lent| port::slots(arena, self.walked, 0, lent))
    }

    fn place(&self, rows: &mut [u32]) -> (Answer, [u64; 2]) {
        let (start, steps) = (self.start, &self.steps);
        self.call(rows, |arena, lent| port::place(arena, start, steps, lent))
    }

    fn call<const N: usize>(
        &self,
        rows: &mut [u32],
        call: impl FnOnce(&Arena, Lent),
    ) -> (Answer, [u64; N]) {
        let (mut answer, mut output) = ([0; 4], [0; N]);
        let lent = Lent {
            rows: &mut rows[..self.arena.rows_len],
            output: &mut output,
            answer: &mut answer,
        };
        call(black_box(&self.arena), lent);
        (answer, output)
    }
}

impl RustSide {
    pub fn check(&mut self) {
        self.each(RustArena::check);
    }

    pub fn slots(&mut self) {
        self.each(RustArena::slots);
    }

    fn each<R>(&mut self, call: fn(&RustArena, &mut Validator) -> R) {
        for arena in &self.arenas[self.turn.next_run()] {
            black_box(call(arena, &mut self.validator));
        }
    }
}

impl RustArena {
    fn check(&self, validator: &mut Validator) -> bool {
        validator.check_types(black_box(&self.types)).is_ok()
    }

    fn slots(&self, validator: &mut Validator) -> Option<ImmediateSlots> {
        let accepted = self.check(validator);
        let types = &self.types;
        let inner = &types[naga::handle_of(self.walked)].inner;
        accepted.then(|| ImmediateSlots::from_type(inner, 0, types, GlobalCtx::of_types(types)))
    }
}

/// The last struct whose parts all end within the slots, or the last other type
/// of which that holds; and how many parts it has.
fn last_in_slots(arena: &Arena, types: &UniqueArena<Type>) -> (u32, usize) {
    let lengths = slot_calls::walk_lengths(arena);
    let parts = |ty| slots::parts(types, &types[naga::handle_of(ty)].inner, 0);
    let is_struct = |ty: u32| arena.types[TYPE_WORDS * ty as usize] == kind::STRUCT;
    let fits = |ty: u32| {
        let is_short = lengths[ty as usize] <= slot_calls::LONGEST_WALK;
        is_short && parts(ty).into_iter().all(is_in_slots)
    };
    let numbers = 0..arena.type_count() as u32;
    let fitting = numbers.filter(|&ty| fits(ty));
    let walked = fitting.max_by_key(|&ty| (is_struct(ty), ty)).unwrap();
    (walked, parts(walked).len())
}

fn is_in_slots((offset, size): Part) -> bool {
    size == 0 || u64::from(offset) + u64::from(size) <= SLOT_BYTES
}

/// The longest of some ways to a leaf.
fn deep_place(arena: &Arena) -> (u32, Vec<u32>) {
    let random = &mut Random::new(0, 0);
    let is_data = |&ty: &u32| place::is_data(arena.types[TYPE_WORDS * ty as usize]);
    let starts = (0..arena.type_count() as u32).filter(is_data);
    let ways = starts.map(|ty| (ty, place_calls::steps_to_a_leaf(random, arena, ty)));
    let (start, steps) = ways.max_by_key(|way| way.1.len()).unwrap();
    (start, steps.into_iter().map(|step| step.0).collect())
}
