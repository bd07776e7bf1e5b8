//! Arenas at the borders of 01's sets, limits and orders, which random arenas
//! seldom meet.

use crate::builder::{FLOAT, MAX_TYPE_SIZE};
use crate::print;
use crate::records::*;

type Record = [u32; TYPE_WORDS];

const F32: Record = [kind::SCALAR, FLOAT, 4, 0, 0, 0];
const VEC3: Record = [kind::VECTOR, 3, FLOAT, 4, 0, 0];
const SAMPLER: Record = [kind::SAMPLER, 0, 0, 0, 0, 0];
const RUNTIME: Record = [kind::ARRAY, 0, DYNAMIC, 0, 4, 0];
const PAST_THE_LIMIT: u32 = MAX_TYPE_SIZE + 1;

/// Width 3, which is number 7.
const WIDTH_3: Record = [kind::SCALAR, FLOAT, 3, 0, 0, 0];
/// Scalar kind 6, which is number 2.
const KIND_6: Record = [kind::SCALAR, 6, 4, 0, 0, 0];
/// A base past the arena, which is number 3.
const BASE_9: Record = pointer(9, 0);
/// Without its capability, which is number 8, detail 1.
const F16: Record = [kind::SCALAR, FLOAT, 2, 0, 0, 0];

const fn pointer(base: u32, space: u32) -> Record {
    [kind::POINTER, base, space, 0, 0, 0]
}

const fn value_pointer(space: u32) -> Record {
    [kind::VALUE_POINTER, FLOAT, 4, space, 0, 0]
}

const fn cooperative_matrix(role: u32) -> Record {
    [kind::COOPERATIVE_MATRIX, 8, 8, FLOAT, 4, role]
}

const fn array(base: u32, form: u32, count: u32, stride: u32) -> Record {
    [kind::ARRAY, base, form, count, stride, 0]
}

const fn binding_array(form: u32, count: u32) -> Record {
    [kind::BINDING_ARRAY, 0, form, count, 0, 0]
}

const fn structure(first: u32, count: u32, span: u32) -> Record {
    [kind::STRUCT, first, count, span, 0, 0]
}

/// A sentence of 01 with an arena at its border.
pub struct Border {
    pub sentence: &'static str,
    pub arena: Arena,
}

/// The list by sentences. Each answer is written by hand from its sentence;
/// the reference must give the same.
pub fn by_sentence() -> Vec<Border> {
    let mut list = List {
        sentence: "",
        borders: Vec::new(),
    };
    sets(&mut list);
    member_rows(&mut list);
    limits(&mut list);
    order_of_records(&mut list);
    order_of_layouts(&mut list);
    order_in_a_struct(&mut list);
    blend_sources(&mut list);
    order_of_blend_sources(&mut list);
    list.borders
}

struct List {
    sentence: &'static str,
    borders: Vec<Border>,
}

impl List {
    fn says(&mut self, sentence: &'static str) {
        self.sentence = sentence;
    }

    fn add(&mut self, types: &[Record], rows: &[[u32; 2]], capabilities: u32, answer: Answer) {
        self.add_arena(arena(types, rows, capabilities), answer);
    }

    fn add_arena(&mut self, arena: Arena, answer: Answer) {
        assert_eq!(
            print::reference_of(&arena).answer,
            answer,
            "{}",
            self.sentence
        );
        let sentence = self.sentence;
        self.borders.push(Border { sentence, arena });
    }

    /// Without a capability.
    fn add_plain(&mut self, types: &[Record], rows: &[[u32; 2]], answer: Answer) {
        self.add(types, rows, 0, answer);
    }
}

/// Of members without location and blend source.
fn arena(types: &[Record], rows: &[[u32; 2]], capabilities: u32) -> Arena {
    let rows: Vec<_> = rows.iter().map(|row| member(row[0], row[1])).collect();
    arena_of_rows(types, &rows, capabilities)
}

fn arena_of_rows(types: &[Record], rows: &[[u32; MEMBER_WORDS]], capabilities: u32) -> Arena {
    Arena {
        types: types.as_flattened().to_vec(),
        members: rows.as_flattened().to_vec(),
        capabilities,
        rule: OLDER,
        rows_len: ROW_WORDS * MAX_TYPES,
    }
}

const COOPERATIVE: u32 = 1 << 7;

fn sets(list: &mut List) {
    list.says("role 0 to 2");
    list.add(&[cooperative_matrix(2)], &[], COOPERATIVE, ACCEPTED);
    list.add(&[cooperative_matrix(3)], &[], COOPERATIVE, [2, 0, 0, 0]);
    list.says("spaces 0 to 9");
    list.add_plain(&[F32, pointer(0, 9)], &[], ACCEPTED);
    list.add_plain(&[F32, pointer(0, 10)], &[], [2, 1, 0, 0]);
    list.add_plain(&[value_pointer(9)], &[], ACCEPTED);
    list.add_plain(&[value_pointer(10)], &[], [2, 0, 0, 0]);
    list.says("form 0 is constant, count at least 1; form 1 is dynamic, count 0");
    list.add_plain(&[F32, array(0, CONSTANT, 1, 4)], &[], ACCEPTED);
    list.add_plain(&[F32, array(0, CONSTANT, 0, 4)], &[], [2, 1, 0, 0]);
    list.add_plain(&[F32, array(0, DYNAMIC, 0, 4)], &[], ACCEPTED);
    list.add_plain(&[F32, array(0, DYNAMIC, 1, 4)], &[], [2, 1, 0, 0]);
    list.add_plain(&[SAMPLER, binding_array(CONSTANT, 0)], &[], [2, 1, 0, 0]);
    list.add_plain(&[SAMPLER, binding_array(DYNAMIC, 0)], &[], ACCEPTED);
    list.add_plain(&[SAMPLER, binding_array(DYNAMIC, 1)], &[], [2, 1, 0, 0]);
    list.says("Capability bit 13 is DUAL_SOURCE_BLENDING; bits above it are 1");
    list.add(&[F32], &[], ALL_CAPABILITIES, ACCEPTED);
    list.add(&[F32], &[], 1 << CAPABILITY_BITS, WRONG_LENGTH);
    list.add(&[F32], &[], 1 << 31, WRONG_LENGTH);
}

fn member_rows(list: &mut List) {
    let row = &[[0, 0]];
    list.says("first member plus count above the table's rows");
    list.add_plain(&[F32, structure(0, 1, 4)], row, ACCEPTED);
    list.add_plain(&[F32, structure(0, 2, 4)], row, [2, 1, 0, 0]);
    list.add_plain(&[F32, structure(1, 1, 4)], row, [2, 1, 0, 0]);
    // 32 bits would wrap to 0, and to the one row.
    list.add_plain(&[F32, structure(u32::MAX, 1, 4)], row, [2, 1, 0, 0]);
    list.add_plain(&[F32, structure(u32::MAX, 2, 4)], row, [2, 1, 0, 0]);
    list.add_plain(&[F32, structure(1, u32::MAX, 4)], row, [2, 1, 0, 0]);
    list.add_plain(&[F32, structure(2, 0, 4)], row, [2, 1, 0, 0]);
    list.says("empty struct");
    list.add_plain(&[F32, structure(1, 0, 4)], row, [16, 1, 0, 0]);
}

fn limits(list: &mut List) {
    list.says("array's count, or its measure, above 2,147,483,647, at stride 0 too");
    for (count, stride) in [(MAX_TYPE_SIZE, 0), (MAX_TYPE_SIZE, 1), (1, MAX_TYPE_SIZE)] {
        list.add_plain(&[F32, array(0, CONSTANT, count, stride)], &[], ACCEPTED);
    }
    for (count, stride) in [
        (PAST_THE_LIMIT, 0),
        (PAST_THE_LIMIT, 1),
        (1, PAST_THE_LIMIT),
    ] {
        list.add_plain(&[F32, array(0, CONSTANT, count, stride)], &[], [4, 1, 0, 0]);
    }
    list.says("dynamic ones a single stride");
    list.add_plain(&[F32, array(0, DYNAMIC, 0, MAX_TYPE_SIZE)], &[], ACCEPTED);
    list.add_plain(
        &[F32, array(0, DYNAMIC, 0, PAST_THE_LIMIT)],
        &[],
        [4, 1, 0, 0],
    );
    list.says("a struct's span has no such limit");
    list.add_plain(&[F32, structure(0, 1, u32::MAX)], &[[0, 0]], ACCEPTED);
    list.says("a struct sum above 4,294,967,295");
    let whole = structure(0, 1, u32::MAX);
    list.add_plain(&[F32, whole], &[[0, u32::MAX - 4]], ACCEPTED);
    list.add_plain(&[F32, whole], &[[0, u32::MAX - 3]], [21, 1, 0, 0]);
    list.says("or difference below 0");
    let types = [F32, structure(0, 1, 4), structure(1, 3, 32)];
    let rows = [[0, 0], [0, 0], [1, 16], [0, 0]];
    list.add_plain(&types, &rows, [21, 2, 2, 0]);
}

fn order_of_records(list: &mut List) {
    list.says("Order: 1; then 2 and 3");
    list.add(&[KIND_6], &[], 1 << CAPABILITY_BITS, WRONG_LENGTH);
    list.says("type record by type record, 2 first within a record");
    list.add_plain(&[pointer(1, 10)], &[], [2, 0, 0, 0]);
    list.add_plain(&[BASE_9, KIND_6], &[], [3, 0, 0, 0]);
    list.add_plain(&[KIND_6, BASE_9], &[], [2, 0, 0, 0]);
    list.says("then 4 to 7 over the arena");
    list.add_plain(&[WIDTH_3, KIND_6], &[], [2, 1, 0, 0]);
    list.add_plain(&[WIDTH_3, BASE_9], &[], [3, 1, 0, 0]);
}

fn order_of_layouts(list: &mut List) {
    let large = |base| array(base, CONSTANT, PAST_THE_LIMIT, 0);
    list.says("4 to 7 over the arena, type by type");
    list.add_plain(&[WIDTH_3, large(0)], &[], [7, 0, 0, 0]);
    list.add_plain(&[large(1), WIDTH_3], &[], [4, 0, 0, 0]);
    list.add_plain(&[structure(0, 1, 4), WIDTH_3], &[[0, 0]], [6, 0, 0, 0]);
    list.says("Size is tried before references and widths");
    list.add_plain(&[F32, large(1)], &[], [4, 1, 0, 0]);
    list.add_plain(&[F32, array(1, CONSTANT, 1, 4)], &[], [5, 1, 0, 0]);
    list.says("then types in order, as the Rust does");
    list.add_plain(&[F16, WIDTH_3], &[], [7, 1, 0, 0]);
    list.add_plain(&[F16, structure(0, 0, 0)], &[], [8, 0, 0, 1]);
    list.add_plain(&[structure(0, 0, 0), F16], &[], [16, 0, 0, 0]);
}

/// Members that break two rules at once.
fn order_in_a_struct(list: &mut List) {
    list.says("data, .., overlap: 17 before 18");
    let types = [F32, SAMPLER, structure(0, 2, 16)];
    list.add_plain(&types, &[[0, 0], [1, 2]], [17, 2, 1, 0]);
    list.says("overlap, end: 18 before 21");
    let types = [F32, structure(0, 1, u32::MAX), structure(1, 2, u32::MAX)];
    list.add_plain(&types, &[[0, 0], [1, 0], [1, 4]], [18, 2, 1, 0]);
    list.says("end, .., distance: 19 before 21");
    let inner = structure(0, 1, 4);
    let types = [F32, inner, array(0, CONSTANT, 8, 4), structure(1, 3, 20)];
    let rows = [[0, 0], [0, 0], [1, 16], [2, 0]];
    list.add_plain(&types, &rows, [19, 3, 2, 0]);
    list.says("distance from a preceding struct, unsized: 21 before 20");
    let types = [F32, inner, RUNTIME, structure(1, 4, 48)];
    let rows = [[0, 0], [0, 0], [1, 16], [2, 0], [0, 32]];
    list.add_plain(&types, &rows, [21, 3, 2, 0]);
    list.says("dynamic member not last, or not an array");
    let types = [F32, RUNTIME, structure(0, 2, 8)];
    list.add_plain(&types, &[[1, 0], [0, 4]], [20, 2, 0, 0]);
    let types = [F32, RUNTIME, structure(0, 1, 4), structure(1, 1, 4)];
    list.add_plain(&types, &[[1, 0], [2, 0]], [20, 3, 0, 0]);
    list.says("the member is its position in the struct");
    let types = [F32, VEC3, structure(1, 2, 16), structure(0, 1, 4)];
    list.add_plain(&types, &[[0, 0], [1, 0], [0, 8]], [18, 2, 1, 0]);
}

/// E9 of 02. Rows: type, offset, location, blend source, the last two as value
/// plus one. Types: f32, vec3, bool, two arrays over one f32 each, then the struct.
fn blend_sources(list: &mut List) {
    let bool = [kind::SCALAR, 3, 1, 0, 0, 0];
    let one = |base| array(base, CONSTANT, 2, 4);
    let types = |count| {
        [
            F32,
            F32,
            VEC3,
            bool,
            one(0),
            one(1),
            one(0),
            structure(0, count, 64),
        ]
    };
    list.says("Errors: 34, blend source refused, detail 1 to 6");
    let mut two = |rows: &[[u32; MEMBER_WORDS]], answer| {
        let arena = arena_of_rows(&types(rows.len() as u32), rows, DUAL_SOURCE_BLENDING);
        list.add_arena(arena, answer);
    };
    two(&[[0, 0, 1, 1], [0, 16, 1, 2]], ACCEPTED);
    two(&[[0, 0, 1, 2], [1, 16, 1, 1], [3, 32, 0, 0]], ACCEPTED);
    two(&[[0, 0, 1, 0], [0, 16, 9, 0]], ACCEPTED);
    two(&[[0, 0, u32::MAX, 0]], ACCEPTED);
    // a bad index
    two(&[[0, 0, 1, 3], [0, 16, 1, 2]], [34, 7, 0, 1]);
    two(&[[0, 0, 2, 1], [0, 16, 1, 2]], [34, 7, 0, 1]);
    two(&[[0, 0, u32::MAX, u32::MAX]], [34, 7, 0, 1]);
    // a collision
    two(&[[0, 0, 1, 2], [0, 16, 1, 2]], [34, 7, 0, 2]);
    // other locations, the same and another
    two(&[[0, 0, 1, 1], [0, 16, 1, 0], [0, 32, 1, 2]], [34, 7, 0, 3]);
    two(&[[0, 0, 2, 0], [0, 16, 1, 1], [0, 32, 1, 2]], [34, 7, 0, 3]);
    // types differ: by their records, and arrays by the numbers of their elements
    two(&[[0, 0, 1, 1], [2, 16, 1, 2]], [34, 7, 0, 4]);
    two(&[[4, 0, 1, 1], [5, 16, 1, 2]], [34, 7, 0, 4]);
    // not IO-shareable
    two(&[[4, 0, 1, 1], [6, 16, 1, 2]], [34, 7, 0, 5]);
    two(&[[3, 0, 1, 1], [3, 16, 1, 2]], [34, 7, 0, 5]);
    // one source missing, another location or not
    two(&[[0, 0, 1, 1]], [34, 7, 0, 6]);
    two(&[[0, 0, 1, 2], [0, 16, 2, 0]], [34, 7, 0, 6]);
}

fn order_of_blend_sources(list: &mut List) {
    let inner = structure(0, 1, 4);
    let nested = [F32, inner, structure(1, 2, 32)];
    let both = |ty| [member(0, 0), [ty, 0, 1, 1], [ty, 16, 1, 2]];
    let caps = DUAL_SOURCE_BLENDING;
    list.says("two compared structs, where the Rust asserts, count as detail 4");
    list.add_arena(arena_of_rows(&nested, &both(1), caps), [34, 2, 0, 4]);
    list.says("8 with detail 13, before the details of 34");
    list.add_arena(arena_of_rows(&nested, &both(1), 0), [8, 2, 0, 13]);
    let one = [F32, structure(0, 1, 4)];
    list.add_arena(arena_of_rows(&one, &[[0, 0, 9, 9]], 0), [8, 1, 0, 13]);
    list.says("A blend source requires a location; a struct's record without it is number 2");
    list.add_arena(arena_of_rows(&one, &[[0, 0, 0, 1]], caps), [2, 1, 0, 0]);
    let late = [F32, array(9, CONSTANT, 1, 4), structure(0, 1, 4)];
    list.add_arena(arena_of_rows(&late, &[[0, 0, 0, 1]], caps), [2, 2, 0, 0]);
    let unnamed = [F32, array(0, CONSTANT, 1, 4)];
    list.add_arena(arena_of_rows(&unnamed, &[[0, 0, 0, 1]], caps), ACCEPTED);
    list.says("data, blend source, overlap: 17 before 34, 34 before 18");
    let data = [F32, SAMPLER, structure(0, 2, 16)];
    let rows = |ty, offset| [[0, 0, 1, 1], [ty, offset, 1, 1]];
    list.add_arena(arena_of_rows(&data, &rows(1, 2), caps), [17, 2, 1, 0]);
    list.add_arena(arena_of_rows(&data, &rows(0, 2), caps), [34, 2, 0, 2]);
    list.says("one source missing comes after every member: 19 before 34");
    let short = [F32, structure(0, 2, 7)];
    let rows = [[0, 0, 1, 1], member(0, 4)];
    list.add_arena(arena_of_rows(&short, &rows, caps), [19, 1, 1, 0]);
}

/// Records that are accepted with every capability, after a float and a
/// sampler, with one member row.
const RECORDS: [Record; 14] = [
    F32,
    VEC3,
    [kind::MATRIX, 2, 3, FLOAT, 4, 0],
    cooperative_matrix(0),
    [kind::ATOMIC, 0, 4, 0, 0, 0],
    pointer(0, 0),
    value_pointer(0),
    array(0, CONSTANT, 1, 16),
    structure(0, 1, 16),
    [kind::IMAGE, 1, 0, 0, 0, 0],
    SAMPLER,
    [kind::ACCELERATION_STRUCTURE, 0, 0, 0, 0, 0],
    [kind::RAY_QUERY, 0, 0, 0, 0, 0],
    [kind::BINDING_ARRAY, 1, CONSTANT, 1, 0, 0],
];

/// The last and the first words of 01's sets and those next to them.
const BORDER_WORDS: [u32; 17] = [
    0,
    1,
    2,
    3,
    4,
    5,
    6,
    8,
    9,
    10,
    13,
    14,
    16,
    17,
    255,
    256,
    u32::MAX,
];

/// Each word of each kind's record, the kind too, set to each border.
pub fn by_word() -> impl Iterator<Item = Arena> {
    let changes = |record: Record| {
        let words = (0..TYPE_WORDS).flat_map(|at| BORDER_WORDS.map(|word| (at, word)));
        words.map(move |(at, word)| {
            let mut changed = record;
            changed[at] = word;
            arena(&[F32, SAMPLER, changed], &[[0, 0]], ALL_CAPABILITIES)
        })
    };
    RECORDS.into_iter().flat_map(changes)
}

/// Records that ask for a capability.
const GATED: [Record; 16] = [
    [kind::SCALAR, FLOAT, 8, 0, 0, 0],
    F16,
    [kind::SCALAR, 0, 2, 0, 0, 0],
    [kind::SCALAR, 1, 2, 0, 0, 0],
    [kind::SCALAR, 0, 8, 0, 0, 0],
    [kind::SCALAR, 1, 8, 0, 0, 0],
    [kind::ATOMIC, FLOAT, 4, 0, 0, 0],
    [kind::ATOMIC, 0, 8, 0, 0, 0],
    [kind::ATOMIC, 1, 8, 0, 0, 0],
    cooperative_matrix(0),
    [kind::IMAGE, 3, 1, 0, 0, 0],
    [kind::IMAGE, 1, 0, 2, 0, 0],
    [kind::ACCELERATION_STRUCTURE, 0, 0, 0, 0, 0],
    [kind::ACCELERATION_STRUCTURE, 1, 0, 0, 0, 0],
    [kind::RAY_QUERY, 0, 0, 0, 0, 0],
    [kind::RAY_QUERY, 1, 0, 0, 0, 0],
];

/// Each of these with each bit alone, and with every bit but that one.
pub fn by_capability() -> impl Iterator<Item = Arena> {
    let words = (0..CAPABILITY_BITS).flat_map(|bit| [1 << bit, ALL_CAPABILITIES ^ 1 << bit]);
    let gated = move |record| words.clone().map(move |word| arena(&[record], &[], word));
    GATED.into_iter().flat_map(gated)
}
