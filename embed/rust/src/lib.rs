//! Layouts, verdicts, immediate slots and passes tried with them, places and a report of bytes for GPU type tables: safe
//! calls to the proved static library.
//!
//! Tables are slices of words, as wuldazin.h describes them; lengths and words may be anything. `rows` is lent for the
//! result rows, [`ROW_WORDS`] a type: filled where the arena is accepted, zeros on numbers 2 to 24 and 34, untouched on number 1.
//! Words after those of the arena's types are never written.

mod door;
mod pass;
mod refusal;
mod row;

pub use pass::{NotReady, Pass};
pub use refusal::{blend, Refusal};
pub use row::{flags, verdict, Row, Verdict};

pub const TYPE_WORDS: usize = 6;
pub const MEMBER_WORDS: usize = 4;
pub const ROW_WORDS: usize = 14;
pub const SHORT_WORDS: usize = 3;
pub const REPORT_WORDS: usize = 2;
pub const MOST_TYPES: usize = 1024;
pub const MOST_MEMBERS: usize = 4096;

/// Word 0 of a type.
pub mod kind {
    pub const SCALAR: u32 = 0;
    pub const VECTOR: u32 = 1;
    pub const MATRIX: u32 = 2;
    pub const COOPERATIVE_MATRIX: u32 = 3;
    pub const ATOMIC: u32 = 4;
    pub const POINTER: u32 = 5;
    pub const VALUE_POINTER: u32 = 6;
    pub const ARRAY: u32 = 7;
    pub const STRUCT: u32 = 8;
    pub const IMAGE: u32 = 9;
    pub const SAMPLER: u32 = 10;
    pub const ACCELERATION_STRUCTURE: u32 = 11;
    pub const RAY_QUERY: u32 = 12;
    pub const BINDING_ARRAY: u32 = 13;
}

/// Scalar kinds.
pub mod scalar {
    pub const SINT: u32 = 0;
    pub const UINT: u32 = 1;
    pub const FLOAT: u32 = 2;
    pub const BOOL: u32 = 3;
    pub const ABSTRACT_INT: u32 = 4;
    pub const ABSTRACT_FLOAT: u32 = 5;
}

/// Forms of arrays and binding arrays.
pub mod form {
    pub const CONSTANT: u32 = 0;
    pub const DYNAMIC: u32 = 1;
}

/// Address spaces.
pub mod space {
    pub const FUNCTION: u32 = 0;
    pub const PRIVATE: u32 = 1;
    pub const WORK_GROUP: u32 = 2;
    pub const UNIFORM: u32 = 3;
    pub const STORAGE: u32 = 4;
    pub const HANDLE: u32 = 5;
    pub const IMMEDIATE: u32 = 6;
    pub const TASK_PAYLOAD: u32 = 7;
    pub const RAY_PAYLOAD: u32 = 8;
    pub const INCOMING_RAY_PAYLOAD: u32 = 9;
}

/// Dimensions of an image.
pub mod dimension {
    pub const D1: u32 = 0;
    pub const D2: u32 = 1;
    pub const D3: u32 = 2;
    pub const CUBE: u32 = 3;
}

/// Classes of an image.
pub mod class {
    pub const SAMPLED: u32 = 0;
    pub const DEPTH: u32 = 1;
    pub const EXTERNAL: u32 = 2;
    pub const STORAGE: u32 = 3;
}

/// Bits of the capability word.
pub mod capabilities {
    pub const FLOAT64: u32 = 1;
    pub const SHADER_FLOAT16: u32 = 1 << 1;
    pub const SHADER_INT16: u32 = 1 << 2;
    pub const SHADER_INT64: u32 = 1 << 3;
    pub const SHADER_FLOAT32_ATOMIC: u32 = 1 << 4;
    pub const SHADER_INT64_ATOMIC_MIN_MAX: u32 = 1 << 5;
    pub const SHADER_INT64_ATOMIC_ALL_OPS: u32 = 1 << 6;
    pub const COOPERATIVE_MATRIX: u32 = 1 << 7;
    pub const CUBE_ARRAY_TEXTURES: u32 = 1 << 8;
    pub const TEXTURE_EXTERNAL: u32 = 1 << 9;
    pub const RAY_QUERY: u32 = 1 << 10;
    pub const RAY_TRACING_PIPELINE: u32 = 1 << 11;
    pub const RAY_HIT_VERTEX_POSITION: u32 = 1 << 12;
    pub const DUAL_SOURCE_BLENDING: u32 = 1 << 13;
    pub const ALL: u32 = 16383;
}

/// The rule by which uniform verdicts are worked out. Answers, and everything in a row but its uniform verdict, are the same
/// under both.
#[derive(Clone, Copy, Debug, PartialEq, Eq)]
pub enum UniformRule {
    /// naga 30.0.1's: arrays and structs are aligned to 16.
    Older = 0,
    /// WGSL's uniform_buffer_standard_layout: by the storage rules. A struct with a runtime-sized member has no uniform
    /// verdict under either.
    Newer = 1,
}

/// A leaf: its first byte and its type, of a column the matrix's.
#[derive(Clone, Copy, Debug, PartialEq, Eq)]
pub struct Place {
    pub byte: u64,
    pub leaf: u32,
}

impl Place {
    /// The place of run `run` in what [`places`] left; none where it has none, or where there are fewer words.
    pub fn of(places: &[u64], run: usize) -> Option<Self> {
        let &[byte, leaf] = places.get(2 * run..2 * run + 2)? else {
            return None;
        };
        let leaf = u32::try_from(leaf).ok()?;
        Some(Self { byte, leaf })
    }
}

/// Immediate slots, bit k for bytes 4k to 4k + 3.
#[derive(Clone, Copy, Debug, PartialEq, Eq)]
pub struct Slots {
    /// A part covers one of the slot's bytes.
    pub touched: u64,
    /// A part covers one of the slot's bytes and not all four.
    pub partly: u64,
}

/// What a plain type measures, and from a column of a matrix to the next; 0 for what is no matrix.
#[derive(Clone, Copy, Debug, PartialEq, Eq)]
pub struct Plain {
    pub size: u32,
    pub alignment: u32,
    pub step: u32,
}

/// How many records a module has.
#[derive(Clone, Copy, Debug, PartialEq, Eq)]
pub struct Section {
    pub types: usize,
    pub members: usize,
}

/// Bytes that lie in leaves and bytes that lie in none, over all host-shareable structs.
#[derive(Clone, Copy, Debug, PartialEq, Eq)]
pub struct Totals {
    pub carried: u64,
    pub wasted: u64,
}

/// Sizes and alignments alone, with no capability asked for. Numbers 1 to 7.
pub fn layout(types: &[u32], members: &[u32], rows: &mut [u32]) -> Result<(), Refusal> {
    let mut answer = [0; 4];
    // SAFETY: every pointer and length is that of a live slice, and no slice that is written overlaps another. So below.
    unsafe {
        door::wuldazin_layout(
            types.as_ptr(),
            types.len(),
            members.as_ptr(),
            members.len(),
            rows.as_mut_ptr(),
            rows.len(),
            answer.as_mut_ptr(),
            answer.len(),
        )
    }
    Refusal::of(answer)
}

/// Judges an arena. Numbers 1 to 24 and 34.
///
/// Accepted does not mean usable in an address space: before a buffer is filled, look at [`Row::storage`] or [`Row::uniform`]
/// of its type.
///
/// `rows` may hold anything, laid out or not: the result and the rows depend on the tables, the capability word, the rule
/// and the length of `rows` alone. Where the capability word is in order, what [`layout`] refuses is refused alike. So this is the
/// whole check, and the fastest one: a host that has no use for laid-out rows calls it and nothing else.
pub fn judge(
    types: &[u32],
    members: &[u32],
    capabilities: u32,
    rule: UniformRule,
    rows: &mut [u32],
) -> Result<(), Refusal> {
    let mut answer = [0; 4];
    // SAFETY: as in layout.
    unsafe {
        door::wuldazin_judge(
            types.as_ptr(),
            types.len(),
            members.as_ptr(),
            members.len(),
            capabilities,
            rule as u32,
            rows.as_mut_ptr(),
            rows.len(),
            answer.as_mut_ptr(),
            answer.len(),
        )
    }
    Refusal::of(answer)
}

/// Tests the capability word, then does what [`layout`] and, where that accepts, [`judge`] do one after the other. The
/// result and the rows are those of [`judge`]. Numbers 1 to 24 and 34.
pub fn check(
    types: &[u32],
    members: &[u32],
    capabilities: u32,
    rule: UniformRule,
    rows: &mut [u32],
) -> Result<(), Refusal> {
    let mut answer = [0; 4];
    // SAFETY: as in layout.
    unsafe {
        door::wuldazin_check(
            types.as_ptr(),
            types.len(),
            members.as_ptr(),
            members.len(),
            capabilities,
            rule as u32,
            rows.as_mut_ptr(),
            rows.len(),
            answer.as_mut_ptr(),
            answer.len(),
        )
    }
    Refusal::of(answer)
}

/// The immediate slots of `size` bytes from `offset` on, which are one part. Number 25.
pub fn range(offset: u32, size: u32) -> Result<Slots, Refusal> {
    let (mut mask, mut answer) = ([0; 2], [0; 4]);
    // SAFETY: as in layout.
    unsafe {
        door::wuldazin_range(
            offset,
            size,
            mask.as_mut_ptr(),
            mask.len(),
            answer.as_mut_ptr(),
            answer.len(),
        )
    }
    let [touched, partly] = mask;
    Refusal::of(answer).map(|()| Slots { touched, partly })
}

/// The immediate slots of type `ty` that stands at `offset`. Judges the arena first. Numbers 1 to 26 and 34.
///
/// A part is what is no struct, arrays taken whole. Each mask has the slots of all parts: a slot of which two parts cover a
/// half each is in `partly`.
///
/// The walk goes over the members of each struct at most four times, however often other structs hold it. It recurses, at
/// most once a type, and keeps what it finds of each struct: 600 KB of stack.
pub fn slots(
    types: &[u32],
    members: &[u32],
    capabilities: u32,
    rule: UniformRule,
    rows: &mut [u32],
    ty: u32,
    offset: u32,
) -> Result<Slots, Refusal> {
    let (mut mask, mut answer) = ([0; 2], [0; 4]);
    // SAFETY: as in layout.
    unsafe {
        door::wuldazin_slots(
            types.as_ptr(),
            types.len(),
            members.as_ptr(),
            members.len(),
            capabilities,
            rule as u32,
            rows.as_mut_ptr(),
            rows.len(),
            ty,
            offset,
            mask.as_mut_ptr(),
            mask.len(),
            answer.as_mut_ptr(),
            answer.len(),
        )
    }
    let [touched, partly] = mask;
    Refusal::of(answer).map(|()| Slots { touched, partly })
}

/// Whether every slot of `other` is one of `mask`; each is a mask of [`Slots`], or any other 64 bits.
pub fn contains(mask: u64, other: u64) -> bool {
    // SAFETY: two numbers are handed over, and nothing is lent. So in the next two.
    unsafe { door::wuldazin_contains(mask, other) }
}

/// The slots of `mask` that are not in `other`.
pub fn difference(mask: u64, other: u64) -> u64 {
    // SAFETY: as in contains.
    unsafe { door::wuldazin_difference(mask, other) }
}

/// The slots of either.
pub fn union(mask: u64, other: u64) -> u64 {
    // SAFETY: as in contains.
    unsafe { door::wuldazin_union(mask, other) }
}

/// The leaf that `steps`, member, element and column numbers, lead to from type `start`. Judges the arena first. Numbers 1
/// to 24, 26 and 34.
///
/// A matrix takes one further step, its column, and the leaf is that column: rows times width bytes. The column step, from
/// one to the next, is the matrix's alignment; the bytes between columns of three rows are in no leaf. Every other leaf is
/// as long as its type's size.
pub fn place(
    types: &[u32],
    members: &[u32],
    capabilities: u32,
    rule: UniformRule,
    rows: &mut [u32],
    start: u32,
    steps: &[u32],
) -> Result<Place, Refusal> {
    let (mut place, mut answer) = ([0; 2], [0; 4]);
    // SAFETY: as in layout.
    unsafe {
        door::wuldazin_place(
            types.as_ptr(),
            types.len(),
            members.as_ptr(),
            members.len(),
            capabilities,
            rule as u32,
            rows.as_mut_ptr(),
            rows.len(),
            start,
            steps.as_ptr(),
            steps.len(),
            place.as_mut_ptr(),
            place.len(),
            answer.as_mut_ptr(),
            answer.len(),
        )
    }
    let [byte, leaf] = place;
    Refusal::of(answer).map(|()| Place {
        byte,
        leaf: leaf as u32,
    })
}

/// The same by [`SHORT_WORDS`] words for each type, size, alignment and flags, in the place of a row: the result of [`place`] for
/// the same tables, capabilities, start and steps. `scratch` is filled where the arena is accepted, zeros on numbers 2 to 24 and 34,
/// untouched on number 1, which a shorter one gives. No verdict is made, so no rule is asked for.
pub fn place_short(
    types: &[u32],
    members: &[u32],
    capabilities: u32,
    scratch: &mut [u32],
    start: u32,
    steps: &[u32],
) -> Result<Place, Refusal> {
    let (mut place, mut answer) = ([0; 2], [0; 4]);
    // SAFETY: as in layout.
    unsafe {
        door::wuldazin_place_short(
            types.as_ptr(),
            types.len(),
            members.as_ptr(),
            members.len(),
            capabilities,
            scratch.as_mut_ptr(),
            scratch.len(),
            start,
            steps.as_ptr(),
            steps.len(),
            place.as_mut_ptr(),
            place.len(),
            answer.as_mut_ptr(),
            answer.len(),
        )
    }
    let [byte, leaf] = place;
    Refusal::of(answer).map(|()| Place {
        byte,
        leaf: leaf as u32,
    })
}

/// Many places with one judging, and `scratch` as in [`place_short`]. `runs` are a start, how many steps it has, and the steps, one
/// after the other. `places` is lent for two words a run, which [`Place::of`] reads. A run that is cut short, or places for fewer
/// runs, is number 1, which touches nothing; after another refusal there is no place. Words after those of the runs are never written.
pub fn places(
    types: &[u32],
    members: &[u32],
    capabilities: u32,
    scratch: &mut [u32],
    runs: &[u32],
    places: &mut [u64],
) -> Result<(), Refusal> {
    let mut answer = [0; 4];
    // SAFETY: as in layout.
    unsafe {
        door::wuldazin_places(
            types.as_ptr(),
            types.len(),
            members.as_ptr(),
            members.len(),
            capabilities,
            scratch.as_mut_ptr(),
            scratch.len(),
            runs.as_ptr(),
            runs.len(),
            places.as_mut_ptr(),
            places.len(),
            answer.as_mut_ptr(),
            answer.len(),
        )
    }
    Refusal::of(answer)
}

/// The bytes that lie in leaves and those of the span that lie in none, for each struct with [`flags::HOST_SHAREABLE`]; a
/// runtime array counts as one element. Judges the arena first. Numbers 1 to 24, 27 and 34.
///
/// `report` is lent for [`REPORT_WORDS`] words a type, bytes carried and bytes wasted, 0 for a type that is no such struct:
/// filled where the arena is accepted, untouched on number 1, which a shorter one gives too, and zeros on every other
/// number. Words after those of the arena's types are never written. A struct in a struct has its own share in the totals.
pub fn report(
    types: &[u32],
    members: &[u32],
    capabilities: u32,
    rule: UniformRule,
    rows: &mut [u32],
    report: &mut [u64],
) -> Result<Totals, Refusal> {
    let (mut totals, mut answer) = ([0; 2], [0; 4]);
    // SAFETY: as in layout.
    unsafe {
        door::wuldazin_report(
            types.as_ptr(),
            types.len(),
            members.as_ptr(),
            members.len(),
            capabilities,
            rule as u32,
            rows.as_mut_ptr(),
            rows.len(),
            report.as_mut_ptr(),
            report.len(),
            totals.as_mut_ptr(),
            totals.len(),
            answer.as_mut_ptr(),
            answer.len(),
        )
    }
    let [carried, wasted] = totals;
    Refusal::of(answer).map(|()| Totals { carried, wasted })
}

/// Size, alignment and column step of a plain type, whatever its scalar kind. Shape 0 is the scalar, 1 to 3 are vec2 to
/// vec4, 4 to 12 the matrices: 4 + 3 * (columns - 2) + (rows - 2). Widths are 1, 2, 4 and 8. Number 2 for another shape or
/// width.
pub fn plain(shape: u32, width: u32) -> Result<Plain, Refusal> {
    let (mut numbers, mut answer) = ([0; 3], [0; 4]);
    // SAFETY: as in layout.
    unsafe {
        door::wuldazin_plain(
            shape,
            width,
            numbers.as_mut_ptr(),
            numbers.len(),
            answer.as_mut_ptr(),
            answer.len(),
        )
    }
    let [size, alignment, step] = numbers;
    Refusal::of(answer).map(|()| Plain {
        size,
        alignment,
        step,
    })
}

/// The type section of a SPIR-V module into type and member records, in word order. Cut the tables to the counts before they
/// are judged; the words after them are left. A refusal zeroes all words of both tables: 28 to 30, and 1 for more records than
/// they admit.
pub fn read_spirv(
    words: &[u32],
    types: &mut [u32],
    members: &mut [u32],
) -> Result<Section, Refusal> {
    let (mut counts, mut answer) = ([0; 2], [0; 4]);
    // SAFETY: as in layout.
    unsafe {
        door::wuldazin_read_spirv(
            words.as_ptr(),
            words.len(),
            types.as_mut_ptr(),
            types.len(),
            members.as_mut_ptr(),
            members.len(),
            counts.as_mut_ptr(),
            counts.len(),
            answer.as_mut_ptr(),
            answer.len(),
        )
    }
    let [types, members] = counts.map(|count| count as usize);
    Refusal::of(answer).map(|()| Section { types, members })
}

/// The member rows of struct `ty`, as that part of `members`; empty for a number that is no struct or whose rows reach past
/// it. Judges nothing.
pub fn members<'a>(types: &[u32], members: &'a [u32], ty: u32) -> &'a [u32] {
    let mut part = [0; 2];
    // SAFETY: as in layout.
    unsafe {
        door::wuldazin_members(
            types.as_ptr(),
            types.len(),
            members.as_ptr(),
            members.len(),
            ty,
            part.as_mut_ptr(),
            part.len(),
        )
    }
    let [start, length] = part.map(|word| word as usize);
    &members[start..start + length]
}

/// How many records a text has.
#[derive(Clone, Copy, Debug, PartialEq, Eq, Hash)]
pub struct Counts {
    pub types: usize,
    pub members: usize,
}

/// The records of the structs of a WGSL text, at the start of the lent tables. A refusal, 1 or 31 to 33, zeroes both tables.
pub fn read_wgsl(text: &[u8], types: &mut [u32], members: &mut [u32]) -> Result<Counts, Refusal> {
    let (mut counts, mut answer) = ([0; 2], [0; 4]);
    // SAFETY: as in layout.
    unsafe {
        door::wuldazin_read_wgsl(
            text.as_ptr(),
            text.len(),
            types.as_mut_ptr(),
            types.len(),
            members.as_mut_ptr(),
            members.len(),
            counts.as_mut_ptr(),
            counts.len(),
            answer.as_mut_ptr(),
            answer.len(),
        )
    }
    let [types, members] = counts.map(|count: u32| count as usize);
    Refusal::of(answer).map(|()| Counts { types, members })
}

/// The most types that an order may have.
pub const MOST_GIVEN: usize = 7;

/// The struct of an order: its type number, its span, and which of the wanted types stands at each place.
#[derive(Clone, Copy, Debug, PartialEq, Eq, Hash)]
pub struct Order {
    pub ty: u32,
    pub span: u32,
    count: usize,
    places: [u32; MOST_GIVEN],
}

impl Order {
    /// The member number at each place: a position among the wanted types.
    pub fn places(&self) -> &[u32] {
        &self.places[..self.count]
    }
}

/// The first order, by member numbers, of the wanted types as members of a struct that has at most the span; a runtime
/// array stays last. The first `type_count` types and `member_count` member rows are the arena; the struct and its rows are
/// written behind them, and `rows` has those of `type_count + 1` types. No refusal writes a record: 1 (more than
/// [`MOST_GIVEN`] types, or no room) and the arena's own, then 16, 6, 17, 20 and 35, which keep the rows of the arena, then
/// those of the arena with the struct.
#[allow(clippy::too_many_arguments)]
pub fn order(
    types: &mut [u32],
    type_count: u32,
    members: &mut [u32],
    member_count: u32,
    capabilities: u32,
    rule: UniformRule,
    rows: &mut [u32],
    wanted: &[u32],
    span: u32,
) -> Result<Order, Refusal> {
    let (mut found, mut answer) = ([0; 2 + MOST_GIVEN], [0; 4]);
    // SAFETY: as in layout.
    unsafe {
        door::wuldazin_order(
            types.as_mut_ptr(),
            types.len(),
            type_count,
            members.as_mut_ptr(),
            members.len(),
            member_count,
            capabilities,
            rule as u32,
            rows.as_mut_ptr(),
            rows.len(),
            wanted.as_ptr(),
            wanted.len(),
            span,
            found.as_mut_ptr(),
            found.len(),
            answer.as_mut_ptr(),
            answer.len(),
        )
    }
    let [ty, span, places @ ..] = found;
    Refusal::of(answer).map(|()| Order {
        ty,
        span,
        count: wanted.len(),
        places,
    })
}

#[cfg(test)]
mod marked;
#[cfg(test)]
mod smallest_orders;
#[cfg(test)]
mod smallest_passes;
#[cfg(test)]
mod smallest_reports;
