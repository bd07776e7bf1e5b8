//! The reference answer: 01's numbers 1 to 3, then `Layouter::update` on the
//! whole arena, then `validate_type` type by type.

use crate::panics::caught;
use crate::records::*;
use crate::{newer, tables, translate};
use naga::proc::{LayoutError, LayoutErrorInner};
use naga::valid::{Capabilities, Disalignment, TypeError, TypeFlags, ValidationFlags, Validator};
use naga::valid::{VaryingError, WidthError};
use naga::{Handle, Type, TypeInner, UniqueArena};

pub struct LayoutOutcome {
    pub answer: Answer,
    /// Size and alignment of each type, if the arena is laid out.
    pub layouts: Option<Vec<(u32, u32)>>,
}

pub struct Outcome {
    pub answer: Answer,
    pub rows: Option<Vec<Row>>,
    /// The arena, if it is accepted: only then may it be walked.
    pub arena: Option<UniqueArena<Type>>,
    /// Where the Rust panicked, for number 21, and for 34 where it asserts.
    pub panic_site: Option<String>,
}

/// What a call owes: its answer, the rows (none: zeroes), and the words that
/// it writes beside them.
pub struct Expected {
    pub answer: Answer,
    pub rows: Option<Vec<Row>>,
    pub output: Vec<u64>,
}

impl From<LayoutOutcome> for Expected {
    fn from(outcome: LayoutOutcome) -> Self {
        let layouts = outcome.layouts;
        Self {
            answer: outcome.answer,
            rows: layouts.map(|layouts| layouts.into_iter().map(layout_row).collect()),
            output: Vec::new(),
        }
    }
}

fn layout_row((size, alignment): (u32, u32)) -> Row {
    let mut row = [0; ROW_WORDS];
    row[..2].copy_from_slice(&[size, alignment]);
    row
}

impl From<Outcome> for Expected {
    fn from(outcome: Outcome) -> Self {
        Self {
            answer: outcome.answer,
            rows: outcome.rows,
            output: Vec::new(),
        }
    }
}

/// 01's capability bits, by the names that the Rust gives them.
const CAPABILITIES: [Capabilities; CAPABILITY_BITS as usize] = [
    Capabilities::FLOAT64,
    Capabilities::SHADER_FLOAT16,
    Capabilities::SHADER_INT16,
    Capabilities::SHADER_INT64,
    Capabilities::SHADER_FLOAT32_ATOMIC,
    Capabilities::SHADER_INT64_ATOMIC_MIN_MAX,
    Capabilities::SHADER_INT64_ATOMIC_ALL_OPS,
    Capabilities::COOPERATIVE_MATRIX,
    Capabilities::CUBE_ARRAY_TEXTURES,
    Capabilities::TEXTURE_EXTERNAL,
    Capabilities::RAY_QUERY,
    Capabilities::RAY_TRACING_PIPELINE,
    Capabilities::RAY_HIT_VERTEX_POSITION,
    Capabilities::DUAL_SOURCE_BLENDING,
];

/// 01's flag bits, by the names that the Rust gives them; its own bits differ.
const FLAGS: [(TypeFlags, u32); 8] = [
    (TypeFlags::DATA, 1),
    (TypeFlags::SIZED, 2),
    (TypeFlags::COPY, 4),
    (TypeFlags::IO_SHAREABLE, 8),
    (TypeFlags::HOST_SHAREABLE, 16),
    (TypeFlags::ARGUMENT, 32),
    (TypeFlags::CONSTRUCTIBLE, 64),
    (TypeFlags::CREATION_RESOLVED, 128),
];

/// The layout call: it has no capability word.
pub fn layout(types: &[u32], members: &[u32], rows_len: usize) -> LayoutOutcome {
    let refused = |answer| LayoutOutcome {
        answer,
        layouts: None,
    };
    if tables::lengths_are_wrong(types, members, rows_len) {
        return refused(WRONG_LENGTH);
    }
    match Judge::new(types, members, 0) {
        Err(answer) => refused(answer),
        Ok(judge) => LayoutOutcome {
            answer: ACCEPTED,
            layouts: Some(judge.handles().map(|h| judge.validator.layout(h)).collect()),
        },
    }
}

/// What a call owes that judges the arena and then looks for something in it:
/// the arena's refusal comes first, and a later one keeps the accepted rows.
pub fn check_then(
    outcome: Outcome,
    output_len: usize,
    look: impl FnOnce(&UniqueArena<Type>) -> Result<Vec<u64>, u32>,
) -> Expected {
    let found = outcome.arena.as_ref().map(look);
    let (answer, output) = match found {
        None => (outcome.answer, vec![0; output_len]),
        Some(Ok(output)) => (ACCEPTED, output),
        Some(Err(number)) => ([number, 0, 0, 0], vec![0; output_len]),
    };
    Expected {
        answer,
        rows: outcome.rows,
        output,
    }
}

/// The whole check.
pub fn check(
    types: &[u32],
    members: &[u32],
    capabilities: u32,
    rule: u32,
    rows_len: usize,
) -> Outcome {
    let refused = |answer, panic_site| Outcome {
        answer,
        rows: None,
        arena: None,
        panic_site,
    };
    if tables::lengths_are_wrong(types, members, rows_len)
        || tables::capabilities_are_wrong(capabilities)
        || rule > NEWER
    {
        return refused(WRONG_LENGTH, None);
    }
    let mut judge = match Judge::new(types, members, capabilities) {
        Err(answer) => return refused(answer, None),
        Ok(judge) => judge,
    };
    match judge.judge_all() {
        Err(refusal) => refused(refusal.answer, refusal.panic_site),
        Ok(()) => {
            let mut rows: Vec<Row> = judge.handles().map(|h| judge.row(h)).collect();
            if rule == NEWER {
                newer::put_uniform(types, members, &mut rows);
            }
            Outcome {
                answer: ACCEPTED,
                rows: Some(rows),
                arena: Some(judge.types),
                panic_site: None,
            }
        }
    }
}

/// An arena that is laid out, with the validator that judges it.
pub struct Judge {
    pub types: UniqueArena<Type>,
    validator: Validator,
}

struct Refusal {
    answer: Answer,
    panic_site: Option<String>,
}

/// A type's failure before its place in the arena is known.
struct Failure {
    number: u32,
    member: Member,
    detail: u32,
    panic_site: Option<String>,
}

impl Failure {
    /// Details 3 to 6 of number 34 come after every member.
    fn is_after_the_members(&self) -> bool {
        self.number == 34 && self.detail >= 3
    }
}

enum Member {
    /// The failure tells it, or has none.
    Known(u32),
    /// The Rust does not carry the position; see `failing_member`.
    Unknown,
}

impl Judge {
    /// Numbers 2 to 7.
    pub fn new(types: &[u32], members: &[u32], capabilities: u32) -> Result<Self, Answer> {
        if let Some(answer) = tables::first_bad_record(types, members) {
            return Err(answer);
        }
        let types = translate::arena(types, members);
        let mut validator = Validator::new(ValidationFlags::all(), capability_set(capabilities));
        validator.lay_out(&types).map_err(layout_answer)?;
        Ok(Self { types, validator })
    }

    fn handles(&self) -> impl Iterator<Item = Handle<Type>> {
        (0..self.types.len() as u32).map(naga::handle_of)
    }

    /// Numbers 8 to 24 and 34.
    fn judge_all(&mut self) -> Result<(), Refusal> {
        for handle in self.handles() {
            let result = caught(|| self.validator.judge_and_keep(&self.types, handle));
            if let Some(failure) = failure_of(result) {
                return Err(self.refusal(handle, failure));
            }
        }
        Ok(())
    }

    fn refusal(&mut self, handle: Handle<Type>, failure: Failure) -> Refusal {
        let member = match failure.member {
            Member::Known(member) => member,
            Member::Unknown => self.failing_member(handle, failure.number),
        };
        Refusal {
            answer: [
                failure.number,
                handle.index() as u32,
                member,
                failure.detail,
            ],
            panic_site: failure.panic_site,
        }
    }

    /// The position of the member at which a struct fails; 0 for other types.
    ///
    /// The struct is judged again with its first k members only. The members
    /// before the failing one have passed, and leaving out later ones only
    /// makes the unsized rule (20) milder; so a prefix passes exactly if it
    /// ends before the failing member, and the shortest that fails ends with
    /// it. Number 20 itself is not looked for in this way. What a prefix lacks
    /// of its blend sources is told after its last member: it has passed.
    fn failing_member(&mut self, handle: Handle<Type>, number: u32) -> u32 {
        let TypeInner::Struct { ref members, span } = self.types[handle].inner else {
            return 0;
        };
        let members = members.clone();
        let (mut passing, mut failing) = (0, members.len());
        while failing - passing > 1 {
            let middle = (passing + failing) / 2;
            let name = Some("prefix".to_string());
            let members = members[..middle].to_vec();
            let inner = TypeInner::Struct { members, span };
            self.types.replace(handle, Type { name, inner });
            match failure_of(caught(|| self.validator.judge(&self.types, handle))) {
                None => passing = middle,
                Some(failure) if failure.is_after_the_members() => passing = middle,
                Some(failure) => {
                    assert_eq!(failure.number, number);
                    failing = middle;
                }
            }
        }
        failing as u32 - 1
    }

    fn row(&self, handle: Handle<Type>) -> Row {
        let validator = &self.validator;
        let mut row = [0; ROW_WORDS];
        (row[0], row[1]) = validator.layout(handle);
        row[2] = flag_word(validator.flags(handle));
        row[3..8].copy_from_slice(&verdict_words(validator.uniform_verdict(handle)));
        row[8..13].copy_from_slice(&verdict_words(validator.storage_verdict(handle)));
        row[13] = match validator.not_in_immediates(handle) {
            None => 0,
            Some(scalar) => 1 + scalar.kind as u32,
        };
        row
    }
}

pub fn capability_set(word: u32) -> Capabilities {
    let mut set = Capabilities::empty();
    for (bit, &capability) in CAPABILITIES.iter().enumerate() {
        set.set(capability, word >> bit & 1 == 1);
    }
    set
}

fn flag_word(flags: TypeFlags) -> u32 {
    let set = FLAGS.iter().filter(|(flag, _)| flags.contains(*flag));
    set.map(|(_, bit)| bit).sum()
}

fn layout_answer(error: LayoutError) -> Answer {
    let number = error.ty.index() as u32;
    match error.inner {
        LayoutErrorInner::TooLarge => [4, number, 0, 0],
        LayoutErrorInner::InvalidArrayElementType(_) => [5, number, 0, 0],
        LayoutErrorInner::InvalidStructMemberType(member, _) => [6, number, member, 0],
        LayoutErrorInner::NonPowerOfTwoWidth => [7, number, 0, 0],
    }
}

fn failure_of(result: Result<Result<(), TypeError>, String>) -> Option<Failure> {
    match result {
        Ok(Ok(())) => None,
        Ok(Err(error)) => Some(type_failure(error)),
        // `non_struct_equivalent` asserts that not both are structs; E9 of 02: they count as detail 4.
        Err(site) if site.starts_with(ASSERTION_FILE) => Some(Failure {
            number: 34,
            member: Member::Known(0),
            detail: 4,
            panic_site: Some(site),
        }),
        Err(site) => Some(Failure {
            number: 21,
            member: Member::Unknown,
            detail: 0,
            panic_site: Some(site),
        }),
    }
}

fn type_failure(error: TypeError) -> Failure {
    let none = Member::Known(0);
    let (number, member, detail) = match error {
        TypeError::MissingCapability(capability) => (8, none, bit_of(capability)),
        TypeError::WidthError(WidthError::MissingCapability { flag, .. }) => {
            (8, none, bit_of_flag(flag))
        }
        TypeError::WidthError(WidthError::Invalid(..)) => (9, none, 0),
        TypeError::WidthError(WidthError::Abstract) => (10, none, 0),
        TypeError::MatrixElementNotFloat => (11, none, 0),
        TypeError::InvalidAtomicWidth(..) => (12, none, 0),
        TypeError::InvalidPointerBase(_) => (13, none, 0),
        TypeError::InvalidPointerToUnsized { .. } => (14, none, 0),
        TypeError::InvalidArrayBaseType(_) => (15, none, 0),
        TypeError::EmptyStruct => (16, none, 0),
        TypeError::InvalidData(_) => (17, Member::Unknown, 0),
        TypeError::MemberOverlap { index, .. } => (18, Member::Known(index), 0),
        TypeError::MemberOutOfBounds { index, .. } => (19, Member::Known(index), 0),
        // A member's name is its position.
        TypeError::InvalidDynamicArray(name, _) => (20, Member::Known(name.parse().unwrap()), 0),
        TypeError::InvalidBlendSrc(error) => (34, none, blend_detail(error)),
        TypeError::UnsupportedImageType { .. } => (22, none, 0),
        TypeError::BindingArrayBaseTypeNotStruct(_) => (23, none, 0),
        TypeError::BindingArrayBaseExternalTextures => (24, none, 0),
        TypeError::UnsupportedSpecializedArrayLength(_)
        | TypeError::InvalidArrayStride { .. }
        | TypeError::UnresolvedOverride(_)
        | TypeError::InvalidArraySize(_) => unreachable!("left out of 01: {error:?}"),
    };
    Failure {
        number,
        member,
        detail,
        panic_site: None,
    }
}

/// E9 of 02: bad index, collision, other locations, types differ, not
/// IO-shareable, one source missing.
fn blend_detail(error: VaryingError) -> u32 {
    match error {
        VaryingError::InvalidBlendSrcIndex { .. } => 1,
        VaryingError::BindingCollisionBlendSrc { .. } => 2,
        VaryingError::InvalidBlendSrcWithOtherBindings { .. } => 3,
        VaryingError::BlendSrcOutputTypeMismatch { .. } => 4,
        VaryingError::NotIOShareableType(_) => 5,
        VaryingError::IncompleteBlendSrcUsage { .. } => 6,
    }
}

fn bit_of(capability: Capabilities) -> u32 {
    let bit = CAPABILITIES.iter().position(|&known| known == capability);
    bit.expect("a capability of 01") as u32
}

/// Widths name their capability by a string.
fn bit_of_flag(flag: &str) -> u32 {
    match flag {
        "FLOAT64" => 0,
        "FLOAT16" => 1,
        "SHADER_INT16" => 2,
        "SHADER_INT64" => 3,
        other => unreachable!("flag {other}"),
    }
}

/// The file of `non_struct_equivalent`; no sum of number 21 stands in it.
const ASSERTION_FILE: &str = "type_methods.rs:";

type Verdict = Result<naga::proc::Alignment, (Handle<Type>, Disalignment)>;

fn verdict_words(verdict: Verdict) -> [u32; 5] {
    let (handle, disalignment) = match verdict {
        Ok(alignment) => return [0, alignment * 1, 0, 0, 0],
        Err(error) => error,
    };
    let ty = handle.index() as u32;
    match disalignment {
        Disalignment::ArrayStride { stride, alignment } => [1, ty, 0, stride, alignment * 1],
        Disalignment::StructSpan { span, alignment } => [2, ty, 0, span, alignment * 1],
        Disalignment::MemberOffset {
            index,
            offset,
            alignment,
        } => [3, ty, index, offset, alignment * 1],
        Disalignment::MemberOffsetAfterStruct {
            index,
            offset,
            expected,
        } => [4, ty, index, offset, expected],
        Disalignment::UnsizedMember { index } => [5, ty, index, 0, 0],
        Disalignment::NonHostShareable => [6, ty, 0, 0, 0],
    }
}
