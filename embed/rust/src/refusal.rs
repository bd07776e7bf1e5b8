//! Why an arena, a type, a place or a step of a pass was refused.

use std::fmt;

/// The first thing refused.
#[derive(Clone, Copy, Debug, PartialEq, Eq, Hash)]
pub struct Refusal {
    /// 1 to 30, 34, 36 and 37.
    pub number: u32,
    /// The first type refused; 0 for 1, 25, 26, 28 to 30, 36 and 37, and for 2 of [`crate::plain`].
    pub ty: u32,
    /// Its position in the struct for 6 and 17 to 21, else 0.
    pub member: u32,
    /// The missing capability's bit for 8, what is wrong with a blend source for 34 ([`blend`]), else 0.
    pub detail: u32,
}

/// The detail of number 34.
pub mod blend {
    /// A source above 1, or a location other than 0 with a source.
    pub const BAD_INDEX: u32 = 1;
    /// Two members with one source.
    pub const COLLISION: u32 = 2;
    /// Beside both sources a member has a location alone.
    pub const OTHER_LOCATIONS: u32 = 3;
    /// The two types are not the same, or structs.
    pub const TYPES_DIFFER: u32 = 4;
    /// Their type is not IO-shareable.
    pub const NOT_SHAREABLE: u32 = 5;
    /// One source alone.
    pub const ONE_MISSING: u32 = 6;
}

/// As in `wuldazin_meaning` of wuldazin.h.
const MEANINGS: [&str; 31] = [
    "accepted",
    "a table is no whole number of records or too long, the rows, the scratch, the places, the report or the pass are too short, a run of steps is cut short, a module has more records than the tables admit, an order has more than seven types or no room for its struct, or a capability bit above 13 is set",
    "a field lies outside its set, member rows reach past the table, a blend source has no location, or no plain type has that shape and width",
    "the base of a pointer or binding array lies outside the arena",
    "an array's count or size is above 2,147,483,647",
    "an array's element is no earlier type",
    "a struct's member is no earlier type",
    "a width is no power of two",
    "a capability is missing",
    "a scalar has a width that its kind may not have",
    "a scalar is abstract",
    "a matrix has elements that are no floats",
    "an atomic has a scalar kind and width that no atomic may have",
    "a pointer's base is no data",
    "a pointer to an unsized type stands in another address space than Storage",
    "an array's base is a type that cannot be an element",
    "a struct has no members",
    "a member is no data, or a binding array's base is no earlier type",
    "a member overlaps the one before",
    "a member ends past the struct's span",
    "a dynamic member is not the last, or no array",
    "a struct's sum or difference leaves 32 bits",
    "an image is arrayed and 3D, or external and arrayed or not 2D",
    "a binding array's base is data and no struct",
    "a binding array's base is an external image",
    "a nonempty part ends past byte 256, or an offset sum leaves 32 bits",
    "no type has that number, or the steps lead to no place",
    "a host-shareable struct reaches an array with a stride below its element's size",
    "a SPIR-V header is short or has another magic number, or a word count is 0, past the end or too small",
    "a SPIR-V type that is not read is referred to, a width, a signedness, an encoding or a number of parts is not supported, or a matrix is stored otherwise",
    "a SPIR-V id is missing, still to come, given twice or of the wrong sort, a size leaves 32 bits, or an Offset, an ArrayStride or an array's length is not in order",
];

impl Refusal {
    pub(crate) fn of(answer: [u32; 4]) -> Result<(), Self> {
        match answer {
            [0, ..] => Ok(()),
            [number, ty, member, detail] => Err(Self {
                number,
                ty,
                member,
                detail,
            }),
        }
    }

    /// A sentence for a message: what the number stands for.
    pub fn meaning(&self) -> &'static str {
        match self.number {
            31 => {
                "a text leaves the grammar, is too deep, or has a vector, matrix or atomic of no scalar"
            }
            32 => {
                "a type's name is unknown or repeated, or a member's name is repeated in its struct"
            }
            33 => {
                "an attribute is one that WGSL forbids, an array's count is 0, or a number or a placement is above 4,294,967,295"
            }
            34 => "the blend sources of a struct's members are refused",
            35 => "none of the allowed orders of the types has at most that span",
            36 => "a dispatch has no pipeline, or slots that it needs are not set",
            37 => {
                "a type's immediates word is not 0, or a range's offset or size is no multiple of 4"
            }
            number => MEANINGS
                .get(number as usize)
                .unwrap_or(&"no number of an answer"),
        }
    }
}

impl fmt::Display for Refusal {
    fn fmt(&self, f: &mut fmt::Formatter) -> fmt::Result {
        let Self {
            number,
            ty,
            member,
            detail,
        } = self;
        write!(f, "{number}: {}", self.meaning())?;
        match number {
            1 | 25 | 26 | 28..=33 | 35..=37 => Ok(()),
            6 | 17..=21 => write!(f, " (type {ty}, member {member})"),
            8 => write!(f, " (type {ty}, bit {detail})"),
            34 => write!(f, " (type {ty}, detail {detail})"),
            _ => write!(f, " (type {ty})"),
        }
    }
}

impl std::error::Error for Refusal {}
