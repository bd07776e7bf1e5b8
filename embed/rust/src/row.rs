//! The result row of a type.

use crate::ROW_WORDS;

/// Flags of a row.
pub mod flags {
    pub const DATA: u32 = 1;
    pub const SIZED: u32 = 2;
    pub const COPY: u32 = 4;
    pub const IO_SHAREABLE: u32 = 8;
    pub const HOST_SHAREABLE: u32 = 16;
    pub const ARGUMENT: u32 = 32;
    pub const CONSTRUCTIBLE: u32 = 64;
    pub const CREATION_RESOLVED: u32 = 128;
}

/// Codes of a verdict.
pub mod verdict {
    pub const OK: u32 = 0;
    pub const ARRAY_STRIDE: u32 = 1;
    pub const STRUCT_SPAN: u32 = 2;
    pub const MEMBER_OFFSET: u32 = 3;
    pub const MEMBER_OFFSET_AFTER_STRUCT: u32 = 4;
    pub const UNSIZED_MEMBER: u32 = 5;
    pub const NON_HOST_SHAREABLE: u32 = 6;
}

/// Whether a type may stand in an address space.
#[derive(Clone, Copy, Debug, PartialEq, Eq)]
pub struct Verdict {
    pub code: u32,
    /// The alignment where the code is OK.
    pub ty: u32,
    pub index: u32,
    pub value: u32,
    pub bound: u32,
}

impl Verdict {
    /// The alignment that the address space asks for, where the type may stand in it.
    pub fn alignment(&self) -> Option<u32> {
        (self.code == verdict::OK).then_some(self.ty)
    }
}

/// A view of the fourteen words of one type, as `check` leaves them.
#[derive(Clone, Copy, Debug, PartialEq, Eq)]
pub struct Row<'a>(&'a [u32; ROW_WORDS]);

impl<'a> Row<'a> {
    /// The row of type `ty`, where `rows` reaches so far.
    pub fn of(rows: &'a [u32], ty: u32) -> Option<Self> {
        let start = ty as usize * ROW_WORDS;
        let words = rows.get(start..start + ROW_WORDS)?;
        words.try_into().ok().map(Self)
    }

    pub fn words(&self) -> &'a [u32; ROW_WORDS] {
        self.0
    }

    pub fn size(&self) -> u32 {
        self.0[0]
    }

    pub fn alignment(&self) -> u32 {
        self.0[1]
    }

    pub fn flags(&self) -> u32 {
        self.0[2]
    }

    pub fn has(&self, flags: u32) -> bool {
        self.flags() & flags == flags
    }

    pub fn uniform(&self) -> Verdict {
        self.verdict(3)
    }

    pub fn storage(&self) -> Verdict {
        self.verdict(8)
    }

    /// 0, or 1 plus the kind of the 16-bit scalar that stands in the way.
    pub fn immediates(&self) -> u32 {
        self.0[13]
    }

    fn verdict(&self, at: usize) -> Verdict {
        Verdict {
            code: self.0[at],
            ty: self.0[at + 1],
            index: self.0[at + 2],
            value: self.0[at + 3],
            bound: self.0[at + 4],
        }
    }
}
