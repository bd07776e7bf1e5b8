//! A 32-bit number that is not the largest one.

#[derive(Clone, Copy, Debug, Eq, Hash, Ord, PartialEq, PartialOrd)]
pub struct NonMaxU32(u32);

impl NonMaxU32 {
    pub const fn new(n: u32) -> Option<Self> {
        if n == u32::MAX {
            None
        } else {
            Some(Self(n))
        }
    }
    pub const fn get(self) -> u32 {
        self.0
    }
    pub fn checked_add(self, n: u32) -> Option<Self> {
        self.0.checked_add(n).and_then(Self::new)
    }
}

impl core::fmt::Display for NonMaxU32 {
    fn fmt(&self, f: &mut core::fmt::Formatter<'_>) -> core::fmt::Result {
        self.0.fmt(f)
    }
}
