//! Stand-ins for the crates that naga's files lean on: bitflags, half,
//! bit-set, log, num-traits, indexmap and naga-types. Containers and names
//! only: nothing here knows of layouts or of validation.

mod index_set;

pub use index_set::{set, IndexSet};

use std::collections::{HashMap, HashSet};

// naga-types
pub type FastHashMap<K, V> = HashMap<K, V>;
pub type FastHashSet<K> = HashSet<K>;
pub type FastIndexSet<K> = IndexSet<K>;
pub type FastIndexMap<K, V> = HashMap<K, V>;

#[derive(Clone, Copy, Debug, Eq, Hash, PartialEq)]
pub struct ResourceBinding;

#[derive(Clone, Copy, Debug, Eq, Hash, PartialEq)]
pub struct ShaderStage;

// half
#[allow(non_camel_case_types)]
#[derive(Clone, Copy, Debug, PartialEq, PartialOrd)]
pub struct f16(f32);

impl f16 {
    pub const MIN: Self = Self(-65504.0);
    pub const MAX: Self = Self(65504.0);
    pub const ZERO: Self = Self(0.0);
}

// num-traits
pub trait Float {}
impl Float for f16 {}
impl Float for f32 {}
impl Float for f64 {}

// bit-set
#[derive(Debug)]
pub struct BitSet;

impl BitSet {
    pub fn new() -> Self {
        Self
    }
    pub fn make_empty(&mut self) {}
}

// log
#[macro_export]
macro_rules! trace {
    ($($anything:tt)*) => {};
}

/// bitflags: the named constants keep the values that naga's files give them.
#[macro_export]
macro_rules! bitflags {
    (
        $(#[$outer:meta])*
        $vis:vis struct $Name:ident: $Bits:ty {
            $( $(#[$inner:meta])* const $Flag:ident = $value:expr; )*
        }
    ) => {
        $(#[$outer])*
        $vis struct $Name($Bits);

        impl $Name {
            $( $(#[$inner])* pub const $Flag: Self = Self($value); )*

            pub const fn bits(&self) -> $Bits {
                self.0
            }
            pub const fn empty() -> Self {
                Self(0)
            }
            pub const fn all() -> Self {
                Self(0 $(| Self::$Flag.0)*)
            }
            pub const fn contains(&self, other: Self) -> bool {
                self.0 & other.0 == other.0
            }
            pub const fn intersects(&self, other: Self) -> bool {
                self.0 & other.0 != 0
            }
            pub fn set(&mut self, other: Self, value: bool) {
                if value {
                    self.0 |= other.0;
                } else {
                    self.0 &= !other.0;
                }
            }
        }

        impl ::core::ops::BitOr for $Name {
            type Output = Self;
            fn bitor(self, other: Self) -> Self {
                Self(self.0 | other.0)
            }
        }
        impl ::core::ops::BitAnd for $Name {
            type Output = Self;
            fn bitand(self, other: Self) -> Self {
                Self(self.0 & other.0)
            }
        }
        impl ::core::ops::BitOrAssign for $Name {
            fn bitor_assign(&mut self, other: Self) {
                self.0 |= other.0;
            }
        }
        impl ::core::ops::BitAndAssign for $Name {
            fn bitand_assign(&mut self, other: Self) {
                self.0 &= other.0;
            }
        }
    };
}
