//! The parts of naga that the harness compares with. Its files are compiled as
//! they are, from where build.rs finds them; what they lean on and is not here
//! has stand-ins, listed in the harness's README.

// naga's files are not ours to tidy, and much of them is unused here.
#![allow(warnings)]

extern crate alloc;
extern crate externals as bit_set;
extern crate externals as bitflags;
extern crate externals as half;
extern crate externals as indexmap;
extern crate externals as log;
extern crate externals as naga_types;
extern crate externals as num_traits;

include!(concat!(env!("OUT_DIR"), "/naga/root.rs"));
