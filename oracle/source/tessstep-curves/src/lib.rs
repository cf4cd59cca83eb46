//! The source's own tessstep-curves: its `lib.rs` is the module `carried`, whose names
//! stand at the crate's root again so that its `crate::` paths hold.
#![allow(dead_code, unused_imports)]
include!(concat!(env!("OUT_DIR"), "/root.rs"));
pub use carried::*;
