//! The Rust source beside the port: document 01's calls answered by the source itself,
//! inputs of every kind, stored answers, and the figures of 01.
pub mod answers;
pub mod calls;
mod ends;
pub mod figures;
pub mod generate;
pub mod job;
pub mod misses;
pub mod refusals;
pub mod replay;
pub mod row;
pub mod small;
mod window;

mod source {
    include!(concat!(env!("OUT_DIR"), "/root.rs"));
}
