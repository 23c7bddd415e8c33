//! The rules of documents 01 and 02 once more, in plain Rust: the other side
//! of the differential tests and of the benchmark.
//!
//! Each test program uses its own part of this module.
#![allow(dead_code, unused_imports)]

pub mod blocks;
pub mod book;
pub mod bulletin;
pub mod calendar;
pub mod heading;
pub mod lines;
pub mod listing;
pub mod refusal;
pub mod storm;
pub mod written;

pub use book::{
    add, commit, drop, make, open, read_count, read_place, read_purge, remove, set_purge, take,
    undo, write, write_edited,
};
pub use bulletin::{read, view, Bulletin, Segment};
pub use lines::LineEnd;
pub use listing::{listing, listing_of_input};
pub use refusal::Refusal;
pub use written::written;
