//! The two sides that are compared: the core and the plain implementation.
//!
//! Each test program uses its own part of this module.
#![allow(dead_code, unused_imports)]

mod call;
mod core_side;
mod guarded;
mod pair;
mod plain_side;
mod tally;

pub use call::{Call, Text, Told};
pub use core_side::Core;
pub use guarded::Guarded;
pub use pair::Pair;
pub use plain_side::Plain;
pub use tally::Tally;

use crate::replay::{Answer, Calls};

/// What the reader's calls answer besides those that a replay makes.
pub trait Reader: Calls {
    fn head(&self, text: &[u8], year: usize, month: usize) -> Answer<Head>;
    fn segment(&self, text: &[u8], year: usize, month: usize, number: usize)
        -> Answer<SegmentRead>;
    fn place(
        &self,
        text: &[u8],
        year: usize,
        month: usize,
        number: usize,
        index: usize,
    ) -> Answer<u32>;
    fn write_block(&self, out: &mut [u8], places: &[u32], purge: usize) -> Answer<usize>;
}

/// A bulletin without its segments.
#[derive(Clone, Debug, PartialEq, Eq)]
pub struct Head {
    pub issue: u32,
    pub bbb: Option<[u8; 3]>,
    /// Where the identifier starts.
    pub identifier: usize,
    /// As it is shown, with its class's first letter.
    pub storm: Option<String>,
    pub segments: usize,
}

/// A segment as the calls on a text answer.
#[derive(Clone, Debug, PartialEq, Eq)]
pub struct SegmentRead {
    pub start: usize,
    pub length: usize,
    pub block_end: usize,
    pub purge: u32,
    pub count: usize,
}
