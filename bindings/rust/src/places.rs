//! Going through the places of a segment.

use std::iter::FusedIterator;
use std::ops::Range;

use crate::{calls, Refusal};

/// What has the places.
#[derive(Clone, Copy, Debug)]
pub(crate) enum Source<'a> {
    /// A segment of a bulletin.
    Text {
        text: &'a [u8],
        year: u64,
        month: u64,
        segment: u64,
    },
    /// A draft's copy of a segment.
    Copy {
        book: &'a [u8],
        draft: u64,
        segment: u64,
    },
}

impl Source<'_> {
    fn place(self, index: u64) -> Result<u32, Refusal> {
        match self {
            Source::Text {
                text,
                year,
                month,
                segment,
            } => calls::place(text, year, month, segment, index),
            Source::Copy {
                book,
                draft,
                segment,
            } => calls::read_place(book, draft, segment, index),
        }
    }
}

/// The place numbers of a segment, ascending; each is one call of the core.
///
/// A place's number is ((26 s1 + s2) 2 + f) 1000 + n: two letters from A = 0,
/// then C = 0 or Z = 1, then three digits. MDC003 is 630,003.
#[derive(Clone, Debug)]
pub struct Places<'a> {
    source: Source<'a>,
    left: Range<u64>,
}

impl<'a> Places<'a> {
    /// The first `count` places of a source that has so many.
    pub(crate) fn of(source: Source<'a>, count: u64) -> Self {
        let left = 0..count;
        Places { source, left }
    }
}

// The source is borrowed, so no index below its count is ever refused.
impl Iterator for Places<'_> {
    type Item = u32;

    fn next(&mut self) -> Option<u32> {
        let index = self.left.next()?;
        self.source.place(index).ok()
    }

    fn size_hint(&self) -> (usize, Option<usize>) {
        self.left.size_hint()
    }
}

impl DoubleEndedIterator for Places<'_> {
    fn next_back(&mut self) -> Option<u32> {
        let index = self.left.next_back()?;
        self.source.place(index).ok()
    }
}

impl ExactSizeIterator for Places<'_> {}

impl FusedIterator for Places<'_> {}
