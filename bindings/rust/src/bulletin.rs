//! Reading a bulletin.

use std::ops::Range;

use crate::places::Source;
use crate::{calls, Places, Refusal, Storm};

/// A bulletin that the core has read and found right: a view over its text.
///
/// ```
/// use hollgrimsa::Bulletin;
///
/// let text = b"WTUS82 KMFL 091512 CCA\nHLSMFL\n\nSTATEMENT\nNWS MIAMI FL AL042005\n\n\
///     FLC087-GMZ031>033-100000-\nWINDS WILL DIMINISH.\n$$\n";
/// let bulletin = Bulletin::read(text, 2005, 7)?;
/// assert_eq!(bulletin.issue(), 18_682_032);
/// assert_eq!(bulletin.bbb(), Some(*b"CCA"));
/// assert_eq!(bulletin.identifier(), b"HLSMFL");
/// assert_eq!(bulletin.storm().unwrap().to_string(), "AL042005");
///
/// let segment = bulletin.segment(1)?;
/// assert!(segment.text().ends_with(b"DIMINISH.\n$$\n"));
/// assert_eq!(segment.purge(), 18_682_560);
/// assert_eq!(segment.places().count(), 4);
/// # Ok::<(), hollgrimsa::Refusal>(())
/// ```
#[derive(Clone, Copy, Debug)]
pub struct Bulletin<'a> {
    text: &'a [u8],
    year: u64,
    month: u64,
    issue: u32,
    bbb: Option<[u8; 3]>,
    identifier: &'a [u8],
    storm: Option<Storm>,
    segments: u64,
}

/// The bytes of an identifier.
const IDENTIFIER: usize = 6;

impl<'a> Bulletin<'a> {
    /// Reads a text under the year and month of its issue.
    ///
    /// # Errors
    /// The reader's refusals, 1 to 11 and 25: see [`calls::issue`].
    pub fn read(text: &'a [u8], year: u64, month: u64) -> Result<Self, Refusal> {
        let start = calls::identifier(text, year, month)?;
        Ok(Bulletin {
            text,
            year,
            month,
            issue: calls::issue(text, year, month)?,
            bbb: calls::bbb(text, year, month)?,
            identifier: &text[start..start + IDENTIFIER],
            storm: calls::storm(text, year, month)?,
            segments: calls::segments(text, year, month)?,
        })
    }

    /// The whole text.
    pub fn text(&self) -> &'a [u8] {
        self.text
    }

    /// The issue: a minute, counted from 1970-01-01 0000 UTC.
    pub fn issue(&self) -> u32 {
        self.issue
    }

    /// The heading's BBB, if it has one.
    pub fn bbb(&self) -> Option<[u8; 3]> {
        self.bbb
    }

    /// The six bytes of line 2, spaces at their end with them.
    pub fn identifier(&self) -> &'a [u8] {
        self.identifier
    }

    /// The storm, if the office line names one.
    pub fn storm(&self) -> Option<Storm> {
        self.storm
    }

    /// How many segments it has, 1 to 8.
    pub fn segment_count(&self) -> u64 {
        self.segments
    }

    /// A segment, counted from 1.
    ///
    /// # Errors
    /// 15 where there is no such segment.
    pub fn segment(&self, number: u64) -> Result<Segment<'a>, Refusal> {
        let Bulletin {
            text, year, month, ..
        } = *self;
        Ok(Segment {
            bulletin: *self,
            number,
            range: calls::view(text, year, month, number)?,
            block_end: calls::block_end(text, year, month, number)?,
            purge: calls::purge(text, year, month, number)?,
            count: calls::count(text, year, month, number)?,
        })
    }

    /// Its segments, in order.
    pub fn segments(&self) -> impl Iterator<Item = Segment<'a>> + '_ {
        (1..=self.segments).filter_map(|number| self.segment(number).ok())
    }
}

/// One segment of a bulletin.
#[derive(Clone, Debug)]
pub struct Segment<'a> {
    bulletin: Bulletin<'a>,
    number: u64,
    range: Range<usize>,
    block_end: usize,
    purge: u32,
    count: u64,
}

impl<'a> Segment<'a> {
    /// Its number, from 1.
    pub fn number(&self) -> u64 {
        self.number
    }

    /// Where it stands in the bulletin's text.
    pub fn range(&self) -> Range<usize> {
        self.range.clone()
    }

    /// Its part of the bulletin's own text, up to and with its `$$` line.
    pub fn text(&self) -> &'a [u8] {
        &self.bulletin.text[self.range()]
    }

    /// Its place code block, line ends with it.
    pub fn block(&self) -> &'a [u8] {
        &self.bulletin.text[self.range.start..self.block_end]
    }

    /// Its purge minute.
    pub fn purge(&self) -> u32 {
        self.purge
    }

    /// Its places, ascending. Each is one more reading of the text.
    pub fn places(&self) -> Places<'a> {
        let Bulletin {
            text, year, month, ..
        } = self.bulletin;
        let source = Source::Text {
            text,
            year,
            month,
            segment: self.number,
        };
        Places::of(source, self.count)
    }
}
