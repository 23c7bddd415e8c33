//! Reading a whole bulletin, and viewing one of its segments.

use super::blocks;
use super::calendar::{Issue, Month};
use super::heading::{parse_identifier, Heading};
use super::lines::{self, Line, LineEnd, Lines};
use super::refusal::{self, Refusal};
use super::storm::{Mnd, Storm};

/// The most segments of a bulletin.
pub const MAX_SEGMENTS: usize = 8;

#[derive(Clone, Debug, PartialEq, Eq)]
pub struct Bulletin {
    pub heading: Heading,
    pub identifier: [u8; 6],
    pub storm: Option<Storm>,
    /// The issue minute.
    pub issue: u32,
    pub segments: Vec<Segment>,
}

#[derive(Clone, Debug, PartialEq, Eq)]
pub struct Segment {
    /// Where its first line starts.
    pub start: usize,
    /// How its first line ends.
    pub first_line_end: LineEnd,
    /// Where the line after its block starts.
    pub block_end: usize,
    /// Where the line after its `$$` starts.
    pub past: usize,
    /// The purge minute.
    pub purge: u32,
    /// Ascending.
    pub places: Vec<u32>,
}

/// Reads a bulletin of this year and month.
pub fn read(text: &[u8], year: usize, month: usize) -> Result<Bulletin, Refusal> {
    check_length(text)?;
    let month = Month::lent(year, month).ok_or(Refusal::plain(refusal::TIME))?;
    read_in(text, month)
}

/// Refuses a text of no byte or of too many.
pub fn check_length(text: &[u8]) -> Result<(), Refusal> {
    let right = (1..=lines::MAX_TEXT).contains(&text.len());
    right.then_some(()).ok_or(Refusal::plain(refusal::LENGTH))
}

/// Reads a bulletin of this month, whose length is right.
pub fn read_in(text: &[u8], month: Month) -> Result<Bulletin, Refusal> {
    lines::check(text)?;

    let mut lines = Lines::from(text, 0);
    let heading = lines.next().and_then(|line| Heading::parse(line.content));
    let heading = heading.ok_or(Refusal::plain(refusal::LINE_1))?;
    let line_2 = lines.at();
    let identifier = lines.next().and_then(|line| parse_identifier(line.content));
    let identifier = identifier.ok_or(Refusal::at(refusal::LINE_2, line_2))?;
    let issue = Issue::new(month, heading.time).ok_or(Refusal::plain(refusal::TIME))?;

    let mnd = Mnd::read(lines.clone())?;
    let first = first_segment(text, lines, &mnd)?;
    let segments = read_segments(text, first, &issue)?;
    Ok(Bulletin {
        heading,
        identifier,
        storm: mnd.storm,
        issue: issue.minute,
        segments,
    })
}

/// The part of the text that is one segment, by number from 1.
pub fn view(text: &[u8], year: usize, month: usize, number: usize) -> Result<&[u8], Refusal> {
    let bulletin = read(text, year, month)?;
    let segment = number
        .checked_sub(1)
        .and_then(|index| bulletin.segments.get(index));
    let segment = segment.ok_or(Refusal::plain(refusal::NO_SUCH_SEGMENT))?;
    Ok(&text[segment.start..segment.past])
}

/// The line that opens the first segment; the lines go on with line 3.
fn first_segment<'a>(text: &'a [u8], mut lines: Lines<'a>, mnd: &Mnd) -> Result<Line<'a>, Refusal> {
    let none = Refusal::at(refusal::NO_SEGMENT, text.len());
    let line_3 = lines.next().ok_or(none)?;
    if line_3.is_blank() {
        next_opening(text, mnd.past).ok_or(none)
    } else if blocks::opens(line_3.content) {
        Ok(line_3)
    } else {
        Err(Refusal::at(refusal::BLOCK, line_3.start))
    }
}

/// The first line from here on that opens a block.
fn next_opening(text: &[u8], at: usize) -> Option<Line<'_>> {
    Lines::from(text, at).find(|line| blocks::opens(line.content))
}

fn read_segments(text: &[u8], first: Line<'_>, issue: &Issue) -> Result<Vec<Segment>, Refusal> {
    let mut segments = Vec::with_capacity(MAX_SEGMENTS);
    let mut next = Some(first);
    while let Some(opening) = next {
        if segments.len() == MAX_SEGMENTS {
            return Err(Refusal::at(refusal::NINTH_SEGMENT, opening.start));
        }
        let segment = read_segment(text, opening, issue)?;
        next = next_opening(text, segment.past);
        segments.push(segment);
    }
    Ok(segments)
}

fn read_segment(text: &[u8], opening: Line<'_>, issue: &Issue) -> Result<Segment, Refusal> {
    let start = opening.start;
    let block = blocks::read(text, start)?;
    let no_minute = Refusal::at(refusal::TIME, block.purge_start);
    let purge = issue.purge(block.purge).ok_or(no_minute)?;
    let too_many = Refusal::at(refusal::TOO_MANY_PLACES, start);
    let places = block.places.ok_or(too_many)?;
    let end = Lines::from(text, block.past).find(|line| line.is_end_of_segment());
    let end = end.ok_or(Refusal::at(refusal::NO_END, start))?;
    Ok(Segment {
        start,
        first_line_end: opening.end,
        block_end: block.past,
        past: end.past,
        purge,
        places,
    })
}
