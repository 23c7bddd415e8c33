//! The edited bulletin: a text with the blocks that a book has.

use super::super::bulletin::{self, Segment};
use super::super::refusal::{self, Refusal};
use super::super::written::written;
use super::layout::{content, header, Block};
use super::{issue_of, lent};

/// Writes the edited bulletin of a text into the output; answers its length.
pub fn write_edited(text: &[u8], book: &[u8], output: &mut [u8]) -> Result<usize, Refusal> {
    bulletin::check_length(text)?;
    let blocks = lent(book)?;
    let issue = issue_of(blocks)?;
    let bulletin = bulletin::read_in(text, issue.month)?;
    let held = &blocks[1..=header::segments(&blocks[0])];
    if bulletin.issue != issue.minute || bulletin.segments.len() != held.len() {
        return Err(Refusal::plain(refusal::NOT_BELONGING));
    }
    let forms: Vec<Vec<u8>> = held.iter().zip(&bulletin.segments).map(form).collect();
    let parts = parts(text, &bulletin.segments, &forms);
    let length = parts.iter().map(|part| part.len()).sum();
    let mut room = output
        .get_mut(..length)
        .ok_or(Refusal::plain(refusal::SHORT_OUTPUT))?;
    for part in parts {
        let (front, rest) = room.split_at_mut(part.len());
        front.copy_from_slice(part);
        room = rest;
    }
    Ok(length)
}

/// The written form of what a block of the book holds, its lines ended as the
/// segment's first line.
fn form((block, segment): (&Block, &Segment)) -> Vec<u8> {
    let (places, purge) = (content::places(block), content::purge(block));
    written(places, purge, segment.first_line_end)
}

/// The text cut at its segments' blocks, with a form in each one's stead.
fn parts<'a>(text: &'a [u8], segments: &[Segment], forms: &'a [Vec<u8>]) -> Vec<&'a [u8]> {
    let mut parts = Vec::with_capacity(2 * segments.len() + 1);
    let mut at = 0;
    for (segment, form) in segments.iter().zip(forms) {
        parts.push(&text[at..segment.start]);
        parts.push(form);
        at = segment.block_end;
    }
    parts.push(&text[at..]);
    parts
}
