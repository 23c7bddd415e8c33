//! The book: 49 blocks of 512 bytes, checked at every call and changed in
//! place only once the call is accepted.

mod drafts;
mod edited;
mod history;
pub mod layout;
mod sound;

use layout::{content, header, Block, Blocks, Draft};

use super::bulletin::{self, Segment};
use super::calendar::Issue;
use super::lines::LineEnd;
use super::refusal::{self, Refusal};
use super::written;

pub use drafts::{add, open, read_count, read_place, read_purge, remove, set_purge, take};
pub use edited::write_edited;
pub use history::{commit, drop, undo};

/// Makes a book from a bulletin; the old bytes do not matter.
pub fn make(text: &[u8], year: usize, month: usize, book: &mut [u8]) -> Result<(), Refusal> {
    let blocks = lent_mut(book)?;
    let bulletin = bulletin::read(text, year, month)?;
    blocks.fill(layout::UNUSED);
    let [header, rest @ ..] = blocks;
    layout::put_u32(header, header::ISSUE, bulletin.issue);
    header[header::SEGMENTS] = bulletin.segments.len() as u8;
    layout::seal(header);
    for (block, segment) in rest.iter_mut().zip(&bulletin.segments) {
        put_segment(block, segment);
    }
    Ok(())
}

/// Stores a segment as read in an unused block.
fn put_segment(block: &mut Block, segment: &Segment) {
    layout::put_u32(block, content::PURGE, segment.purge);
    block[content::COUNT] = segment.places.len() as u8;
    let entries = block[content::PLACE..].as_chunks_mut().0;
    for (entry, place) in entries.iter_mut().zip(&segment.places) {
        *entry = place.to_le_bytes();
    }
    layout::seal(block);
}

/// Writes a segment's block, its lines ended CR CR LF, into the output; answers
/// its length.
pub fn write(book: &[u8], segment: usize, output: &mut [u8]) -> Result<usize, Refusal> {
    let blocks = checked(book)?;
    let segment = &blocks[known_segment(&blocks[0], segment)?];
    let mut buffer = [0; written::ROOM];
    let mut length = 0;
    let (places, purge) = (content::places(segment), content::purge(segment));
    written::compose(places, purge, LineEnd::CrCrLf, |part| {
        buffer[length..length + part.len()].copy_from_slice(part);
        length += part.len();
    });
    let room = output
        .get_mut(..length)
        .ok_or(Refusal::plain(refusal::SHORT_OUTPUT))?;
    room.copy_from_slice(&buffer[..length]);
    Ok(length)
}

/// The blocks of a book of the right length.
fn lent(book: &[u8]) -> Result<&Blocks, Refusal> {
    let (blocks, rest) = book.as_chunks();
    let blocks = blocks.try_into().ok().filter(|_| rest.is_empty());
    blocks.ok_or(Refusal::plain(refusal::LENGTH))
}

fn lent_mut(book: &mut [u8]) -> Result<&mut Blocks, Refusal> {
    let (blocks, rest) = book.as_chunks_mut();
    let blocks = blocks.try_into().ok().filter(|_| rest.is_empty());
    blocks.ok_or(Refusal::plain(refusal::LENGTH))
}

/// The blocks of a sound book.
fn checked(book: &[u8]) -> Result<&Blocks, Refusal> {
    let blocks = lent(book)?;
    issue_of(blocks)?;
    Ok(blocks)
}

/// The blocks of a sound book, to change, and its issue.
fn checked_mut(book: &mut [u8]) -> Result<(&mut Blocks, Issue), Refusal> {
    let blocks = lent_mut(book)?;
    let issue = issue_of(blocks)?;
    Ok((blocks, issue))
}

fn issue_of(blocks: &Blocks) -> Result<Issue, Refusal> {
    sound::issue_of_sound(blocks).ok_or(Refusal::plain(refusal::NOT_SOUND))
}

/// A segment number handed in, if the book has it.
fn known_segment(header: &Block, segment: usize) -> Result<usize, Refusal> {
    let known = (1..=header::segments(header)).contains(&segment);
    known
        .then_some(segment)
        .ok_or(Refusal::plain(refusal::NO_SUCH_SEGMENT))
}

/// A draft number handed in, from 0 now, and its bytes, if it is open.
fn open_draft(header: &Block, number: usize) -> Result<(usize, Draft), Refusal> {
    let index = number
        .checked_sub(1)
        .filter(|&index| index < layout::DRAFTS);
    let draft = index.map(|index| (index, Draft::get(header, index)));
    draft
        .filter(|(_, draft)| draft.is_open())
        .ok_or(Refusal::plain(refusal::NO_DRAFT))
}
