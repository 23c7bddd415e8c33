//! Opening a draft, taking segments into it, and work on its copies.

use super::super::blocks::{MAX_PLACES, PLACES};
use super::super::calendar::DayTime;
use super::super::refusal::{self, Refusal};
use super::layout::{self, content, copy_block, Block, Draft};
use super::{checked, checked_mut, known_segment, open_draft};

/// Opens the lowest closed draft; answers its number.
pub fn open(book: &mut [u8]) -> Result<usize, Refusal> {
    let (blocks, _) = checked_mut(book)?;
    let header = &mut blocks[0];
    let closed = (0..layout::DRAFTS).find(|&index| !Draft::get(header, index).is_open());
    let index = closed.ok_or(Refusal::plain(refusal::FOUR_OPEN))?;
    Draft {
        open: 1,
        ..Draft::CLOSED
    }
    .put(header, index);
    layout::seal(header);
    Ok(index + 1)
}

/// Copies a segment into a draft.
pub fn take(book: &mut [u8], draft: usize, segment: usize) -> Result<(), Refusal> {
    let (blocks, _) = checked_mut(book)?;
    let (index, mut draft) = open_draft(&blocks[0], draft)?;
    let segment = known_segment(&blocks[0], segment)?;
    if draft.taken.contains(&(segment as u8)) {
        return Err(Refusal::plain(refusal::TAKEN_ALREADY));
    }
    let free = draft.taken.iter().position(|&taken| taken == 0);
    let slot = free.ok_or(Refusal::plain(refusal::TWO_TAKEN))?;
    draft.taken[slot] = segment as u8;
    draft.put(&mut blocks[0], index);
    layout::seal(&mut blocks[0]);
    blocks[copy_block(index, slot)] = blocks[segment];
    Ok(())
}

/// The purge minute of a copy.
pub fn read_purge(book: &[u8], draft: usize, segment: usize) -> Result<u32, Refusal> {
    read_copy(book, draft, segment).map(content::purge)
}

/// The number of a copy's places.
pub fn read_count(book: &[u8], draft: usize, segment: usize) -> Result<usize, Refusal> {
    read_copy(book, draft, segment).map(content::count)
}

/// The place of a copy at an index from 0.
pub fn read_place(book: &[u8], draft: usize, segment: usize, index: usize) -> Result<u32, Refusal> {
    let entries = content::entries(read_copy(book, draft, segment)?);
    let entry = entries
        .get(index)
        .ok_or(Refusal::plain(refusal::OUT_OF_RANGE))?;
    Ok(u32::from_le_bytes(*entry))
}

/// Adds a place to a copy; answers whether it was there.
pub fn add(book: &mut [u8], draft: usize, segment: usize, place: usize) -> Result<bool, Refusal> {
    let (blocks, _) = checked_mut(book)?;
    let (index, draft) = open_draft(&blocks[0], draft)?;
    let place = known_place(place)?;
    let copy = &mut blocks[find_copy(&blocks[0], index, draft, segment)?];
    let Err(at) = content::find(copy, place) else {
        return Ok(true);
    };
    let count = content::count(copy);
    if count == MAX_PLACES {
        return Err(Refusal::plain(refusal::FULL));
    }
    let (from, end) = (entry_start(at), entry_start(count));
    copy.copy_within(from..end, from + 4);
    layout::put_u32(copy, from, place);
    copy[content::COUNT] += 1;
    layout::seal(copy);
    Ok(false)
}

/// Removes a place from a copy; answers whether it was there.
pub fn remove(
    book: &mut [u8],
    draft: usize,
    segment: usize,
    place: usize,
) -> Result<bool, Refusal> {
    let (blocks, _) = checked_mut(book)?;
    let (index, draft) = open_draft(&blocks[0], draft)?;
    let place = known_place(place)?;
    let copy = &mut blocks[find_copy(&blocks[0], index, draft, segment)?];
    let Ok(at) = content::find(copy, place) else {
        return Ok(false);
    };
    let count = content::count(copy);
    if count == 1 {
        return Err(Refusal::plain(refusal::ONLY_PLACE));
    }
    let (from, end) = (entry_start(at), entry_start(count));
    copy.copy_within(from + 4..end, from);
    layout::put_u32(copy, end - 4, 0);
    copy[content::COUNT] -= 1;
    layout::seal(copy);
    Ok(true)
}

/// Sets a copy's purge; answers the minute that DD, HH and MM give.
pub fn set_purge(
    book: &mut [u8],
    draft: usize,
    segment: usize,
    day: usize,
    hour: usize,
    minute: usize,
) -> Result<u32, Refusal> {
    let (blocks, issue) = checked_mut(book)?;
    let (index, draft) = open_draft(&blocks[0], draft)?;
    let time = DayTime::new(day, hour, minute);
    let time = time.ok_or(Refusal::plain(refusal::OUT_OF_RANGE))?;
    let copy = &mut blocks[find_copy(&blocks[0], index, draft, segment)?];
    let purge = issue.purge(time).ok_or(Refusal::plain(refusal::TIME))?;
    layout::put_u32(copy, content::PURGE, purge);
    layout::seal(copy);
    Ok(purge)
}

/// A draft's copy of a segment, to read.
fn read_copy(book: &[u8], draft: usize, segment: usize) -> Result<&Block, Refusal> {
    let blocks = checked(book)?;
    let (index, draft) = open_draft(&blocks[0], draft)?;
    Ok(&blocks[find_copy(&blocks[0], index, draft, segment)?])
}

/// The block of a draft's copy of a segment.
fn find_copy(header: &Block, index: usize, draft: Draft, segment: usize) -> Result<usize, Refusal> {
    let segment = known_segment(header, segment)?;
    let slot = draft
        .taken
        .iter()
        .position(|&taken| usize::from(taken) == segment);
    let slot = slot.ok_or(Refusal::plain(refusal::NOT_TAKEN))?;
    Ok(copy_block(index, slot))
}

/// A place number handed in.
fn known_place(place: usize) -> Result<u32, Refusal> {
    let known = u32::try_from(place).ok().filter(|&place| place < PLACES);
    known.ok_or(Refusal::plain(refusal::OUT_OF_RANGE))
}

/// Where a block's place entry starts.
const fn entry_start(index: usize) -> usize {
    content::PLACE + 4 * index
}
