//! Closing a draft, with or without its changes, and taking changes back.

use super::super::refusal::{self, Refusal};
use super::layout::{self, copy_block, header, step_block, Block, Blocks, Draft};
use super::{checked_mut, open_draft};

/// Segments ascending; 0 where there is none.
pub type Segments = [u8; 2];

/// Stores what a draft changed and closes it; answers the changed segments.
pub fn commit(book: &mut [u8], draft: usize) -> Result<Segments, Refusal> {
    let (blocks, _) = checked_mut(book)?;
    let (index, draft) = open_draft(&blocks[0], draft)?;
    if draft.stale == 1 {
        return Err(Refusal::plain(refusal::STALE));
    }
    let changed = changed_segments(blocks, index, draft);
    if changed != [0, 0] {
        push_step(blocks, changed);
        for (slot, segment) in draft.taken.into_iter().enumerate() {
            if segment != 0 && changed.contains(&segment) {
                blocks[usize::from(segment)] = blocks[copy_block(index, slot)];
            }
        }
        turn_stale(&mut blocks[0], changed);
    }
    close(blocks, index);
    Ok(changed)
}

/// Closes a draft and forgets its copies.
pub fn drop(book: &mut [u8], draft: usize) -> Result<(), Refusal> {
    let (blocks, _) = checked_mut(book)?;
    let (index, _) = open_draft(&blocks[0], draft)?;
    close(blocks, index);
    Ok(())
}

/// Puts back what the newest step's segments held; answers those segments.
pub fn undo(book: &mut [u8]) -> Result<Segments, Refusal> {
    let (blocks, _) = checked_mut(book)?;
    let newest = header::steps(&blocks[0]).checked_sub(1);
    let step = newest.ok_or(Refusal::plain(refusal::NO_STEP))?;
    let segments = header::step(&blocks[0], step);
    for (slot, segment) in segments.into_iter().enumerate() {
        if segment != 0 {
            let old = std::mem::replace(&mut blocks[step_block(step, slot)], layout::UNUSED);
            blocks[usize::from(segment)] = old;
        }
    }
    let header = &mut blocks[0];
    header::put_step(header, step, [0, 0]);
    header[header::STEP_COUNT] -= 1;
    turn_stale(header, segments);
    layout::seal(header);
    Ok(segments)
}

/// The segments whose copy differs from the book.
fn changed_segments(blocks: &Blocks, index: usize, draft: Draft) -> Segments {
    let differs = |slot: usize| {
        let segment = draft.taken[slot];
        segment != 0 && blocks[usize::from(segment)] != blocks[copy_block(index, slot)]
    };
    let [first, second] = draft.taken;
    match (differs(0), differs(1)) {
        (false, false) => [0, 0],
        (true, false) => [first, 0],
        (false, true) => [second, 0],
        (true, true) => [first.min(second), first.max(second)],
    }
}

/// Keeps what these segments hold as the newest step; the oldest of 16 goes.
fn push_step(blocks: &mut Blocks, segments: Segments) {
    let mut step = header::steps(&blocks[0]);
    if step == layout::STEPS {
        step -= 1;
        blocks.copy_within(step_block(1, 0)..layout::BLOCKS, step_block(0, 0));
        let steps = header::STEP..header::STEP + 2 * layout::STEPS;
        blocks[0].copy_within(steps.start + 2..steps.end, steps.start);
    } else {
        blocks[0][header::STEP_COUNT] += 1;
    }
    header::put_step(&mut blocks[0], step, segments);
    for (slot, segment) in segments.into_iter().enumerate() {
        blocks[step_block(step, slot)] = if segment == 0 {
            layout::UNUSED
        } else {
            blocks[usize::from(segment)]
        };
    }
}

/// Every draft that has taken one of these segments turns stale.
fn turn_stale(header: &mut Block, segments: Segments) {
    for index in 0..layout::DRAFTS {
        let draft = Draft::get(header, index);
        if draft.has_any_of(segments) {
            Draft { stale: 1, ..draft }.put(header, index);
        }
    }
}

/// Closes a draft; block 0 is sealed with it.
fn close(blocks: &mut Blocks, index: usize) {
    blocks[copy_block(index, 0)] = layout::UNUSED;
    blocks[copy_block(index, 1)] = layout::UNUSED;
    Draft::CLOSED.put(&mut blocks[0], index);
    layout::seal(&mut blocks[0]);
}
