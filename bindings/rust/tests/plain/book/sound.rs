//! Is a book sound?

use super::super::blocks::{MAX_PLACES, PLACES};
use super::super::bulletin::MAX_SEGMENTS;
use super::super::calendar::Issue;
use super::layout::{self, content, copy_block, header, step_block, Block, Blocks, Draft};

/// The issue of a sound book, or nothing if the book is not sound.
pub fn issue_of_sound(blocks: &Blocks) -> Option<Issue> {
    let header = &blocks[0];
    let issue = Issue::from_minute(layout::get_u32(header, header::ISSUE))?;
    let sound = header_is_sound(header)
        && segments_are_sound(blocks, &issue)
        && drafts_are_sound(blocks, &issue)
        && steps_are_sound(blocks, &issue);
    sound.then_some(issue)
}

/// Block 0 without its drafts and steps.
fn header_is_sound(header: &Block) -> bool {
    let steps = header::steps(header);
    if !(1..=MAX_SEGMENTS).contains(&header::segments(header)) || steps > layout::STEPS {
        return false;
    }
    let end = header::STEP + 2 * steps;
    layout::are_zero(&header[header::SEGMENTS + 1..header::DRAFT])
        && layout::are_zero(&header[header::STEP_COUNT + 1..header::STEP])
        && zero_and_checked_from(header, end)
}

fn segments_are_sound(blocks: &Blocks, issue: &Issue) -> bool {
    let count = header::segments(&blocks[0]);
    (1..=MAX_SEGMENTS).all(|segment| is_sound(&blocks[segment], segment <= count, issue))
}

fn drafts_are_sound(blocks: &Blocks, issue: &Issue) -> bool {
    let segments = blocks[0][header::SEGMENTS];
    (0..layout::DRAFTS).all(|number| {
        let draft = Draft::get(&blocks[0], number);
        draft_is_sound(draft, segments)
            && (0..2).all(|slot| {
                let copy = &blocks[copy_block(number, slot)];
                is_sound(copy, draft.taken[slot] != 0, issue)
            })
    })
}

fn draft_is_sound(draft: Draft, segments: u8) -> bool {
    let [first, second] = draft.taken;
    match draft.open {
        0 => draft == Draft::CLOSED,
        1 => {
            first <= segments
                && second <= segments
                && (second == 0 || (first != 0 && first != second))
                && (draft.stale == 0 || (draft.stale == 1 && first != 0))
        }
        _ => false,
    }
}

fn steps_are_sound(blocks: &Blocks, issue: &Issue) -> bool {
    let segments = blocks[0][header::SEGMENTS];
    let steps = header::steps(&blocks[0]);
    (0..layout::STEPS).all(|step| {
        // Past the steps both are 0, as the header's own test has shown.
        let named = header::step(&blocks[0], step);
        (step >= steps || step_is_sound(named, segments))
            && (0..2).all(|slot| {
                let old = &blocks[step_block(step, slot)];
                is_sound(old, named[slot] != 0, issue)
            })
    })
}

fn step_is_sound([first, second]: [u8; 2], segments: u8) -> bool {
    first != 0 && first <= segments && (second == 0 || (first < second && second <= segments))
}

/// A block that must be used, or must not be.
fn is_sound(block: &Block, used: bool, issue: &Issue) -> bool {
    if used {
        content_is_sound(block, issue)
    } else {
        *block == layout::UNUSED
    }
}

fn content_is_sound(block: &Block, issue: &Issue) -> bool {
    let count = content::count(block);
    (1..=MAX_PLACES).contains(&count)
        && layout::are_zero(&block[content::COUNT + 1..content::PLACE])
        && issue.gives(content::purge(block))
        && zero_and_checked_from(block, content::PLACE + 4 * count)
        && places_are_sound(block)
}

/// Strictly ascending, and the last one in range; there is at least one.
fn places_are_sound(block: &Block) -> bool {
    let (places, later) = (content::places(block), content::places(block).skip(1));
    // Without an early end, since this is nearly always true.
    let ascend = places.zip(later).fold(true, |all, (a, b)| all & (a < b));
    ascend
        && content::places(block)
            .next_back()
            .is_some_and(|last| last < PLACES)
}

/// Are the bytes from here on zero and the check right?
fn zero_and_checked_from(block: &Block, end: usize) -> bool {
    layout::are_zero(&block[end..layout::CHECK])
        && layout::check_of(&block[..end]) == block[layout::CHECK..]
}
