//! Books, good and damaged.

use super::block::ascending_places;
use super::Rng;
use crate::plain;
use crate::plain::book::layout::{self, content, copy_block, header, Block, BLOCK, BLOCKS, LENGTH};

/// Issues at ends of months and years: year, month, day.
const ISSUES: [(usize, usize, usize); 8] = [
    (1970, 1, 1),
    (1972, 2, 29),
    (2003, 1, 31),
    (2004, 1, 30),
    (2004, 4, 15),
    (2004, 12, 31),
    (2098, 7, 31),
    (2099, 12, 31),
];

/// A made book with so many segments.
pub fn made(rng: &mut Rng, segments: usize) -> Vec<u8> {
    let (year, month, day) = rng.pick(&ISSUES);
    let text = text(rng, day, segments);
    let mut book = vec![0xAA; LENGTH];
    plain::make(&text, year, month, &mut book).unwrap();
    book
}

/// A book of one segment with this issue and this purge, sound or not.
pub fn issued(issue: u32, purge: u32) -> Vec<u8> {
    let mut book = made(&mut Rng::new(1), 1);
    layout::put_u32(block_mut(&mut book, 0), header::ISSUE, issue);
    repurged(&book, purge)
}

/// The book with this purge in its first segment.
pub fn repurged(book: &[u8], purge: u32) -> Vec<u8> {
    let mut book = book.to_vec();
    layout::put_u32(block_mut(&mut book, 1), content::PURGE, purge);
    mend_all(&mut book);
    book
}

/// Segments with one place, a few, or 119 or 120.
fn text(rng: &mut Rng, day: usize, segments: usize) -> Vec<u8> {
    let mut text = format!("FPUS51 KXYZ {day:02}0822\nZFPXYZ\n").into_bytes();
    for _ in 0..segments {
        let block: &[u8] = rng.pick(&[
            b"MDC001-150822-",
            b"MDC000-242100-",
            b"MDC001>005-010000-",
            b"MDC001>003-VAZ053-282359-",
            b"AAC000-ZZZ999-200000-",
            b"MDC001>120-160000-",
            b"MDC002>120-160000-",
            b"MDC001>118-VAZ001-160000-",
        ]);
        text.extend_from_slice(block);
        text.extend_from_slice(b"\n$$\n");
    }
    text
}

fn block_mut(book: &mut [u8], index: usize) -> &mut Block {
    (&mut book[index * BLOCK..][..BLOCK]).try_into().unwrap()
}

/// Makes a block's check right.
pub fn mend(book: &mut [u8], index: usize) {
    layout::seal(block_mut(book, index));
}

pub fn mend_all(book: &mut [u8]) {
    (0..BLOCKS).for_each(|index| mend(book, index));
}

/// Gives every segment of a sound book other places.
pub fn refill(rng: &mut Rng, book: &mut [u8]) {
    let segments = header::segments(block_mut(book, 0));
    for index in 1..=segments {
        let block = block_mut(book, index);
        *block = any_content(rng, content::purge(block));
    }
}

/// Takes the drafts and steps out of a sound book.
pub fn strip(book: &mut [u8]) {
    let header = block_mut(book, 0);
    header[header::DRAFT..].fill(0);
    layout::seal(header);
    for index in copy_block(0, 0)..BLOCKS {
        *block_mut(book, index) = layout::UNUSED;
    }
}

/// Random bytes with right checks.
pub fn random(rng: &mut Rng) -> Vec<u8> {
    let mut book: Vec<u8> = std::iter::repeat_with(|| rng.byte()).take(LENGTH).collect();
    mend_all(&mut book);
    book
}

/// Something wrong in one to three blocks, their checks mended mostly.
pub fn damage(rng: &mut Rng, book: &mut [u8]) {
    for _ in 0..rng.within(1, 3) {
        let index = match rng.below(3) {
            0 => 0,
            1 => rng.within(1, 16),
            _ => rng.below(BLOCKS),
        };
        let changed = block_mut(book, index);
        match (index, rng.below(4)) {
            (_, 0) => damage_anywhere(rng, changed),
            (0, _) => damage_header(rng, changed),
            _ => damage_content(rng, changed),
        }
        if !rng.once_in(8) {
            mend(book, index);
        }
    }
    if rng.once_in(8) {
        exchange(rng, book);
    }
}

fn damage_anywhere(rng: &mut Rng, block: &mut Block) {
    let at = rng.below(BLOCK);
    let near = [1, 255, 128, 2];
    block[at] = match rng.below(3) {
        0 => rng.byte(),
        _ => block[at].wrapping_add(rng.pick(&near)),
    };
}

fn damage_header(rng: &mut Rng, block: &mut Block) {
    let at = match rng.below(6) {
        0 => header::ISSUE + rng.below(4),
        1 => header::SEGMENTS,
        2 => header::STEP_COUNT,
        3 => header::STEP + rng.below(34),
        _ => header::DRAFT + rng.below(16),
    };
    block[at] = match rng.below(4) {
        0 => rng.byte(),
        1 => block[at].wrapping_add(rng.pick(&[1, 255])),
        _ => rng.below(4) as u8,
    };
}

fn damage_content(rng: &mut Rng, block: &mut Block) {
    match rng.below(7) {
        0 => {
            let count = rng.pick(&[0, 1, 2, 119, 120, 121, 122, 255]);
            block[content::COUNT] = count;
        }
        1 => block[content::COUNT] = block[content::COUNT].wrapping_add(rng.pick(&[1, 255])),
        2 => {
            let near = rng.pick(&[1, 1440, 44_640, 40_320, 4_294_967_295, 4_294_923_000]);
            let purge = layout::get_u32(block, content::PURGE).wrapping_add(near);
            layout::put_u32(block, content::PURGE, purge);
        }
        3 => *block = layout::UNUSED,
        4 => *block = any_content(rng, layout::get_u32(block, content::PURGE)),
        5 => block[content::COUNT + rng.within(1, 3)] = rng.pick(&[1, 0, 255]),
        _ => damage_places(rng, block),
    }
}

/// One entry, used or not, becomes another place or an equal one.
fn damage_places(rng: &mut Rng, block: &mut Block) {
    let count = usize::from(block[content::COUNT]).min(120);
    let index = rng.pick(&[0, 1, count.saturating_sub(1), count]).min(124);
    let at = content::PLACE + 4 * index;
    let before = layout::get_u32(block, at.saturating_sub(4).max(content::PLACE));
    let next = before.wrapping_add(1);
    let place = rng.pick(&[0, before, next, 1_351_999, 1_352_000, u32::MAX]);
    layout::put_u32(block, at, place);
}

/// A used block with this purge.
fn any_content(rng: &mut Rng, purge: u32) -> Block {
    let count = rng.pick(&[1, 2, 60, 119, 120]);
    let mut block = layout::UNUSED;
    layout::put_u32(&mut block, content::PURGE, purge);
    block[content::COUNT] = count as u8;
    for (index, place) in ascending_places(rng, count).into_iter().enumerate() {
        layout::put_u32(&mut block, content::PLACE + 4 * index, place);
    }
    layout::seal(&mut block);
    block
}

/// Two blocks change their places.
fn exchange(rng: &mut Rng, book: &mut [u8]) {
    let (blocks, _) = book.as_chunks_mut::<BLOCK>();
    blocks.swap(rng.below(BLOCKS), rng.below(BLOCKS));
}
