//! Calls on a book, with numbers that are mostly right.

use super::Rng;
use crate::plain::book::layout::{content, copy_block, header, Block, Draft, BLOCK, DRAFTS};
use crate::sides::Call;

/// A call on this book, which is sound.
pub fn call(rng: &mut Rng, book: &[u8]) -> Call<'static> {
    if rng.once_in(3) {
        any_call(rng, book)
    } else {
        next_call(rng, book)
    }
}

/// What brings the work of some open draft on.
fn next_call(rng: &mut Rng, book: &[u8]) -> Call<'static> {
    let open = drafts(book, Draft::is_open);
    if open.is_empty() {
        return Call::Open;
    }
    let d = rng.pick(&open);
    let draft = Draft::get(block(book, 0), d - 1);
    let taken = taken_segment(rng, book, d);
    match (draft, rng.below(8)) {
        (Draft { stale: 1, .. }, 0..=3) => Call::Drop(d),
        (Draft { taken: [0, _], .. }, _) | (_, 0) => Call::Take(d, segment(rng, book)),
        (_, 1..=2) => Call::Commit(d),
        (_, 3) => Call::SetPurge(d, taken, time(rng)),
        (_, 4..=5) => Call::Remove(d, taken, held_place(rng, book, d)),
        _ => Call::Add(d, taken, place(rng)),
    }
}

fn any_call(rng: &mut Rng, book: &[u8]) -> Call<'static> {
    let d = draft(rng, book);
    let taken = taken_segment(rng, book, d);
    match rng.below(40) {
        0..=5 => Call::Open,
        6..=11 => Call::Take(d, segment(rng, book)),
        12 => Call::Purge(d, taken),
        13 => Call::Count(d, taken),
        14 => Call::Place(d, taken, index(rng)),
        15..=20 => Call::Add(d, taken, place(rng)),
        21..=25 => Call::Remove(d, taken, held_place(rng, book, d)),
        26..=29 => Call::SetPurge(d, taken, time(rng)),
        30..=35 => Call::Commit(d),
        36 => Call::Drop(d),
        37 => Call::Undo,
        38 => Call::Drop(stale_draft(rng, book)),
        _ => Call::Write(segment(rng, book)),
    }
}

fn block(book: &[u8], index: usize) -> &Block {
    book[index * BLOCK..][..BLOCK].try_into().unwrap()
}

/// The drafts like this, by number.
fn drafts(book: &[u8], is_meant: impl Fn(Draft) -> bool) -> Vec<usize> {
    let header = block(book, 0);
    let index = (0..DRAFTS).filter(|&index| is_meant(Draft::get(header, index)));
    index.map(|index| index + 1).collect()
}

/// An open draft mostly.
fn draft(rng: &mut Rng, book: &[u8]) -> usize {
    let open = drafts(book, Draft::is_open);
    match rng.below(24) {
        0 => rng.pick(&[0, 5, 255, 256, 257, 4_294_967_297, usize::MAX]),
        1 => rng.within(1, 4),
        _ if open.is_empty() => 1,
        _ => rng.pick(&open),
    }
}

/// A stale draft if there is one.
fn stale_draft(rng: &mut Rng, book: &[u8]) -> usize {
    let stale = drafts(book, |draft| draft.stale == 1);
    match stale.as_slice() {
        [] => rng.within(1, 4),
        stale => rng.pick(stale),
    }
}

fn segment(rng: &mut Rng, book: &[u8]) -> usize {
    let segments = header::segments(block(book, 0));
    match rng.below(24) {
        0 => rng.pick(&[0, 9, 255, 257, 4_294_967_297, usize::MAX]),
        1 => segments + 1,
        _ => rng.within(1, segments),
    }
}

/// A segment that the draft has taken mostly.
fn taken_segment(rng: &mut Rng, book: &[u8], draft: usize) -> usize {
    if !(1..=DRAFTS).contains(&draft) || rng.once_in(12) {
        return segment(rng, book);
    }
    let [first, second] = Draft::get(block(book, 0), draft - 1).taken;
    match rng.below(2) {
        1 if second != 0 => second.into(),
        _ => first.into(),
    }
}

/// A place of the draft's first copy mostly.
fn held_place(rng: &mut Rng, book: &[u8], draft: usize) -> usize {
    if !(1..=DRAFTS).contains(&draft) || rng.once_in(4) {
        return place(rng);
    }
    let copy = block(book, copy_block(draft - 1, 0));
    let held: Vec<u32> = content::places(copy).collect();
    match held.as_slice() {
        [] => place(rng),
        held => rng.pick(held) as usize,
    }
}

fn index(rng: &mut Rng) -> usize {
    match rng.below(4) {
        0 => rng.pick(&[1, 119, 120, 121, 256, 4_294_967_296, usize::MAX]),
        1 => rng.below(120),
        _ => 0,
    }
}

/// Places near those that books have, so that some are there.
fn place(rng: &mut Rng) -> usize {
    match rng.below(10) {
        0 => rng.pick(&[1_352_000, 1_352_001, 4_294_967_296, usize::MAX]),
        1 => rng.pick(&[0, 1, 1_351_999, 1_351_998]),
        2 => rng.below(1_352_000),
        3 => 630_000 + rng.below(125),
        _ => 630_000 + rng.below(6),
    }
}

fn time(rng: &mut Rng) -> [usize; 3] {
    let wide = [60, 255, 256, 4_294_967_297, usize::MAX];
    let mut time = [
        rng.within(1, 31),
        rng.pick(&[0, 23, 12]),
        rng.pick(&[0, 59]),
    ];
    match rng.below(12) {
        0 => time[0] = rng.pick(&[0, 32, 4_294_967_297]),
        1 => time[1] = rng.pick(&[24, 25, 4_294_967_296]),
        2 => time[2] = rng.pick(&wide),
        _ => {}
    }
    time
}
