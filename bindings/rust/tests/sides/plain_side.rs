//! The plain implementation's calls.

use super::{Head, Reader, SegmentRead};
use crate::plain::bulletin::{Bulletin, Segment};
use crate::plain::lines::Lines;
use crate::plain::{self, blocks, refusal, storm, LineEnd, Refusal};
use crate::replay::{Answer, Calls};

/// The first minute that no block can have as its purge: 2100-02-01 0000.
const MINUTES_END: usize = 68_418_720;

pub struct Plain;

fn answer<T>(result: Result<T, Refusal>) -> Answer<T> {
    result.map_err(|refusal| (usize::from(refusal.number), refusal.place))
}

fn refused<T>(number: u8) -> Answer<T> {
    Err((usize::from(number), 0))
}

impl Calls for Plain {
    fn make(&self, text: &[u8], year: usize, month: usize, book: &mut [u8]) -> Answer<()> {
        answer(plain::make(text, year, month, book))
    }

    fn view(
        &self,
        text: &[u8],
        year: usize,
        month: usize,
        number: usize,
    ) -> Answer<(usize, usize)> {
        let part = answer(plain::view(text, year, month, number))?;
        // The part is made of the text's own bytes, so addresses tell where.
        Ok((part.as_ptr() as usize - text.as_ptr() as usize, part.len()))
    }

    fn listing(&self, text: &[u8], year: usize, month: usize) -> String {
        plain::listing(text, year, month)
    }

    fn open(&self, book: &mut [u8]) -> Answer<usize> {
        answer(plain::open(book))
    }

    fn take(&self, book: &mut [u8], draft: usize, segment: usize) -> Answer<()> {
        answer(plain::take(book, draft, segment))
    }

    fn read_purge(&self, book: &[u8], draft: usize, segment: usize) -> Answer<u32> {
        answer(plain::read_purge(book, draft, segment))
    }

    fn read_count(&self, book: &[u8], draft: usize, segment: usize) -> Answer<usize> {
        answer(plain::read_count(book, draft, segment))
    }

    fn read_place(&self, book: &[u8], draft: usize, segment: usize, index: usize) -> Answer<u32> {
        answer(plain::read_place(book, draft, segment, index))
    }

    fn add(&self, book: &mut [u8], draft: usize, segment: usize, place: usize) -> Answer<bool> {
        answer(plain::add(book, draft, segment, place))
    }

    fn remove(&self, book: &mut [u8], draft: usize, segment: usize, place: usize) -> Answer<bool> {
        answer(plain::remove(book, draft, segment, place))
    }

    fn set_purge(
        &self,
        book: &mut [u8],
        draft: usize,
        segment: usize,
        [day, hour, minute]: [usize; 3],
    ) -> Answer<u32> {
        answer(plain::set_purge(book, draft, segment, day, hour, minute))
    }

    fn commit(&self, book: &mut [u8], draft: usize) -> Answer<[u8; 2]> {
        answer(plain::commit(book, draft))
    }

    fn drop(&self, book: &mut [u8], draft: usize) -> Answer<()> {
        answer(plain::drop(book, draft))
    }

    fn undo(&self, book: &mut [u8]) -> Answer<[u8; 2]> {
        answer(plain::undo(book))
    }

    fn write(&self, book: &[u8], segment: usize, output: &mut [u8]) -> Answer<usize> {
        answer(plain::write(book, segment, output))
    }

    fn write_edited(&self, text: &[u8], book: &[u8], output: &mut [u8]) -> Answer<usize> {
        answer(plain::write_edited(text, book, output))
    }
}

impl Reader for Plain {
    fn head(&self, text: &[u8], year: usize, month: usize) -> Answer<Head> {
        let bulletin = answer(plain::read(text, year, month))?;
        let mut lines = Lines::from(text, 0);
        lines.next();
        Ok(Head {
            issue: bulletin.issue,
            bbb: bulletin.heading.bbb,
            identifier: lines.at(),
            storm: bulletin.storm.map(show_storm),
            segments: bulletin.segments.len(),
        })
    }

    fn segment(
        &self,
        text: &[u8],
        year: usize,
        month: usize,
        number: usize,
    ) -> Answer<SegmentRead> {
        let bulletin = answer(plain::read(text, year, month))?;
        let segment = find_segment(&bulletin, number)?;
        Ok(SegmentRead {
            start: segment.start,
            length: segment.past - segment.start,
            block_end: segment.block_end,
            purge: segment.purge,
            count: segment.places.len(),
        })
    }

    fn place(
        &self,
        text: &[u8],
        year: usize,
        month: usize,
        number: usize,
        index: usize,
    ) -> Answer<u32> {
        let bulletin = answer(plain::read(text, year, month))?;
        let places = &find_segment(&bulletin, number)?.places;
        match places.get(index) {
            Some(&place) => Ok(place),
            None => refused(refusal::OUT_OF_RANGE),
        }
    }

    fn write_block(&self, out: &mut [u8], places: &[u32], purge: usize) -> Answer<usize> {
        if !is_set(places) || purge >= MINUTES_END {
            return refused(refusal::OUT_OF_RANGE);
        }
        let places = places.iter().copied();
        let block = plain::written(places, purge as u32, LineEnd::CrCrLf);
        match out.get_mut(..block.len()) {
            Some(front) => front.copy_from_slice(&block),
            None => return refused(refusal::SHORT_OUTPUT),
        }
        Ok(block.len())
    }
}

fn find_segment(bulletin: &Bulletin, number: usize) -> Answer<&Segment> {
    let segment = number
        .checked_sub(1)
        .and_then(|index| bulletin.segments.get(index));
    match segment {
        Some(segment) => Ok(segment),
        None => refused(refusal::NO_SUCH_SEGMENT),
    }
}

/// Are these a segment's places?
fn is_set(places: &[u32]) -> bool {
    (1..=blocks::MAX_PLACES).contains(&places.len())
        && places.windows(2).all(|pair| pair[0] < pair[1])
        && places.iter().all(|&place| place < blocks::PLACES)
}

fn show_storm(storm: storm::Storm) -> String {
    let class = match storm.class {
        storm::Class::Cyclone => 'C',
        storm::Class::Internal => 'I',
        storm::Class::Training => 'T',
        storm::Class::Disturbance => 'D',
    };
    format!("{storm} {class}")
}
