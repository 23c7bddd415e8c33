//! The core's calls, through the archive.

use std::fmt::Write;

use hollgrimsa::{calls, Bulletin, Changed, Class, Refusal, Storm, BLOCK_MOST};

use super::{Head, Reader, SegmentRead};
use crate::replay::{Answer, Calls};

pub struct Core;

fn answer<T>(result: Result<T, Refusal>) -> Answer<T> {
    result.map_err(|refusal| (usize::from(refusal.reason.number()), refusal.place))
}

fn wide(number: usize) -> u64 {
    number as u64
}

fn segments(changed: Changed) -> [u8; 2] {
    match *changed.as_slice() {
        [] => [0, 0],
        [first] => [first, 0],
        [first, second, ..] => [first, second],
    }
}

impl Calls for Core {
    fn make(&self, text: &[u8], year: usize, month: usize, book: &mut [u8]) -> Answer<()> {
        answer(calls::make(book, text, wide(year), wide(month)))
    }

    fn view(
        &self,
        text: &[u8],
        year: usize,
        month: usize,
        number: usize,
    ) -> Answer<(usize, usize)> {
        let part = answer(calls::view(text, wide(year), wide(month), wide(number)))?;
        Ok((part.start, part.len()))
    }

    fn listing(&self, text: &[u8], year: usize, month: usize) -> String {
        match answer(Bulletin::read(text, wide(year), wide(month))) {
            Ok(bulletin) => list(&bulletin),
            Err((number, place)) => format!("R {number} {place}\n"),
        }
    }

    fn open(&self, book: &mut [u8]) -> Answer<usize> {
        answer(calls::open(book)).map(|draft| draft as usize)
    }

    fn take(&self, book: &mut [u8], draft: usize, segment: usize) -> Answer<()> {
        answer(calls::take(book, wide(draft), wide(segment)))
    }

    fn read_purge(&self, book: &[u8], draft: usize, segment: usize) -> Answer<u32> {
        answer(calls::read_purge(book, wide(draft), wide(segment)))
    }

    fn read_count(&self, book: &[u8], draft: usize, segment: usize) -> Answer<usize> {
        let count = calls::read_count(book, wide(draft), wide(segment));
        answer(count).map(|count| count as usize)
    }

    fn read_place(&self, book: &[u8], draft: usize, segment: usize, index: usize) -> Answer<u32> {
        let (draft, segment) = (wide(draft), wide(segment));
        answer(calls::read_place(book, draft, segment, wide(index)))
    }

    fn add(&self, book: &mut [u8], draft: usize, segment: usize, place: usize) -> Answer<bool> {
        answer(calls::add(book, wide(draft), wide(segment), wide(place)))
    }

    fn remove(&self, book: &mut [u8], draft: usize, segment: usize, place: usize) -> Answer<bool> {
        answer(calls::remove(book, wide(draft), wide(segment), wide(place)))
    }

    fn set_purge(
        &self,
        book: &mut [u8],
        draft: usize,
        segment: usize,
        time: [usize; 3],
    ) -> Answer<u32> {
        let (draft, segment) = (wide(draft), wide(segment));
        answer(calls::set_purge(book, draft, segment, time.map(wide)))
    }

    fn commit(&self, book: &mut [u8], draft: usize) -> Answer<[u8; 2]> {
        answer(calls::commit(book, wide(draft))).map(segments)
    }

    fn drop(&self, book: &mut [u8], draft: usize) -> Answer<()> {
        answer(calls::drop(book, wide(draft)))
    }

    fn undo(&self, book: &mut [u8]) -> Answer<[u8; 2]> {
        answer(calls::undo(book)).map(segments)
    }

    fn write(&self, book: &[u8], segment: usize, output: &mut [u8]) -> Answer<usize> {
        answer(calls::write(book, wide(segment), output))
    }

    fn write_edited(&self, text: &[u8], book: &[u8], output: &mut [u8]) -> Answer<usize> {
        answer(calls::write_edited(text, book, output))
    }
}

impl Reader for Core {
    /// Each call reads the whole text anew: all of them answer alike where it
    /// is refused.
    fn head(&self, text: &[u8], year: usize, month: usize) -> Answer<Head> {
        let (year, month) = (wide(year), wide(month));
        let issue = calls::issue(text, year, month);
        let bbb = calls::bbb(text, year, month);
        let identifier = calls::identifier(text, year, month);
        let storm = calls::storm(text, year, month);
        let segments = calls::segments(text, year, month);
        if let Err(refusal) = issue {
            assert_eq!(bbb, Err(refusal));
            assert_eq!(identifier, Err(refusal));
            assert_eq!(storm, Err(refusal));
            assert_eq!(segments, Err(refusal));
        }
        Ok(Head {
            issue: answer(issue)?,
            bbb: answer(bbb)?,
            identifier: answer(identifier)?,
            storm: answer(storm)?.map(show_storm),
            segments: answer(segments)? as usize,
        })
    }

    fn segment(
        &self,
        text: &[u8],
        year: usize,
        month: usize,
        number: usize,
    ) -> Answer<SegmentRead> {
        let (year, month, number) = (wide(year), wide(month), wide(number));
        let view = calls::view(text, year, month, number);
        let block_end = calls::block_end(text, year, month, number);
        let purge = calls::purge(text, year, month, number);
        let count = calls::count(text, year, month, number);
        if let Err(refusal) = view {
            assert_eq!(block_end, Err(refusal));
            assert_eq!(purge, Err(refusal));
            assert_eq!(count, Err(refusal));
        }
        let view = answer(view)?;
        Ok(SegmentRead {
            start: view.start,
            length: view.len(),
            block_end: answer(block_end)?,
            purge: answer(purge)?,
            count: answer(count)? as usize,
        })
    }

    fn place(
        &self,
        text: &[u8],
        year: usize,
        month: usize,
        number: usize,
        index: usize,
    ) -> Answer<u32> {
        let (year, month) = (wide(year), wide(month));
        answer(calls::place(text, year, month, wide(number), wide(index)))
    }

    fn write_block(&self, out: &mut [u8], places: &[u32], purge: usize) -> Answer<usize> {
        answer(calls::write_block(out, places, wide(purge)))
    }
}

fn show_storm(storm: Storm) -> String {
    let class = match storm.class {
        Class::Cyclone => 'C',
        Class::Internal => 'I',
        Class::Training => 'T',
        Class::Disturbance => 'D',
    };
    format!("{storm} {class}")
}

/// The listing, put together out of the reader's and the writer's answers.
fn list(bulletin: &Bulletin<'_>) -> String {
    // A right heading has its fields at fixed places.
    let heading = ascii(&bulletin.text()[..18]);
    let bbb = bulletin.bbb().map_or("-".into(), |bbb| ascii(&bbb));
    let identifier = ascii(bulletin.identifier());
    let storm = bulletin.storm().map_or("-".into(), |s| s.to_string());
    let mut out = format!("H {heading} {bbb} {identifier} {storm}\n");
    for segment in bulletin.segments() {
        let places: Vec<u32> = segment.places().collect();
        let (number, purge) = (segment.number(), segment.purge());
        let block = written(&places, purge);
        let count = places.len();
        writeln!(out, "S {number} {purge} {count} {block}").unwrap();
    }
    out
}

/// A block without its line ends.
fn written(places: &[u32], purge: u32) -> String {
    let mut out = [0; BLOCK_MOST];
    let length = calls::write_block(&mut out, places, purge.into()).unwrap();
    ascii(&out[..length]).replace("\r\r\n", "")
}

fn ascii(bytes: &[u8]) -> String {
    bytes.iter().copied().map(char::from).collect()
}
