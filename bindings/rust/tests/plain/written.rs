//! The written form of a block.

use super::calendar::DayTime;
use super::lines::LineEnd;

/// The longest line, without its end.
const MAX_LINE: usize = 66;
/// More than 120 places and a purge can take: at most 7 bytes for each of
/// them, on lines of 56 bytes or more.
pub const ROOM: usize = 1024;

/// The written block of these ascending places, all its lines ended alike.
pub fn written(places: impl Iterator<Item = u32>, purge: u32, end: LineEnd) -> Vec<u8> {
    let mut out = Vec::with_capacity(ROOM);
    compose(places, purge, end, |part| out.extend_from_slice(part));
    out
}

/// Hands the written block to `put`, part by part.
pub fn compose(
    places: impl Iterator<Item = u32>,
    purge: u32,
    end: LineEnd,
    put: impl FnMut(&[u8]),
) {
    let (end, column) = (end.bytes(), 0);
    let mut out = Folded { put, end, column };
    let mut places = places.peekable();
    let mut prefix = None;
    while let Some(first) = places.next() {
        let mut last = first;
        while first % 1000 != 0
            && places
                .next_if(|&n| n == last + 1 && n % 1000 != 0)
                .is_some()
        {
            last += 1;
        }
        let mut element = Element::new();
        if prefix.replace(first / 1000) != Some(first / 1000) {
            element.push_prefix(first / 1000);
        }
        element.push_number(first);
        if last - first >= 2 {
            element.push(b'>');
            element.push_number(last);
        }
        out.put(element);
        if last - first == 1 {
            let mut second = Element::new();
            second.push_number(last);
            out.put(second);
        }
    }
    let mut element = Element::new();
    for digit in DayTime::of_minute(purge).digits() {
        element.push(digit);
    }
    out.put(element);
    out.end_line();
}

/// Lines folded before the element that would carry them too far.
struct Folded<F> {
    put: F,
    /// What ends each line.
    end: &'static [u8],
    column: usize,
}

impl<F: FnMut(&[u8])> Folded<F> {
    fn put(&mut self, mut element: Element) {
        element.push(b'-');
        if self.column + element.length > MAX_LINE {
            self.end_line();
        }
        (self.put)(&element.bytes[..element.length]);
        self.column += element.length;
    }

    fn end_line(&mut self) {
        (self.put)(self.end);
        self.column = 0;
    }
}

/// An element as it grows.
struct Element {
    bytes: [u8; 11],
    length: usize,
}

impl Element {
    fn new() -> Self {
        Element {
            bytes: [0; 11],
            length: 0,
        }
    }

    fn push(&mut self, byte: u8) {
        self.bytes[self.length] = byte;
        self.length += 1;
    }

    fn push_prefix(&mut self, prefix: u32) {
        self.push(b'A' + (prefix / 52) as u8);
        self.push(b'A' + (prefix / 2 % 26) as u8);
        self.push(if prefix.is_multiple_of(2) { b'C' } else { b'Z' });
    }

    fn push_number(&mut self, place: u32) {
        let number = place % 1000;
        for digit in [number / 100, number / 10 % 10, number % 10] {
            self.push(b'0' + digit as u8);
        }
    }
}
