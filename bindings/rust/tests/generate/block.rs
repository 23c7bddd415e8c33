//! Place code blocks.

use std::collections::BTreeSet;

use super::element::{self, push_prefix, Element};
use super::{Ends, Rng};

/// `MDC`, `VAZ`, `AAC`, `AAZ`, `ZZC`, `ZZZ`, `FLC` and `GMZ`.
const PREFIXES: [usize; 8] = [630, 1093, 0, 1, 1350, 1351, 282, 337];
const PLACES_END: usize = 1_352_000;

/// DDHHMM, in range; days that every month has come often.
pub fn push_time(rng: &mut Rng, out: &mut Vec<u8>) {
    let day = match rng.below(8) {
        0 => rng.within(29, 31),
        1 => rng.pick(&[1, 28]),
        _ => rng.within(1, 28),
    };
    let hour = rng.pick(&[0, 23, 12, 8, 21]);
    let minute = rng.pick(&[0, 59, 22, 30]);
    out.extend(format!("{day:02}{hour:02}{minute:02}").bytes());
}

/// A block as it is written, with the elements that it has so far.
struct Block<'a> {
    ends: Ends,
    out: &'a mut Vec<u8>,
    /// Where the line starts.
    line: usize,
    elements: Vec<Element>,
}

impl<'a> Block<'a> {
    fn new(ends: Ends, out: &'a mut Vec<u8>) -> Self {
        let (line, elements) = (out.len(), Vec::new());
        Block {
            ends,
            out,
            line,
            elements,
        }
    }

    fn end_line(&mut self, rng: &mut Rng) {
        self.ends.push(rng, self.out);
        self.line = self.out.len();
    }

    /// Writes one more element, its prefix where that is another, and now and
    /// then where it is the same.
    fn push(&mut self, rng: &mut Rng, element: Element) {
        let before = self.elements.last();
        let known = before.is_some_and(|before| before.prefix == element.prefix);
        if before.is_some() && (self.out.len() - self.line > 50 || rng.once_in(8)) {
            self.end_line(rng);
        }
        if !known || rng.once_in(8) {
            push_prefix(element.prefix, self.out);
        }
        element.push_numbers(rng, self.out);
        self.elements.push(element);
    }

    /// Writes one more element, if chance finds one that repeats no place.
    fn push_fresh(&mut self, rng: &mut Rng) {
        let fresh = (0..8)
            .map(|_| self.next_element(rng))
            .find(|new| !self.elements.iter().any(|old| old.shares(*new)));
        if let Some(element) = fresh {
            self.push(rng, element);
        }
    }

    /// Under the last prefix mostly, or beside some other element.
    fn next_element(&self, rng: &mut Rng) -> Element {
        let prefix = match rng.below(6) {
            0 => rng.pick(&PREFIXES),
            1 => rng.below(element::PREFIXES),
            2 => return rng.pick(&self.elements).beside(rng),
            _ => self.elements[self.elements.len() - 1].prefix,
        };
        any_element(rng, prefix)
    }

    /// Writes the purge and ends the block.
    fn end(mut self, rng: &mut Rng) {
        if rng.once_in(8) {
            self.end_line(rng);
        }
        push_time(rng, self.out);
        self.out.push(b'-');
        self.end_line(rng);
    }
}

/// A block, its last line's end with it: mostly a right one, else with a place
/// that is named twice.
pub fn push_block(rng: &mut Rng, ends: Ends, out: &mut Vec<u8>) {
    let mut block = Block::new(ends, out);
    let opening = opening(rng);
    block.push(rng, opening);
    let elements = match rng.below(6) {
        0 => 0,
        1 => rng.within(10, 40),
        _ => rng.within(1, 8),
    };
    let repeated = rng.once_in(8).then(|| rng.below(elements + 1));
    for index in 0..=elements {
        if repeated == Some(index) {
            let again = rng.pick(&block.elements).repeated(rng);
            block.push(rng, again);
        }
        if index < elements {
            block.push_fresh(rng);
        }
    }
    block.end(rng);
}

/// The element that opens a block; now and then a range of about 120.
fn opening(rng: &mut Rng) -> Element {
    let prefix = rng.pick(&PREFIXES);
    if rng.once_in(12) {
        Element::range(prefix, 1, rng.pick(&[119, 120, 120, 120, 121, 999]))
    } else {
        any_element(rng, prefix)
    }
}

/// A single or a range; numbers are mostly near another.
fn any_element(rng: &mut Rng, prefix: usize) -> Element {
    let number = match rng.below(8) {
        0 => rng.below(1000),
        1 => rng.pick(&[0, 1, 2, 998, 999]),
        _ => rng.within(1, 30),
    };
    match rng.below(5) {
        0 if rng.once_in(2) => Element::single(prefix, 0),
        1 if (1..999).contains(&number) => {
            Element::range(prefix, number, (number + rng.within(1, 6)).min(999))
        }
        _ => Element::single(prefix, number),
    }
}

/// A block of about 120 places or of many more, ascending or not; often a
/// place is named twice, and now and then an element near its end is wrong.
pub fn push_crowded_block(rng: &mut Rng, ends: Ends, out: &mut Vec<u8>) {
    let mut elements = crowd(rng);
    let count = elements.len();
    match rng.below(4) {
        0 => {}
        1 => elements.reverse(),
        2 => elements.rotate_left(rng.below(count)),
        _ => shuffle(rng, &mut elements),
    }
    if rng.once_in(2) {
        let at = rng.within(1, count);
        let again = rng.pick(&elements[..at]).repeated(rng);
        elements.insert(at, again);
    }
    let mut block = Block::new(ends, out);
    for element in elements {
        block.push(rng, element);
    }
    if rng.once_in(8) {
        let wrong = rng.pick(&["X-", "07-", "007>005-", "MDC-", "1234-", "-"]);
        block.out.extend(wrong.bytes());
    }
    block.end(rng);
}

/// Elements of one width that share no place, over many prefixes or few.
fn crowd(rng: &mut Rng) -> Vec<Element> {
    let width = rng.pick(&[1, 1, 1, 2, 3, 40, 119, 998]);
    let step = width + rng.pick(&[0, 0, 1, 7]);
    let in_prefix = rng.pick(&[1, 2, 1000]).min(999 / step).max(1);
    let count = match rng.below(8) {
        0 => rng.within(100, 1_000),
        _ => (120 / width + rng.below(4)).saturating_sub(2).max(1),
    };
    let (base, apart) = (rng.below(element::PREFIXES), rng.pick(&[1, 3, 51]));
    let element = |index: usize| {
        let prefix = (base + index / in_prefix * apart) % element::PREFIXES;
        let first = 1 + index % in_prefix * step;
        Element::range(prefix, first, (first + width - 1).min(999))
    };
    let zero = rng.once_in(3).then(|| Element::single(base, 0));
    zero.into_iter().chain((0..count).map(element)).collect()
}

fn shuffle(rng: &mut Rng, elements: &mut [Element]) {
    for end in (2..=elements.len()).rev() {
        elements.swap(rng.below(end), end - 1);
    }
}

/// So many places, strictly ascending, in runs and alone.
pub fn ascending_places(rng: &mut Rng, count: usize) -> Vec<u32> {
    let mut places = BTreeSet::new();
    while places.len() < count {
        let prefix = 1000 * rng.pick(&[0, 1, 630, 631, 1093, 1350, 1351]);
        let first = prefix + rng.pick(&[0, 0, 1, 997, 500]) + rng.below(200);
        let last = first + rng.below(6);
        let run = (first..=last).filter(|&place| place < PLACES_END);
        let room = count - places.len();
        places.extend(run.map(|place| place as u32).take(room));
    }
    places.into_iter().collect()
}
