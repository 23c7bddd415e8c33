//! Place code blocks: their elements, the places they cover and their purge.

use std::collections::BTreeMap;

use super::calendar::DayTime;
use super::lines::{self, past_line_end};
use super::refusal::{self, Refusal};

/// The most places of one segment.
pub const MAX_PLACES: usize = 120;
/// One more than the highest place number.
pub const PLACES: u32 = 26 * 26 * 2 * 1000;
/// The longest element, `SSFnnn>mmm`, and its `-`.
const LONGEST: usize = 11;

/// Does the line that starts with these bytes open a block?
pub fn opens(bytes: &[u8]) -> bool {
    match *bytes {
        [s1, s2, f, a, b, c, b'-' | b'>', ..] => {
            prefix(&[s1, s2, f]).is_some() && single(&[a, b, c]).is_some()
        }
        _ => false,
    }
}

/// The prefix `SSF` as the thousands of its places' numbers.
fn prefix(&[s1, s2, f]: &[u8; 3]) -> Option<u32> {
    let zone = match f {
        b'C' => 0,
        b'Z' => 1,
        _ => return None,
    };
    let letters = u32::from(s1.wrapping_sub(b'A')) * 26 + u32::from(s2.wrapping_sub(b'A'));
    lines::are_capitals(&[s1, s2]).then_some(letters * 2 + zone)
}

/// Three digits, or `ALL` for 000.
fn single(bytes: &[u8; 3]) -> Option<u32> {
    if bytes == b"ALL" {
        return Some(0);
    }
    lines::number(bytes)
}

/// One right element of a block.
enum Element {
    /// The places from the first to the last number.
    Places(u32, u32),
    Purge(DayTime),
}

/// The reading place in a block, with the prefix last set.
#[derive(Clone, Copy)]
struct Cursor<'a> {
    text: &'a [u8],
    at: usize,
    prefix: Option<u32>,
}

impl Cursor<'_> {
    /// Reads the element here and moves past its `-`, and past the line's end
    /// if that follows; nothing, if the element is wrong.
    fn step(self) -> Option<(Element, Self)> {
        let rest = &self.text[self.at..];
        let length = rest.iter().take(LONGEST).position(|&b| b == b'-')?;
        let (element, prefix) = self.element(&rest[..length])?;
        let after = self.at + length + 1;
        let at = past_line_end(self.text, after).unwrap_or(after);
        Some((element, Cursor { at, prefix, ..self }))
    }

    /// Understands one element; a line end within it makes it wrong, as any
    /// other byte out of place.
    fn element(self, bytes: &[u8]) -> Option<(Element, Option<u32>)> {
        if let Ok(digits) = bytes.try_into() {
            if let Some(purge) = DayTime::parse(digits) {
                return Some((Element::Purge(purge), self.prefix));
            }
        }
        let (set, numbers) = match bytes.split_first_chunk::<3>() {
            Some((head, numbers @ [_, ..])) if head[0].is_ascii_uppercase() => {
                (prefix(head)?, numbers)
            }
            _ => (self.prefix?, bytes),
        };
        let (first, last) = span(numbers)?;
        Some((
            Element::Places(set * 1000 + first, set * 1000 + last),
            Some(set),
        ))
    }
}

/// `nnn`, `ALL` or `nnn>mmm` as first and last number.
fn span(bytes: &[u8]) -> Option<(u32, u32)> {
    match bytes {
        &[a, b, c] => single(&[a, b, c]).map(|number| (number, number)),
        [first @ .., b'>', d, e, f] if first.len() == 3 => {
            let (first, last) = (lines::number(first)?, lines::number(&[*d, *e, *f])?);
            (1 <= first && first < last).then_some((first, last))
        }
        _ => None,
    }
}

/// The places that elements covered so far, each of them once.
enum Covered {
    /// So many as a segment may have, ascending.
    Few(Vec<u32>),
    /// More: the last place of each element by its first.
    Many(BTreeMap<u32, u32>),
}

impl Covered {
    /// Covers the places of one more element; or answers false, where one of
    /// them is covered already.
    fn cover(&mut self, first: u32, last: u32) -> bool {
        match self {
            Covered::Few(places) => {
                let Some(index) = gap(places, first, last) else {
                    return false;
                };
                if places.len() + (last - first) as usize >= MAX_PLACES {
                    let each = places.iter().map(|&place| (place, place));
                    *self = Covered::Many(each.chain([(first, last)]).collect());
                } else {
                    insert(places, index, first, last);
                }
                true
            }
            Covered::Many(elements) => {
                let below = elements.range(..=last).next_back();
                let free = below.is_none_or(|(_, &end)| end < first);
                if free {
                    elements.insert(first, last);
                }
                free
            }
        }
    }

    /// The places, where a segment may have so many.
    fn few(self) -> Option<Vec<u32>> {
        match self {
            Covered::Few(places) => Some(places),
            Covered::Many(_) => None,
        }
    }
}

/// The index at which the places from first to last belong, if none of them is
/// there.
fn gap(places: &[u32], first: u32, last: u32) -> Option<usize> {
    if places.last().is_none_or(|&highest| highest < first) {
        return Some(places.len());
    }
    let index = places.partition_point(|&place| place < first);
    (last < places[index]).then_some(index)
}

fn insert(places: &mut Vec<u32>, index: usize, first: u32, last: u32) {
    let behind = places.len() - index;
    if behind == 0 {
        places.extend(first..=last);
    } else if first == last {
        places.insert(index, first);
    } else {
        places.extend(first..=last);
        places[index..].rotate_left(behind);
    }
}

/// A block as read.
pub struct Block {
    /// Its places, ascending, where a segment may have so many.
    pub places: Option<Vec<u32>>,
    pub purge: DayTime,
    /// Where the purge element starts.
    pub purge_start: usize,
    /// Where the line after the block starts.
    pub past: usize,
}

/// Reads the block that opens here. A wrong element, wherever it stands, is
/// refused before a place that is named twice.
pub fn read(text: &[u8], start: usize) -> Result<Block, Refusal> {
    let mut covered = Covered::Few(Vec::with_capacity(MAX_PLACES));
    let mut twice = None;
    let mut cursor = Cursor {
        text,
        at: start,
        prefix: None,
    };
    loop {
        let at = cursor.at;
        let wrong = Refusal::at(refusal::BLOCK, at);
        let (element, moved) = cursor.step().ok_or(wrong)?;
        match element {
            Element::Places(first, last) => {
                if twice.is_none() && !covered.cover(first, last) {
                    twice = Some(at);
                }
            }
            Element::Purge(purge) => {
                let past = end_of_block(text, at)?;
                if let Some(place) = twice {
                    return Err(Refusal::at(refusal::PLACE_TWICE, place));
                }
                return Ok(Block {
                    places: covered.few(),
                    purge,
                    purge_start: at,
                    past,
                });
            }
        }
        cursor = moved;
    }
}

/// Where the line after the purge element starts; nothing may follow its `-`.
fn end_of_block(text: &[u8], purge_start: usize) -> Result<usize, Refusal> {
    let after = purge_start + b"DDHHMM-".len();
    past_line_end(text, after).ok_or(Refusal::at(refusal::BLOCK, after))
}
