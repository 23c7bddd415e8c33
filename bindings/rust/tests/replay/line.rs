//! Call lines of a replay.

use super::{BLOCK, BUFFER, MAX_EDITED, MAX_OUTPUT, MAX_TEXT};

/// One call line with its numbers in their order.
pub enum Line {
    Open,
    Take(usize, usize),
    Purge(usize, usize),
    Count(usize, usize),
    Place(usize, usize, usize),
    Add(usize, usize, usize),
    Remove(usize, usize, usize),
    SetPurge(usize, usize, [usize; 3]),
    Commit(usize),
    Drop(usize),
    Undo,
    Write(usize, usize),
    Edited(usize),
    View(usize),
    Listing,
    Make,
    Block(usize),
    Put(usize, usize),
    Lend(usize),
    Sum,
}

impl Line {
    /// A letter and its numbers, single spaces between.
    pub fn parse(line: &[u8]) -> Option<Self> {
        let mut words = line.split(|&b| b == b' ');
        let letter = words.next()?;
        let numbers = words.map(number).collect::<Option<Vec<usize>>>()?;
        Some(match (letter, numbers.as_slice()) {
            (b"O", []) => Line::Open,
            (b"T", &[d, s]) => Line::Take(d, s),
            (b"P", &[d, s]) => Line::Purge(d, s),
            (b"N", &[d, s]) => Line::Count(d, s),
            (b"I", &[d, s, i]) => Line::Place(d, s, i),
            (b"A", &[d, s, p]) => Line::Add(d, s, p),
            (b"X", &[d, s, p]) => Line::Remove(d, s, p),
            (b"M", &[d, s, day, hour, minute]) => Line::SetPurge(d, s, [day, hour, minute]),
            (b"C", &[d]) => Line::Commit(d),
            (b"Q", &[d]) => Line::Drop(d),
            (b"U", []) => Line::Undo,
            (b"W", &[s, n]) => Line::Write(s, n),
            (b"F", &[n]) => Line::Edited(n),
            (b"V", &[n]) => Line::View(n),
            (b"E", []) => Line::Listing,
            (b"+", []) => Line::Make,
            (b"B", &[i]) => Line::Block(i),
            (b"!", &[o, b]) => Line::Put(o, b),
            (b"L", &[n]) => Line::Lend(n),
            (b"Z", []) => Line::Sum,
            _ => return None,
        })
    }

    /// Are the numbers in range that the replay itself bounds?
    pub fn is_in_range(&self) -> bool {
        match *self {
            Line::Write(_, n) => n <= MAX_OUTPUT,
            Line::Edited(n) => n <= MAX_EDITED,
            Line::Block(i) => i < BUFFER / BLOCK,
            Line::Put(offset, byte) => offset < BUFFER && byte <= 255,
            Line::Lend(n) => n <= BUFFER,
            _ => true,
        }
    }
}

/// How many bytes behind a line `% n` are the case's text from now on.
pub fn text_length(line: &[u8]) -> Option<usize> {
    number(line.strip_prefix(b"% ")?).filter(|&length| length <= MAX_TEXT)
}

/// An unsigned decimal of 1 to 10 digits.
fn number(word: &[u8]) -> Option<usize> {
    matches!(word.len(), 1..=10).then(|| digits(word))?
}

/// The number that these digits, and nothing else, spell.
pub fn digits(word: &[u8]) -> Option<usize> {
    word.iter().try_fold(0, |sum, &b| {
        b.is_ascii_digit().then(|| 10 * sum + usize::from(b - b'0'))
    })
}
