//! Text and lines: allowed bytes, line ends, line lengths.

use super::refusal::{self, Refusal};

/// The longest text.
pub const MAX_TEXT: usize = 16_384;
/// The longest line, without its end.
const MAX_LINE: usize = 132;

/// Refuses a wrong byte, a line too long or a last line that does not end.
pub fn check(text: &[u8]) -> Result<(), Refusal> {
    let mut at = 0;
    while at < text.len() {
        at = check_line(text, at)?;
    }
    Ok(())
}

/// Checks the line that starts here; answers where the next one starts.
fn check_line(text: &[u8], start: usize) -> Result<usize, Refusal> {
    let length = printable_run(&text[start..]);
    if length > MAX_LINE {
        return Err(Refusal::at(refusal::TEXT, start + MAX_LINE));
    }
    // At the text's end this place is the text's length.
    let end = start + length;
    past_line_end(text, end).ok_or(Refusal::at(refusal::TEXT, end))
}

/// How a line ends.
#[derive(Clone, Copy, Debug, PartialEq, Eq)]
pub enum LineEnd {
    Lf,
    CrLf,
    CrCrLf,
}

impl LineEnd {
    /// The line end that is here, if one is.
    pub fn at(text: &[u8], at: usize) -> Option<Self> {
        match text.get(at..)? {
            [b'\n', ..] => Some(LineEnd::Lf),
            [b'\r', b'\n', ..] => Some(LineEnd::CrLf),
            [b'\r', b'\r', b'\n', ..] => Some(LineEnd::CrCrLf),
            _ => None,
        }
    }

    pub fn bytes(self) -> &'static [u8] {
        match self {
            LineEnd::Lf => b"\n",
            LineEnd::CrLf => b"\r\n",
            LineEnd::CrCrLf => b"\r\r\n",
        }
    }

    fn length(self) -> usize {
        self.bytes().len()
    }
}

/// Where the next line starts, if a line end is here.
pub fn past_line_end(text: &[u8], at: usize) -> Option<usize> {
    LineEnd::at(text, at).map(|end| at + end.length())
}

fn is_printable(byte: u8) -> bool {
    matches!(byte, 32..=126)
}

/// The number of printable bytes before the first other byte.
fn printable_run(bytes: &[u8]) -> usize {
    let (chunks, _) = bytes.as_chunks::<16>();
    let whole = chunks
        .iter()
        .take_while(|chunk| chunk.iter().fold(true, |all, &b| all & is_printable(b)))
        .count();
    let run = 16 * whole;
    let rest = &bytes[run..];
    run + rest
        .iter()
        .position(|&b| !is_printable(b))
        .unwrap_or(rest.len())
}

/// One line of a checked text.
#[derive(Clone, Copy)]
pub struct Line<'a> {
    /// Where it starts in the text.
    pub start: usize,
    /// Where the next line starts.
    pub past: usize,
    /// Its bytes without its end.
    pub content: &'a [u8],
    /// How it ends.
    pub end: LineEnd,
}

impl Line<'_> {
    pub fn is_blank(&self) -> bool {
        self.content.iter().all(|&b| b == b' ')
    }

    /// Is it exactly `$$`?
    pub fn is_end_of_segment(&self) -> bool {
        self.content == b"$$"
    }
}

/// The lines of a checked text from some line's start on.
#[derive(Clone)]
pub struct Lines<'a> {
    text: &'a [u8],
    at: usize,
}

impl<'a> Lines<'a> {
    pub fn from(text: &'a [u8], at: usize) -> Self {
        Lines { text, at }
    }

    /// Where the next line starts, or the text's length.
    pub fn at(&self) -> usize {
        self.at
    }
}

impl<'a> Iterator for Lines<'a> {
    type Item = Line<'a>;

    fn next(&mut self) -> Option<Line<'a>> {
        let start = self.at;
        let content_end = start + printable_run(&self.text[start..]);
        let end = LineEnd::at(self.text, content_end)?;
        self.at = content_end + end.length();
        Some(Line {
            start,
            past: self.at,
            content: &self.text[start..content_end],
            end,
        })
    }
}

/// Are these bytes all capitals?
pub fn are_capitals(bytes: &[u8]) -> bool {
    bytes.iter().all(u8::is_ascii_uppercase)
}

/// Are these bytes all digits?
pub fn are_digits(bytes: &[u8]) -> bool {
    bytes.iter().all(u8::is_ascii_digit)
}

/// The number that a few digits spell.
pub fn number(digits: &[u8]) -> Option<u32> {
    digits.iter().try_fold(0, |sum, digit| {
        let value = digit.wrapping_sub(b'0');
        (value < 10).then(|| 10 * sum + u32::from(value))
    })
}
