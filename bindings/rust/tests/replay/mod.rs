//! The replay program's interpreter, over any set of calls.
//!
//! Its input is one or more cases: a line `YYYY MM`, a line `NNNNN`, a
//! bulletin of NNNNN bytes, and call lines up to a line that is `.`; a line
//! `% n` has n bytes of another text behind it.
//!
//! Each test program uses its own part of this module.
#![allow(dead_code)]

mod line;

use line::Line;

const MAX_INPUT: usize = 1_048_576;
const BUFFER: usize = 30_000;
const BOOK: usize = 25_088;
const BLOCK: usize = 512;
const MAX_OUTPUT: usize = 2_000;
const MAX_EDITED: usize = 20_000;
const MAX_TEXT: usize = 99_999;

/// What a call answers: its value, or a refusal's number and place.
pub type Answer<T> = Result<T, (usize, usize)>;

/// The calls that a replay makes. Numbers handed in are as wide as the line
/// gave them; segments answered are ascending, with 0 for none.
pub trait Calls {
    fn make(&self, text: &[u8], year: usize, month: usize, book: &mut [u8]) -> Answer<()>;
    /// Start and length of the part of the text.
    fn view(&self, text: &[u8], year: usize, month: usize, number: usize)
        -> Answer<(usize, usize)>;
    fn listing(&self, text: &[u8], year: usize, month: usize) -> String;
    fn open(&self, book: &mut [u8]) -> Answer<usize>;
    fn take(&self, book: &mut [u8], draft: usize, segment: usize) -> Answer<()>;
    fn read_purge(&self, book: &[u8], draft: usize, segment: usize) -> Answer<u32>;
    fn read_count(&self, book: &[u8], draft: usize, segment: usize) -> Answer<usize>;
    fn read_place(&self, book: &[u8], draft: usize, segment: usize, index: usize) -> Answer<u32>;
    fn add(&self, book: &mut [u8], draft: usize, segment: usize, place: usize) -> Answer<bool>;
    fn remove(&self, book: &mut [u8], draft: usize, segment: usize, place: usize) -> Answer<bool>;
    /// The time is DD, HH, MM.
    fn set_purge(
        &self,
        book: &mut [u8],
        draft: usize,
        segment: usize,
        time: [usize; 3],
    ) -> Answer<u32>;
    fn commit(&self, book: &mut [u8], draft: usize) -> Answer<[u8; 2]>;
    fn drop(&self, book: &mut [u8], draft: usize) -> Answer<()>;
    fn undo(&self, book: &mut [u8]) -> Answer<[u8; 2]>;
    fn write(&self, book: &[u8], segment: usize, output: &mut [u8]) -> Answer<usize>;
    fn write_edited(&self, text: &[u8], book: &[u8], output: &mut [u8]) -> Answer<usize>;
}

/// What the replay program prints for this input.
pub fn replay(calls: &impl Calls, input: &[u8]) -> String {
    if input.len() > MAX_INPUT {
        return "R 1 0\n".to_string();
    }
    let mut out = String::new();
    let mut rest = input;
    loop {
        let Some((case, lines)) = Case::parse(calls, rest) else {
            out.push_str("R 24 0\n");
            return out;
        };
        match case.run(lines, &mut out) {
            Some(next) if !next.is_empty() => rest = next,
            _ => return out,
        }
    }
}

/// One case as it runs.
struct Case<'a, C> {
    calls: &'a C,
    year: usize,
    month: usize,
    text: &'a [u8],
    buffer: Vec<u8>,
    /// The number of bytes lent as the book.
    lent: usize,
}

impl<'a, C: Calls> Case<'a, C> {
    /// Reads a case's two first lines and its bulletin; answers what follows.
    fn parse(calls: &'a C, input: &'a [u8]) -> Option<(Self, &'a [u8])> {
        let (lent, rest) = input.split_first_chunk::<8>()?;
        let [y1, y2, y3, y4, b' ', m1, m2, b'\n'] = lent else {
            return None;
        };
        let (length, rest) = rest.split_first_chunk::<6>()?;
        let [digits @ .., b'\n'] = length else {
            return None;
        };
        let (text, lines) = rest.split_at_checked(line::digits(digits)?)?;
        let case = Case {
            calls,
            year: line::digits(&[*y1, *y2, *y3, *y4])?,
            month: line::digits(&[*m1, *m2])?,
            text,
            buffer: vec![0xAA; BUFFER],
            lent: BOOK,
        };
        Some((case, lines))
    }

    /// Makes the book and runs the call lines; answers what follows a `.`.
    fn run(mut self, mut input: &'a [u8], out: &mut String) -> Option<&'a [u8]> {
        let made = self.make();
        push_line(out, made);
        while let Some(end) = input.iter().position(|&b| b == b'\n') {
            let line = &input[..end];
            input = &input[end + 1..];
            if line == b"." {
                return Some(input);
            }
            if let Some(length) = line::text_length(line) {
                let taken = input.split_at_checked(length);
                out.push_str(taken.map_or("?\n", |_| "!\n"));
                // Where fewer bytes follow, the program ends.
                (self.text, input) = taken?;
                continue;
            }
            match Line::parse(line).filter(Line::is_in_range) {
                Some(line) => push_line(out, self.perform(line)),
                None => out.push_str("?\n"),
            }
        }
        if !input.is_empty() {
            out.push_str("?\n");
        }
        None
    }

    fn make(&mut self) -> Answer<String> {
        let book = &mut self.buffer[..self.lent];
        self.calls
            .make(self.text, self.year, self.month, book)
            .map(accepted)
    }

    /// Performs one line; answers what it prints, without the last line end.
    fn perform(&mut self, line: Line) -> Answer<String> {
        let Case {
            calls,
            year,
            month,
            text,
            ..
        } = *self;
        let book = &mut self.buffer[..self.lent];
        match line {
            Line::Open => calls.open(book).map(|draft| format!("D {draft}")),
            Line::Take(d, s) => calls.take(book, d, s).map(accepted),
            Line::Purge(d, s) => calls.read_purge(book, d, s).map(value),
            Line::Count(d, s) => calls.read_count(book, d, s).map(value),
            Line::Place(d, s, i) => calls.read_place(book, d, s, i).map(value),
            Line::Add(d, s, p) => calls.add(book, d, s, p).map(u8::from).map(value),
            Line::Remove(d, s, p) => calls.remove(book, d, s, p).map(u8::from).map(value),
            Line::SetPurge(d, s, time) => calls.set_purge(book, d, s, time).map(value),
            Line::Commit(d) => calls.commit(book, d).map(segments),
            Line::Drop(d) => calls.drop(book, d).map(accepted),
            Line::Undo => calls.undo(book).map(segments),
            Line::Write(s, n) => {
                let mut output = vec![0x5A; n];
                let length = calls.write(book, s, &mut output)?;
                Ok(format!("W {length} {}", hex(&output)))
            }
            Line::Edited(n) => {
                let mut output = vec![0x5A; n];
                let length = calls.write_edited(text, book, &mut output)?;
                Ok(format!("F {length} {}", sum(&output)))
            }
            Line::View(n) => {
                let (start, length) = calls.view(text, year, month, n)?;
                Ok(format!("G {start} {length}"))
            }
            Line::Listing => {
                let mut listing = calls.listing(text, year, month);
                // The last line's end is put back with every other line's.
                assert_eq!(listing.pop(), Some('\n'));
                Ok(listing)
            }
            Line::Make => self.make(),
            Line::Block(i) => Ok(format!("B {}", hex(&self.buffer[i * BLOCK..][..BLOCK]))),
            Line::Put(offset, byte) => {
                self.buffer[offset] = byte as u8;
                Ok("!".to_string())
            }
            Line::Lend(n) => {
                self.lent = n;
                Ok("!".to_string())
            }
            Line::Sum => Ok(format!("Z {}", sum(&self.buffer))),
        }
    }
}

fn accepted(_: ()) -> String {
    "K".to_string()
}

fn value(value: impl std::fmt::Display) -> String {
    format!("V {value}")
}

fn segments(segments: [u8; 2]) -> String {
    let named = segments.iter().filter(|&&segment| segment != 0);
    std::iter::once("S".to_string())
        .chain(named.map(|s| format!(" {s}")))
        .collect()
}

fn push_line(out: &mut String, answer: Answer<String>) {
    match answer {
        Ok(line) => out.push_str(&line),
        Err((number, place)) => out.push_str(&format!("R {number} {place}")),
    }
    out.push('\n');
}

fn hex(bytes: &[u8]) -> String {
    bytes.iter().map(|byte| format!("{byte:02x}")).collect()
}

/// The sum that the lines `Z` and `F` print.
fn sum(bytes: &[u8]) -> u64 {
    let weighted: u64 = (1..).zip(bytes).map(|(i, &b)| i * u64::from(b)).sum();
    (1 + weighted) % 4_294_967_291
}
