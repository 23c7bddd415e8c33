//! Calls on a book as values.

use std::fmt;

use crate::replay::{Answer, Calls};

/// A call on a book.
#[derive(Clone, Copy, Debug)]
pub enum Call<'a> {
    Open,
    Take(usize, usize),
    Purge(usize, usize),
    Count(usize, usize),
    Place(usize, usize, usize),
    Add(usize, usize, usize),
    Remove(usize, usize, usize),
    SetPurge(usize, usize, [usize; 3]),
    Commit(usize),
    Drop(usize),
    Undo,
    Write(usize),
    WriteEdited(Text<'a>),
}

/// A text, shown as it can be typed in again.
#[derive(Clone, Copy)]
pub struct Text<'a>(pub &'a [u8]);

impl fmt::Debug for Text<'_> {
    fn fmt(&self, f: &mut fmt::Formatter<'_>) -> fmt::Result {
        write!(f, "b\"{}\"", self.0.escape_ascii())
    }
}

/// What a call answered, made alike for all calls.
pub type Told = Answer<(usize, usize)>;

impl Call<'_> {
    /// Makes the call; `output` is lent to what writes.
    pub fn on(self, calls: &impl Calls, book: &mut [u8], output: &mut [u8]) -> Told {
        let one = |value: usize| (value, 0);
        match self {
            Call::Open => calls.open(book).map(one),
            Call::Take(d, s) => calls.take(book, d, s).map(|()| (0, 0)),
            Call::Purge(d, s) => calls.read_purge(book, d, s).map(|v| one(v as usize)),
            Call::Count(d, s) => calls.read_count(book, d, s).map(one),
            Call::Place(d, s, i) => calls.read_place(book, d, s, i).map(|v| one(v as usize)),
            Call::Add(d, s, p) => calls.add(book, d, s, p).map(|v| one(v.into())),
            Call::Remove(d, s, p) => calls.remove(book, d, s, p).map(|v| one(v.into())),
            Call::SetPurge(d, s, time) => {
                let purge = calls.set_purge(book, d, s, time);
                purge.map(|v| one(v as usize))
            }
            Call::Commit(d) => calls.commit(book, d).map(segments),
            Call::Drop(d) => calls.drop(book, d).map(|()| (0, 0)),
            Call::Undo => calls.undo(book).map(segments),
            Call::Write(s) => calls.write(book, s, output).map(one),
            Call::WriteEdited(Text(text)) => calls.write_edited(text, book, output).map(one),
        }
    }

    /// One of each call, right for a book whose draft 1 has taken segment 1;
    /// the last is right for a book of its own text.
    pub const EACH: [Call<'static>; 13] = [
        Call::Open,
        Call::Take(1, 2),
        Call::Purge(1, 1),
        Call::Count(1, 1),
        Call::Place(1, 1, 0),
        Call::Add(1, 1, 0),
        Call::Remove(1, 1, 0),
        Call::SetPurge(1, 1, [15, 12, 0]),
        Call::Commit(1),
        Call::Drop(1),
        Call::Undo,
        Call::Write(1),
        Call::WriteEdited(Text(b"FPUS51 KXYZ 150822\nZFPXYZ\nMDC001-242100-\n$$\n")),
    ];
}

fn segments([first, second]: [u8; 2]) -> (usize, usize) {
    (first.into(), second.into())
}
