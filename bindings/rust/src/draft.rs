//! Drafts.

use crate::places::Source;
use crate::{calls, Book, Changed, Places, Refusal};

/// An open draft: copies of up to two segments, to work on.
///
/// It holds its book only for a while: let go of the `Draft` and the draft
/// stays open; [`Book::draft`] finds it again by its number. Segments are
/// counted from 1.
///
/// ```
/// use hollgrimsa::{Book, Reason};
///
/// let text = b"FPUS51 KXYZ 240822\nZFPXYZ\nMDC003-005>007-242100-\nTEXT\n$$\n";
/// let mut book = Book::make(text, 2002, 4)?;
/// let mut draft = book.open()?;
/// assert_eq!(draft.purge(1).unwrap_err().reason, Reason::NotTaken);
///
/// draft.take(1)?;
/// assert_eq!(draft.purge(1)?, 16_994_700);
/// assert_eq!(draft.count(1)?, 4);
/// assert_eq!(draft.place(1, 0)?, 630_003);
/// assert!(draft.places(1)?.eq([630_003, 630_005, 630_006, 630_007]));
///
/// assert!(draft.remove(1, 630_003)?);
/// assert_eq!(draft.set_purge(1, 25, 6, 0)?, 16_995_240);
/// draft.commit()?;
/// assert_eq!(book.written(1)?, "MDC005>007-250600-\r\r\n");
/// # Ok::<(), hollgrimsa::Refusal>(())
/// ```
#[derive(Debug)]
pub struct Draft<'a> {
    book: &'a mut Book,
    number: u64,
}

impl<'a> Draft<'a> {
    pub(crate) fn of(book: &'a mut Book, number: u64) -> Self {
        Draft { book, number }
    }

    /// Its number, 1 to 4.
    pub fn number(&self) -> u64 {
        self.number
    }

    /// The book it belongs to.
    pub fn book(&self) -> &Book {
        self.book
    }

    /// Copies a segment into the draft.
    ///
    /// # Errors
    /// 15 where there is no such segment; 17 where it is taken already; 18
    /// where two others are.
    pub fn take(&mut self, segment: u64) -> Result<(), Refusal> {
        calls::take(self.book.as_bytes_mut(), self.number, segment)
    }

    /// The purge minute of the copy of a segment.
    ///
    /// # Errors
    /// 15 where there is no such segment; 16 where it is not taken.
    pub fn purge(&self, segment: u64) -> Result<u32, Refusal> {
        calls::read_purge(self.book.as_bytes(), self.number, segment)
    }

    /// How many places the copy of a segment has, 1 to 120.
    ///
    /// # Errors
    /// 15 where there is no such segment; 16 where it is not taken.
    pub fn count(&self, segment: u64) -> Result<u64, Refusal> {
        calls::read_count(self.book.as_bytes(), self.number, segment)
    }

    /// The place of the copy of a segment at an index from 0.
    ///
    /// # Errors
    /// 15 where there is no such segment; 16 where it is not taken; 24 where
    /// the index is not below the count.
    pub fn place(&self, segment: u64, index: u64) -> Result<u32, Refusal> {
        calls::read_place(self.book.as_bytes(), self.number, segment, index)
    }

    /// The places of the copy of a segment, ascending.
    ///
    /// # Errors
    /// 15 where there is no such segment; 16 where it is not taken.
    pub fn places(&self, segment: u64) -> Result<Places<'_>, Refusal> {
        let count = self.count(segment)?;
        let source = Source::Copy {
            book: self.book.as_bytes(),
            draft: self.number,
            segment,
        };
        Ok(Places::of(source, count))
    }

    /// Adds a place to the copy of a segment; answers whether it was there.
    ///
    /// # Errors
    /// 24 where there is no such place; 15 where there is no such segment; 16
    /// where it is not taken; 19 where the copy has 120 others.
    pub fn add(&mut self, segment: u64, place: u32) -> Result<bool, Refusal> {
        let book = self.book.as_bytes_mut();
        calls::add(book, self.number, segment, place.into())
    }

    /// Removes a place from the copy of a segment; answers whether it was
    /// there.
    ///
    /// # Errors
    /// 24 where there is no such place; 15 where there is no such segment; 16
    /// where it is not taken; 20 where the copy has no other.
    pub fn remove(&mut self, segment: u64, place: u32) -> Result<bool, Refusal> {
        let book = self.book.as_bytes_mut();
        calls::remove(book, self.number, segment, place.into())
    }

    /// Gives the copy of a segment the purge minute of this day, hour and
    /// minute under the book's issue; answers it. It may be up to 1,440
    /// minutes before the issue, as that of a bulletin which went out late.
    ///
    /// # Errors
    /// 24 where one of them is out of range; 15 where there is no such
    /// segment; 16 where it is not taken; 5 where they give no minute.
    pub fn set_purge(
        &mut self,
        segment: u64,
        day: u64,
        hour: u64,
        minute: u64,
    ) -> Result<u32, Refusal> {
        let time = [day, hour, minute];
        calls::set_purge(self.book.as_bytes_mut(), self.number, segment, time)
    }

    /// Stores the segments whose copy differs as a new step, and closes the
    /// draft; answers those segments. Other drafts that took one of them turn
    /// stale.
    ///
    /// # Errors
    /// 21 where the draft is stale: it stays open until it is dropped.
    pub fn commit(self) -> Result<Changed, Refusal> {
        calls::commit(self.book.as_bytes_mut(), self.number)
    }

    /// Closes the draft; its copies are lost.
    pub fn drop(self) {
        let dropped = calls::drop(self.book.as_bytes_mut(), self.number);
        debug_assert_eq!(dropped, Ok(()), "an open draft of a sound book closes");
    }
}
