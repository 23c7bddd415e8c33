//! The book.

use std::fmt;

use crate::{calls, Changed, Draft, Reason, Refusal, BLOCK_MOST, BOOK_LENGTH, EDITED_MOST};

/// Where the book keeps its issue minute, segment count and step count.
const ISSUE: usize = 0;
const SEGMENTS: usize = 4;
const STEPS: usize = 24;

/// No book has this segment.
const NO_SEGMENT: u64 = 0;

/// A book: a bulletin's segments, up to four drafts of them, and the steps
/// that can be undone, in 25,088 bytes of its own.
///
/// A `Book` is sound: [`make`](Book::make) and [`from_bytes`](Book::from_bytes)
/// see to it, and every call keeps it so.
///
/// ```
/// use hollgrimsa::Book;
///
/// let text = b"FPUS51 KXYZ 240822\nZFPXYZ\nMDC003-242100-\nTEXT\n$$\n";
/// let mut book = Book::make(text, 2002, 4)?;
///
/// let mut draft = book.open()?;
/// draft.take(1)?;
/// assert!(!draft.add(1, 630_005)?);
/// assert_eq!(draft.commit()?.as_slice(), [1]);
/// assert_eq!(book.written(1)?, "MDC003-005-242100-\r\r\n");
///
/// assert_eq!(book.undo()?.as_slice(), [1]);
/// assert_eq!(book.written(1)?, "MDC003-242100-\r\r\n");
/// # Ok::<(), hollgrimsa::Refusal>(())
/// ```
#[derive(Clone, PartialEq, Eq)]
pub struct Book {
    bytes: Box<[u8; BOOK_LENGTH]>,
}

impl Book {
    /// Makes a book of a bulletin under the year and month of its issue, with
    /// no drafts and no steps.
    ///
    /// # Errors
    /// The reader's refusals, 1 to 11 and 25: see [`calls::issue`].
    pub fn make(text: &[u8], year: u64, month: u64) -> Result<Self, Refusal> {
        let mut bytes = Box::new([0; BOOK_LENGTH]);
        calls::make(&mut *bytes, text, year, month)?;
        Ok(Book { bytes })
    }

    /// A book out of bytes that were kept.
    ///
    /// # Errors
    /// 1 where there are not 25,088 of them; 12 where they are no sound book.
    ///
    /// ```
    /// use hollgrimsa::{Book, Reason};
    ///
    /// let book = Book::make(b"FPUS51 KXYZ 240822\nZFPXYZ\nMDC003-242100-\n$$\n", 2002, 4)?;
    /// let mut kept = book.as_bytes().to_vec();
    /// assert_eq!(Book::from_bytes(&kept)?, book);
    /// kept[4] = 2;
    /// assert_eq!(Book::from_bytes(&kept).unwrap_err().reason, Reason::NotSound);
    /// # Ok::<(), hollgrimsa::Refusal>(())
    /// ```
    pub fn from_bytes(bytes: &[u8]) -> Result<Self, Refusal> {
        unless_refused_earlier(calls::write(bytes, NO_SEGMENT, &mut []))?;
        let mut own = Box::new([0; BOOK_LENGTH]);
        own.copy_from_slice(bytes);
        Ok(Book { bytes: own })
    }

    /// Its bytes, to be kept.
    pub fn as_bytes(&self) -> &[u8; BOOK_LENGTH] {
        &self.bytes
    }

    pub(crate) fn as_bytes_mut(&mut self) -> &mut [u8; BOOK_LENGTH] {
        &mut self.bytes
    }

    /// The issue: a minute, counted from 1970-01-01 0000 UTC.
    pub fn issue(&self) -> u32 {
        let [a, b, c, d] = [0, 1, 2, 3].map(|i| self.bytes[ISSUE + i]);
        u32::from_le_bytes([a, b, c, d])
    }

    /// How many segments it has, 1 to 8.
    pub fn segment_count(&self) -> u64 {
        u64::from(self.bytes[SEGMENTS])
    }

    /// How many steps can be undone, 0 to 16.
    pub fn step_count(&self) -> u64 {
        u64::from(self.bytes[STEPS])
    }

    /// Opens the lowest closed draft.
    ///
    /// # Errors
    /// 14 where all four are open.
    pub fn open(&mut self) -> Result<Draft<'_>, Refusal> {
        let number = calls::open(self.as_bytes_mut())?;
        Ok(Draft::of(self, number))
    }

    /// The open draft with this number, 1 to 4.
    ///
    /// # Errors
    /// 13 where it is not open.
    ///
    /// ```
    /// use hollgrimsa::{Book, Reason};
    ///
    /// let text = b"FPUS51 KXYZ 240822\nZFPXYZ\nMDC003-242100-\n$$\n";
    /// let mut book = Book::make(text, 2002, 4)?;
    /// let first = book.open()?.number();
    /// let second = book.open()?.number();
    /// for number in [first, second] {
    ///     let mut draft = book.draft(number)?;
    ///     draft.take(1)?;
    ///     draft.add(1, 630_000 + number as u32)?;
    /// }
    /// book.draft(second)?.commit()?;
    /// let refusal = book.draft(first)?.commit().unwrap_err();
    /// assert_eq!(refusal.reason, Reason::StaleDraft);
    /// assert_eq!(book.draft(3).unwrap_err().reason, Reason::NoDraft);
    /// # Ok::<(), hollgrimsa::Refusal>(())
    /// ```
    pub fn draft(&mut self, number: u64) -> Result<Draft<'_>, Refusal> {
        let asked = calls::read_count(self.as_bytes(), number, NO_SEGMENT);
        unless_refused_earlier(asked)?;
        Ok(Draft::of(self, number))
    }

    /// Puts back what the newest step replaced; answers its segments. Drafts
    /// that took one of them turn stale.
    ///
    /// # Errors
    /// 22 where there is no step.
    pub fn undo(&mut self) -> Result<Changed, Refusal> {
        calls::undo(self.as_bytes_mut())
    }

    /// Writes a segment's block, each of its lines ended with CR CR LF, to the
    /// front of the output; answers its length. Later bytes stay.
    ///
    /// # Errors
    /// 15 where there is no such segment; 23 where the output is shorter than
    /// the block. [`BLOCK_MOST`] bytes are always enough.
    pub fn write(&self, segment: u64, out: &mut [u8]) -> Result<usize, Refusal> {
        calls::write(self.as_bytes(), segment, out)
    }

    /// A segment's block as a string, each of its lines ended with CR CR LF.
    ///
    /// # Errors
    /// 15 where there is no such segment.
    pub fn written(&self, segment: u64) -> Result<String, Refusal> {
        let mut out = [0; BLOCK_MOST];
        let length = self.write(segment, &mut out)?;
        Ok(out[..length].iter().copied().map(char::from).collect())
    }

    /// Writes the edited bulletin to the front of the output; answers its
    /// length. Later bytes stay.
    ///
    /// See [`edited`](Book::edited), which brings its own output.
    ///
    /// # Errors
    /// The reader's refusals, 1 to 11 and 25, of the text under the year and
    /// month of the book's issue; 27 where the text does not belong to the
    /// book; 23 where the output is shorter than the edited bulletin.
    /// [`EDITED_MOST`] bytes are always enough, and so are `text.len()` and
    /// [`BLOCK_MOST`] for each segment.
    pub fn write_edited(&self, text: &[u8], out: &mut [u8]) -> Result<usize, Refusal> {
        calls::write_edited(text, self.as_bytes(), out)
    }

    /// The edited bulletin of a text: the text with each segment's block, line
    /// ends with it, replaced by what [`written`](Book::written) gives of that
    /// segment, but with each of its lines ended as the first line of the
    /// replaced block: LF, CR LF or CR CR LF. Every other byte is kept.
    ///
    /// The text is the one that the book was made of, or another with its
    /// issue and as many segments. Every block is replaced, also where nobody
    /// edited it; drafts and steps do not show. The edited bulletin reads to
    /// what the book's segments hold, as long as it has not grown past
    /// [`TEXT_MOST`](crate::TEXT_MOST) bytes.
    ///
    /// # Errors
    /// The reader's refusals, 1 to 11 and 25, of the text under the year and
    /// month of the book's issue; 27 where the text does not belong to the
    /// book.
    ///
    /// ```
    /// use hollgrimsa::{Book, Reason};
    ///
    /// let text = b"FPUS51 KXYZ 240822\nZFPXYZ\nMDC003-242100-\nTEXT\n$$\n";
    /// let mut book = Book::make(text, 2002, 4)?;
    /// let mut draft = book.open()?;
    /// draft.take(1)?;
    /// draft.add(1, 630_005)?;
    /// draft.commit()?;
    ///
    /// let edited = book.edited(text)?;
    /// assert_eq!(edited, b"FPUS51 KXYZ 240822\nZFPXYZ\nMDC003-005-242100-\nTEXT\n$$\n");
    /// assert_eq!(Book::make(&edited, 2002, 4)?.written(1)?, book.written(1)?);
    ///
    /// let later = b"FPUS51 KXYZ 240823\nZFPXYZ\nMDC003-242100-\nTEXT\n$$\n";
    /// assert_eq!(book.edited(later).unwrap_err().reason, Reason::NotBelonging);
    /// # Ok::<(), hollgrimsa::Refusal>(())
    /// ```
    pub fn edited(&self, text: &[u8]) -> Result<Vec<u8>, Refusal> {
        let mut out = vec![0; EDITED_MOST];
        let length = self.write_edited(text, &mut out)?;
        out.truncate(length);
        Ok(out)
    }
}

impl fmt::Debug for Book {
    fn fmt(&self, f: &mut fmt::Formatter<'_>) -> fmt::Result {
        f.debug_struct("Book")
            .field("issue", &self.issue())
            .field("segments", &self.segment_count())
            .field("steps", &self.step_count())
            .finish_non_exhaustive()
    }
}

/// A call that names no segment is refused for that, unless something that is
/// asked before is wrong: the book's length or form, or the draft.
fn unless_refused_earlier<T>(answer: Result<T, Refusal>) -> Result<(), Refusal> {
    match answer {
        Err(refusal) if refusal.reason != Reason::NoSuchSegment => Err(refusal),
        _ => Ok(()),
    }
}
