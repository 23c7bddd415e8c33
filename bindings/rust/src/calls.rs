//! The core's calls one by one, over lent slices.
//!
//! [`Book`](crate::Book), [`Draft`](crate::Draft) and
//! [`Bulletin`](crate::Bulletin) stand on these. Use them where a book lies in
//! memory of the caller's own, a mapped file for instance. They are safe
//! whatever is handed in: a slice brings its own length, a wrong one is
//! refused, and a refused call changes no lent byte. Numbers are never cut:
//! draft 4,294,967,297 is not draft 1.
//!
//! The refusals of a call are named in the order in which they are asked.
//!
//! ```
//! use hollgrimsa::{calls, Reason, BOOK_LENGTH};
//!
//! let mut book = vec![0xAA; BOOK_LENGTH - 1];
//! let refusal = calls::open(&mut book).unwrap_err();
//! assert_eq!(refusal.reason, Reason::WrongLength);
//! assert!(book.iter().all(|&byte| byte == 0xAA));
//! ```

// SAFETY, for every call here: pointer and length are those of one slice,
// which is borrowed for the call's time (mutably where it is written), and a
// slice's pointer is never null. The core reads and writes within the lengths
// and keeps nothing.

use std::ops::Range;

use crate::{answer, sys, Changed, Refusal, Storm};

/// The issue of a bulletin: a minute, counted from 1970-01-01 0000 UTC.
///
/// Refusals of the reader: 1 (text); 5 (year, month); 2; 3; 4; 5 (issue day);
/// 10; 6 (line 3) or 7; then segment by segment 9, 6, 25, 5, 11, 8.
pub fn issue(text: &[u8], year: u64, month: u64) -> Result<u32, Refusal> {
    answer::narrow(unsafe { sys::hollgrimsa_issue(text.as_ptr(), text.len(), year, month) })
}

/// How many segments a bulletin has, 1 to 8. Refusals: the reader's, see
/// [`issue`].
pub fn segments(text: &[u8], year: u64, month: u64) -> Result<u64, Refusal> {
    answer::value(unsafe { sys::hollgrimsa_segments(text.as_ptr(), text.len(), year, month) })
}

/// The heading's BBB, if it has one. Refusals: the reader's.
pub fn bbb(text: &[u8], year: u64, month: u64) -> Result<Option<[u8; 3]>, Refusal> {
    answer::bbb(unsafe { sys::hollgrimsa_bbb(text.as_ptr(), text.len(), year, month) })
}

/// Where the identifier, line 2, starts. Refusals: the reader's.
pub fn identifier(text: &[u8], year: u64, month: u64) -> Result<usize, Refusal> {
    answer::length(unsafe { sys::hollgrimsa_identifier(text.as_ptr(), text.len(), year, month) })
}

/// The storm, if the office line names one. Refusals: the reader's.
pub fn storm(text: &[u8], year: u64, month: u64) -> Result<Option<Storm>, Refusal> {
    answer::storm(unsafe { sys::hollgrimsa_storm(text.as_ptr(), text.len(), year, month) })
}

/// The part of the text that is segment `n`, counted from 1, up to and with
/// its `$$` line. Refusals: the reader's; 15.
pub fn view(text: &[u8], year: u64, month: u64, n: u64) -> Result<Range<usize>, Refusal> {
    answer::part(unsafe { sys::hollgrimsa_view(text.as_ptr(), text.len(), year, month, n) })
}

/// The place after the last line of segment `n`'s block. Refusals: the
/// reader's; 15.
pub fn block_end(text: &[u8], year: u64, month: u64, n: u64) -> Result<usize, Refusal> {
    answer::length(unsafe { sys::hollgrimsa_block_end(text.as_ptr(), text.len(), year, month, n) })
}

/// The purge minute of segment `n`. Refusals: the reader's; 15.
pub fn purge(text: &[u8], year: u64, month: u64, n: u64) -> Result<u32, Refusal> {
    answer::narrow(unsafe { sys::hollgrimsa_purge(text.as_ptr(), text.len(), year, month, n) })
}

/// How many places segment `n` has, 1 to 120. Refusals: the reader's; 15.
pub fn count(text: &[u8], year: u64, month: u64, n: u64) -> Result<u64, Refusal> {
    answer::value(unsafe { sys::hollgrimsa_count(text.as_ptr(), text.len(), year, month, n) })
}

/// The place of segment `n` at an index from 0, ascending. Refusals: the
/// reader's; 15; 24 (index).
pub fn place(text: &[u8], year: u64, month: u64, n: u64, index: u64) -> Result<u32, Refusal> {
    answer::narrow(unsafe {
        sys::hollgrimsa_place(text.as_ptr(), text.len(), year, month, n, index)
    })
}

/// Writes the block of these places and this purge minute, each of its lines
/// ended with CR CR LF, to the front of the output; answers its length. Later
/// bytes stay.
///
/// The places are 1 to 120, strictly ascending. Refusals: 24 (places or
/// minute); 23. No block is longer than [`BLOCK_MOST`](crate::BLOCK_MOST).
///
/// ```
/// let mut out = [0; hollgrimsa::BLOCK_MOST];
/// let places = [630_003, 630_005, 630_006, 630_007, 1_093_053];
/// let length = hollgrimsa::write_block(&mut out, &places, 16_994_700)?;
/// assert_eq!(&out[..length], b"MDC003-005>007-VAZ053-242100-\r\r\n");
/// # Ok::<(), hollgrimsa::Refusal>(())
/// ```
pub fn write_block(out: &mut [u8], places: &[u32], purge: u64) -> Result<usize, Refusal> {
    answer::length(unsafe {
        sys::hollgrimsa_write_block(
            out.as_mut_ptr(),
            out.len(),
            places.as_ptr(),
            places.len(),
            purge,
        )
    })
}

/// Makes a book of a bulletin, with no drafts and no steps; what the book's
/// bytes were does not matter. Refusals: 1 (book); the reader's.
pub fn make(book: &mut [u8], text: &[u8], year: u64, month: u64) -> Result<(), Refusal> {
    answer::done(unsafe {
        sys::hollgrimsa_make(
            book.as_mut_ptr(),
            book.len(),
            text.as_ptr(),
            text.len(),
            year,
            month,
        )
    })
}

/// Opens the lowest closed draft; answers its number, 1 to 4. Refusals: 1; 12;
/// 14.
pub fn open(book: &mut [u8]) -> Result<u64, Refusal> {
    answer::value(unsafe { sys::hollgrimsa_open(book.as_mut_ptr(), book.len()) })
}

/// Copies a segment into an open draft. Refusals: 1; 12; 13; 15; 17; 18.
pub fn take(book: &mut [u8], draft: u64, segment: u64) -> Result<(), Refusal> {
    answer::done(unsafe { sys::hollgrimsa_take(book.as_mut_ptr(), book.len(), draft, segment) })
}

/// The purge minute of a draft's copy. Refusals: 1; 12; 13; 15; 16.
pub fn read_purge(book: &[u8], draft: u64, segment: u64) -> Result<u32, Refusal> {
    answer::narrow(unsafe { sys::hollgrimsa_read_purge(book.as_ptr(), book.len(), draft, segment) })
}

/// How many places a draft's copy has. Refusals: 1; 12; 13; 15; 16.
pub fn read_count(book: &[u8], draft: u64, segment: u64) -> Result<u64, Refusal> {
    answer::value(unsafe { sys::hollgrimsa_read_count(book.as_ptr(), book.len(), draft, segment) })
}

/// The place of a draft's copy at an index from 0. Refusals: 1; 12; 13; 15;
/// 16; 24 (index).
pub fn read_place(book: &[u8], draft: u64, segment: u64, index: u64) -> Result<u32, Refusal> {
    answer::narrow(unsafe {
        sys::hollgrimsa_read_place(book.as_ptr(), book.len(), draft, segment, index)
    })
}

/// Adds a place to a draft's copy; answers whether it was there. Refusals: 1;
/// 12; 13; 24 (place); 15; 16; 19.
pub fn add(book: &mut [u8], draft: u64, segment: u64, place: u64) -> Result<bool, Refusal> {
    answer::was_there(unsafe {
        sys::hollgrimsa_add(book.as_mut_ptr(), book.len(), draft, segment, place)
    })
}

/// Removes a place from a draft's copy; answers whether it was there.
/// Refusals: 1; 12; 13; 24 (place); 15; 16; 20.
pub fn remove(book: &mut [u8], draft: u64, segment: u64, place: u64) -> Result<bool, Refusal> {
    answer::was_there(unsafe {
        sys::hollgrimsa_remove(book.as_mut_ptr(), book.len(), draft, segment, place)
    })
}

/// Gives a draft's copy the purge minute that this day, hour and minute give
/// under the book's issue; answers it. It may be up to 1,440 minutes before the
/// issue. Refusals: 1; 12; 13; 24 (time); 15; 16; 5.
pub fn set_purge(
    book: &mut [u8],
    draft: u64,
    segment: u64,
    [day, hour, minute]: [u64; 3],
) -> Result<u32, Refusal> {
    answer::narrow(unsafe {
        sys::hollgrimsa_set_purge(
            book.as_mut_ptr(),
            book.len(),
            draft,
            segment,
            day,
            hour,
            minute,
        )
    })
}

/// Stores a draft's changed segments as a new step and closes it; answers
/// those segments. Other drafts that took one of them turn stale. Refusals: 1;
/// 12; 13; 21.
pub fn commit(book: &mut [u8], draft: u64) -> Result<Changed, Refusal> {
    answer::changed(unsafe { sys::hollgrimsa_commit(book.as_mut_ptr(), book.len(), draft) })
}

/// Closes a draft; its copies are lost. Refusals: 1; 12; 13.
pub fn drop(book: &mut [u8], draft: u64) -> Result<(), Refusal> {
    answer::done(unsafe { sys::hollgrimsa_drop(book.as_mut_ptr(), book.len(), draft) })
}

/// Puts back what the newest step replaced; answers its segments. Drafts that
/// took one of them turn stale. Refusals: 1; 12; 22.
pub fn undo(book: &mut [u8]) -> Result<Changed, Refusal> {
    answer::changed(unsafe { sys::hollgrimsa_undo(book.as_mut_ptr(), book.len()) })
}

/// Writes the block of a segment of the book, each of its lines ended with
/// CR CR LF, to the front of the output; answers its length. Later bytes stay.
/// Refusals: 1; 12; 15; 23.
pub fn write(book: &[u8], segment: u64, out: &mut [u8]) -> Result<usize, Refusal> {
    answer::length(unsafe {
        sys::hollgrimsa_write(
            book.as_ptr(),
            book.len(),
            segment,
            out.as_mut_ptr(),
            out.len(),
        )
    })
}

/// Writes the edited bulletin to the front of the output; answers its length.
/// Later bytes stay.
///
/// That is the text with each segment's block, line ends with it, replaced by
/// the block that [`write`] writes of that segment of the book, but with each
/// of its lines ended as the first line of the replaced block: LF, CR LF or
/// CR CR LF. Every other byte is kept. The text is read under the year and
/// month of the book's issue, and belongs to the book if its issue and its
/// number of segments are the book's. Refusals: 1 (text or book); 12; the
/// reader's, see [`issue`]; 27; 23. No edited bulletin is longer than
/// [`EDITED_MOST`](crate::EDITED_MOST).
///
/// ```
/// use hollgrimsa::{calls, BOOK_LENGTH, EDITED_MOST};
///
/// let text = b"FPUS51 KXYZ 240822\nZFPXYZ\nMDC005-003-242100-\nTEXT\n$$\n";
/// let (mut book, mut out) = ([0; BOOK_LENGTH], [0; EDITED_MOST]);
/// calls::make(&mut book, text, 2002, 4)?;
/// let length = calls::write_edited(text, &book, &mut out)?;
/// assert!(out[..length].ends_with(b"ZFPXYZ\nMDC003-005-242100-\nTEXT\n$$\n"));
/// # Ok::<(), hollgrimsa::Refusal>(())
/// ```
pub fn write_edited(text: &[u8], book: &[u8], out: &mut [u8]) -> Result<usize, Refusal> {
    answer::length(unsafe {
        sys::hollgrimsa_write_edited(
            text.as_ptr(),
            text.len(),
            book.as_ptr(),
            book.len(),
            out.as_mut_ptr(),
            out.len(),
        )
    })
}
