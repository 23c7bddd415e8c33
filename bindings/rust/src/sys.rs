//! The core's C interface, as include/hollgrimsa.h declares it.
//!
//! A lent text, book or output is a pointer, not null even where the length
//! is 0, and its length. No call keeps a pointer, allocates or stops the
//! program; two lent buffers of one call do not overlap.

extern "C" {
    // The reader.
    pub fn hollgrimsa_issue(text: *const u8, length: usize, year: u64, month: u64) -> u64;
    pub fn hollgrimsa_segments(text: *const u8, length: usize, year: u64, month: u64) -> u64;
    pub fn hollgrimsa_bbb(text: *const u8, length: usize, year: u64, month: u64) -> u64;
    pub fn hollgrimsa_identifier(text: *const u8, length: usize, year: u64, month: u64) -> u64;
    pub fn hollgrimsa_storm(text: *const u8, length: usize, year: u64, month: u64) -> u64;
    pub fn hollgrimsa_view(text: *const u8, length: usize, year: u64, month: u64, n: u64) -> u64;
    pub fn hollgrimsa_block_end(
        text: *const u8,
        length: usize,
        year: u64,
        month: u64,
        n: u64,
    ) -> u64;
    pub fn hollgrimsa_purge(text: *const u8, length: usize, year: u64, month: u64, n: u64) -> u64;
    pub fn hollgrimsa_count(text: *const u8, length: usize, year: u64, month: u64, n: u64) -> u64;
    pub fn hollgrimsa_place(
        text: *const u8,
        length: usize,
        year: u64,
        month: u64,
        n: u64,
        index: u64,
    ) -> u64;

    // The writer.
    pub fn hollgrimsa_write_block(
        out: *mut u8,
        out_length: usize,
        places: *const u32,
        places_length: usize,
        purge: u64,
    ) -> u64;

    // The book.
    pub fn hollgrimsa_make(
        book: *mut u8,
        length: usize,
        text: *const u8,
        text_length: usize,
        year: u64,
        month: u64,
    ) -> u64;
    pub fn hollgrimsa_open(book: *mut u8, length: usize) -> u64;
    pub fn hollgrimsa_take(book: *mut u8, length: usize, draft: u64, segment: u64) -> u64;
    pub fn hollgrimsa_read_purge(book: *const u8, length: usize, draft: u64, segment: u64) -> u64;
    pub fn hollgrimsa_read_count(book: *const u8, length: usize, draft: u64, segment: u64) -> u64;
    pub fn hollgrimsa_read_place(
        book: *const u8,
        length: usize,
        draft: u64,
        segment: u64,
        index: u64,
    ) -> u64;
    pub fn hollgrimsa_add(
        book: *mut u8,
        length: usize,
        draft: u64,
        segment: u64,
        place: u64,
    ) -> u64;
    pub fn hollgrimsa_remove(
        book: *mut u8,
        length: usize,
        draft: u64,
        segment: u64,
        place: u64,
    ) -> u64;
    pub fn hollgrimsa_set_purge(
        book: *mut u8,
        length: usize,
        draft: u64,
        segment: u64,
        day: u64,
        hour: u64,
        minute: u64,
    ) -> u64;
    pub fn hollgrimsa_commit(book: *mut u8, length: usize, draft: u64) -> u64;
    pub fn hollgrimsa_drop(book: *mut u8, length: usize, draft: u64) -> u64;
    pub fn hollgrimsa_undo(book: *mut u8, length: usize) -> u64;
    pub fn hollgrimsa_write(
        book: *const u8,
        length: usize,
        segment: u64,
        out: *mut u8,
        out_length: usize,
    ) -> u64;
    pub fn hollgrimsa_write_edited(
        text: *const u8,
        text_length: usize,
        book: *const u8,
        book_length: usize,
        out: *mut u8,
        out_length: usize,
    ) -> u64;
}
