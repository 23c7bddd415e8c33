/* hollgrimsa.h: the proved core of an editor for weather bulletins, from C and C++.
 *
 * Link with target/staticlib/libplugin.a, which bindings/build builds.
 *
 * A lent text, book or output is a pointer and a length in bytes; the pointer is not null, even where the length is 0. No
 * call keeps a pointer, allocates, or stops the program: whatever is handed in, it is answered. Two lent buffers of one
 * call do not overlap. Numbers are 64 bits wide and are never cut: 4294967297 is no draft 1.
 *
 * An answer is one number. Its low byte is 0 where the call was accepted, and the rest is the value; or it is the refusal's
 * number, and the rest is the place: an offset in the text, 0 where the refusal has none. A refused call changes no lent byte.
 *
 * The refusals of a call are written beside it in the order in which they are asked: the first that applies is answered.
 */
#ifndef HOLLGRIMSA_H
#define HOLLGRIMSA_H

#include <stddef.h>
#include <stdint.h>

#ifdef __cplusplus
extern "C" {
#endif

/* ---- sizes */
#define HOLLGRIMSA_BOOK_LENGTH 25088 /* bytes of a book, exactly */
#define HOLLGRIMSA_TEXT_MOST 16384   /* bytes of a bulletin, 1 up to this */
#define HOLLGRIMSA_BLOCK_MOST 2048   /* no written block is longer */
#define HOLLGRIMSA_EDITED_MOST 32768 /* no edited bulletin is longer: a text, and 8 blocks */
#define HOLLGRIMSA_SEGMENTS_MOST 8   /* segments of a bulletin, 1 up to this */
#define HOLLGRIMSA_PLACES_MOST 120   /* places of a segment, 1 up to this */
#define HOLLGRIMSA_PLACES_END 1352000 /* places are the numbers below this */
#define HOLLGRIMSA_DRAFTS 4          /* drafts are 1 up to this */
#define HOLLGRIMSA_TAKEN_MOST 2      /* segments that a draft can take */
#define HOLLGRIMSA_STEPS_MOST 16     /* steps that can be undone */
#define HOLLGRIMSA_YEAR_FIRST 1970   /* years of an issue */
#define HOLLGRIMSA_YEAR_LAST 2099

/* ---- refusals */
enum hollgrimsa_refusal {
    HOLLGRIMSA_ACCEPTED = 0,
    HOLLGRIMSA_WRONG_LENGTH = 1,      /* text or book length wrong */
    HOLLGRIMSA_WRONG_TEXT = 2,        /* byte, line length or last line end wrong: its place */
    HOLLGRIMSA_WRONG_HEADING = 3,     /* line 1 */
    HOLLGRIMSA_WRONG_IDENTIFIER = 4,  /* line 2: its start, or text length where there is no line 2 */
    HOLLGRIMSA_WRONG_TIME = 5,        /* year, month or issue day: 0; a block's purge that has no minute: its element's start; a purge handed in: 0 */
    HOLLGRIMSA_WRONG_BLOCK = 6,       /* block wrong: the first wrong element */
    HOLLGRIMSA_NO_SEGMENT = 7,        /* no segment: text length */
    HOLLGRIMSA_NO_END = 8,            /* a segment without its `$$`: its start */
    HOLLGRIMSA_NINTH_SEGMENT = 9,     /* a ninth segment: its start */
    HOLLGRIMSA_WRONG_STORM = 10,      /* storm identifier: its start */
    HOLLGRIMSA_TOO_MANY_PLACES = 11,  /* over 120 places: the block's start */
    HOLLGRIMSA_NOT_SOUND = 12,        /* the book is not sound */
    HOLLGRIMSA_NO_DRAFT = 13,         /* draft not 1..4, or not open */
    HOLLGRIMSA_ALL_OPEN = 14,         /* all four drafts are open */
    HOLLGRIMSA_NO_SUCH_SEGMENT = 15,  /* no such segment */
    HOLLGRIMSA_NOT_TAKEN = 16,        /* the draft has not taken the segment */
    HOLLGRIMSA_TAKEN_ALREADY = 17,    /* the draft has taken the segment already */
    HOLLGRIMSA_TWO_TAKEN = 18,        /* the draft has taken two segments */
    HOLLGRIMSA_SEGMENT_FULL = 19,     /* adding an absent place to 120 */
    HOLLGRIMSA_ONLY_PLACE = 20,       /* removing the only place */
    HOLLGRIMSA_STALE_DRAFT = 21,      /* commit of a stale draft */
    HOLLGRIMSA_NO_STEP = 22,          /* no step to undo */
    HOLLGRIMSA_OUTPUT_SHORT = 23,     /* output shorter than what is to be written */
    HOLLGRIMSA_OUT_OF_RANGE = 24,     /* a place, DD, HH, MM or index handed in is out of range */
    HOLLGRIMSA_PLACE_TWICE = 25,      /* two elements of a block cover one place: the first that covers a place already covered */
    HOLLGRIMSA_NOT_BELONGING = 27     /* the text does not belong to the book */
};

/* ---- an answer, unpacked
 * The first two functions serve every answer. The others serve an accepted answer of the call that they name, and nothing
 * else: of a refused one they would take the place apart. */

/* 0, or the refusal's number. */
static inline unsigned hollgrimsa_refusal(uint64_t answer) {
    return (unsigned)(answer & 0xFF);
}

/* The value of an accepted call, or the place of a refusal. */
static inline uint64_t hollgrimsa_value(uint64_t answer) {
    return answer >> 8;
}

/* Commit and undo: the lower and the higher of the changed segments, 0 for none, and how many they are. */
static inline unsigned hollgrimsa_first_segment(uint64_t answer) {
    return (unsigned)(answer >> 8 & 0xFF);
}

static inline unsigned hollgrimsa_second_segment(uint64_t answer) {
    return (unsigned)(answer >> 16 & 0xFF);
}

static inline unsigned hollgrimsa_changed(uint64_t answer) {
    return (hollgrimsa_first_segment(answer) != 0 ? 1u : 0u) + (hollgrimsa_second_segment(answer) != 0 ? 1u : 0u);
}

/* hollgrimsa_view: the segment is text[start .. start + length]. */
static inline size_t hollgrimsa_view_start(uint64_t answer) {
    return (size_t)(answer >> 8 & 0xFFFFFF);
}

static inline size_t hollgrimsa_view_length(uint64_t answer) {
    return (size_t)(answer >> 32);
}

/* hollgrimsa_bbb: its byte 0, 1 or 2; all three are 0 where the heading has no BBB. */
static inline char hollgrimsa_bbb_byte(uint64_t answer, unsigned i) {
    return (char)(answer >> (8 + 8 * (i & 3)) & 0x7F);
}

/* hollgrimsa_storm: all are 0 where there is no storm. */
enum hollgrimsa_basin {
    HOLLGRIMSA_NO_STORM = 0,
    HOLLGRIMSA_AL = 1,
    HOLLGRIMSA_SL = 2,
    HOLLGRIMSA_EP = 3,
    HOLLGRIMSA_CP = 4,
    HOLLGRIMSA_WP = 5
};

enum hollgrimsa_class {
    HOLLGRIMSA_NO_CLASS = 0,
    HOLLGRIMSA_CYCLONE = 1,    /* 01..49 */
    HOLLGRIMSA_INTERNAL = 2,   /* 50..79 */
    HOLLGRIMSA_TRAINING = 3,   /* 80..89 */
    HOLLGRIMSA_DISTURBANCE = 4 /* 90..99 */
};

static inline unsigned hollgrimsa_storm_basin(uint64_t answer) {
    return (unsigned)(answer >> 8 & 0xFF);
}

static inline unsigned hollgrimsa_storm_class(uint64_t answer) {
    return (unsigned)(answer >> 16 & 0xFF);
}

static inline unsigned hollgrimsa_storm_number(uint64_t answer) {
    return (unsigned)(answer >> 24 & 0xFF);
}

static inline unsigned hollgrimsa_storm_year(uint64_t answer) {
    return (unsigned)(answer >> 32);
}

/* ---- the reader
 * Each call reads the whole text under the year and month of its issue. Refusals, in this order: 1 (text); 5 (year, month);
 * 2; 3; 4; 5 (issue day); 10; 6 (line 3) or 7; then segment by segment 9, 6, 25, 5, 11, 8. */

/* The issue: a minute, counted from 1970-01-01 0000 UTC. */
uint64_t hollgrimsa_issue(const uint8_t *text, size_t text_length, uint64_t year, uint64_t month);

/* How many segments it has: 1..8. */
uint64_t hollgrimsa_segments(const uint8_t *text, size_t text_length, uint64_t year, uint64_t month);

/* The heading's BBB, 0 for none: see hollgrimsa_bbb_byte. */
uint64_t hollgrimsa_bbb(const uint8_t *text, size_t text_length, uint64_t year, uint64_t month);

/* Where the identifier, line 2, starts in the text. */
uint64_t hollgrimsa_identifier(const uint8_t *text, size_t text_length, uint64_t year, uint64_t month);

/* The storm, 0 for none: see hollgrimsa_storm_basin and the others. */
uint64_t hollgrimsa_storm(const uint8_t *text, size_t text_length, uint64_t year, uint64_t month);

/* Of segment n, counted from 1. Refusals: the reader's; then 15. */

/* The segment as a part of the caller's own text, up to and with its `$$` line: see hollgrimsa_view_start. */
uint64_t hollgrimsa_view(const uint8_t *text, size_t text_length, uint64_t year, uint64_t month, uint64_t n);

/* The place after its block's last line. */
uint64_t hollgrimsa_block_end(const uint8_t *text, size_t text_length, uint64_t year, uint64_t month, uint64_t n);

/* Its purge minute. */
uint64_t hollgrimsa_purge(const uint8_t *text, size_t text_length, uint64_t year, uint64_t month, uint64_t n);

/* How many places it has: 1..120. */
uint64_t hollgrimsa_count(const uint8_t *text, size_t text_length, uint64_t year, uint64_t month, uint64_t n);

/* Its place at an index from 0, ascending. Refusals: the reader's; 15; then 24 (index). */
uint64_t hollgrimsa_place(const uint8_t *text, size_t text_length, uint64_t year, uint64_t month, uint64_t n, uint64_t index);

/* ---- the writer */

/* Writes the block of these places, strictly ascending, 1..120 of them, and this purge minute to the front of the output,
 * each of its lines ended with CR CR LF, and answers its length; later bytes stay. places_length counts places, and the
 * pointer is aligned for uint32_t. Refusals: 24 (places or minute); 23. */
uint64_t hollgrimsa_write_block(uint8_t *out, size_t out_length, const uint32_t *places, size_t places_length, uint64_t purge);

/* ---- the book
 * Every call asks 1 (book length) first. Make takes any bytes of that length and never asks 12; every other call asks 12
 * next. Drafts and segments are counted from 1. */

/* Makes a book of a bulletin, with no drafts and no steps; what the book's bytes were does not matter. No value.
 * Refusals: 1 (book); then the reader's. */
uint64_t hollgrimsa_make(uint8_t *book, size_t book_length, const uint8_t *text, size_t text_length, uint64_t year, uint64_t month);

/* Opens the lowest closed draft, and answers its number, 1..4. Refusals: 1; 12; 14. */
uint64_t hollgrimsa_open(uint8_t *book, size_t book_length);

/* Copies a segment into an open draft, at most two. No value. Refusals: 1; 12; 13; 15; 17; 18. */
uint64_t hollgrimsa_take(uint8_t *book, size_t book_length, uint64_t draft, uint64_t segment);

/* The purge minute of the draft's copy. Refusals: 1; 12; 13; 15; 16. */
uint64_t hollgrimsa_read_purge(const uint8_t *book, size_t book_length, uint64_t draft, uint64_t segment);

/* The count of places of the draft's copy. Refusals: 1; 12; 13; 15; 16. */
uint64_t hollgrimsa_read_count(const uint8_t *book, size_t book_length, uint64_t draft, uint64_t segment);

/* The place of the draft's copy at an index from 0. Refusals: 1; 12; 13; 15; 16; 24 (index). */
uint64_t hollgrimsa_read_place(const uint8_t *book, size_t book_length, uint64_t draft, uint64_t segment, uint64_t index);

/* Adds a place to the draft's copy, and answers 1 if it was there, else 0. Refusals: 1; 12; 13; 24 (place); 15; 16; 19. */
uint64_t hollgrimsa_add(uint8_t *book, size_t book_length, uint64_t draft, uint64_t segment, uint64_t place);

/* Removes a place from the draft's copy, and answers 1 if it was there, else 0. Refusals: 1; 12; 13; 24 (place); 15; 16; 20. */
uint64_t hollgrimsa_remove(uint8_t *book, size_t book_length, uint64_t draft, uint64_t segment, uint64_t place);

/* Gives the draft's copy the purge minute that DD, HH and MM give under the book's issue, and answers it: the first such
 * minute that is not more than 1,440 minutes before the issue, in the month before it, its own or the one after.
 * Refusals: 1; 12; 13; 24 (DD, HH, MM); 15; 16; 5. */
uint64_t hollgrimsa_set_purge(uint8_t *book, size_t book_length, uint64_t draft, uint64_t segment, uint64_t day, uint64_t hour, uint64_t minute);

/* Stores the draft's changed segments as a new step, and closes it; other drafts that took one of them turn stale. Answers
 * the changed segments: see hollgrimsa_changed. Refusals: 1; 12; 13; 21. */
uint64_t hollgrimsa_commit(uint8_t *book, size_t book_length, uint64_t draft);

/* Closes the draft; its copies are lost. No value. Refusals: 1; 12; 13. */
uint64_t hollgrimsa_drop(uint8_t *book, size_t book_length, uint64_t draft);

/* Puts back what the newest step replaced; drafts that took its segments turn stale. Answers its segments: see
 * hollgrimsa_changed. Refusals: 1; 12; 22. */
uint64_t hollgrimsa_undo(uint8_t *book, size_t book_length);

/* Writes the block of a segment of the book to the front of the output, each of its lines ended with CR CR LF, and answers
 * its length; later bytes stay. Refusals: 1; 12; 15; 23. */
uint64_t hollgrimsa_write(const uint8_t *book, size_t book_length, uint64_t segment, uint8_t *out, size_t out_length);

/* Writes the edited bulletin to the front of the output, and answers its length; later bytes stay. It is the text with the
 * block of each segment, from its first byte through the line end behind its purge, replaced by the block that
 * hollgrimsa_write writes of that segment of the book, but with each of its lines ended as the first line of the replaced
 * block: LF, CR LF or CR CR LF. Every other byte is kept. Drafts and steps do not show.
 *
 * The text is read under the year and month of the book's issue. It belongs to the book if its issue minute and its number
 * of segments are the book's. text_length + 8 * HOLLGRIMSA_BLOCK_MOST bytes are always enough, and so are
 * HOLLGRIMSA_EDITED_MOST. A bulletin that grows past HOLLGRIMSA_TEXT_MOST is written too, where it fits, but no call reads it.
 * Refusals: 1 (text or book); 12; the reader's, with their places; 27; 23. */
uint64_t hollgrimsa_write_edited(const uint8_t *text, size_t text_length, const uint8_t *book, size_t book_length, uint8_t *out, size_t out_length);

#ifdef __cplusplus
}
#endif

#endif
