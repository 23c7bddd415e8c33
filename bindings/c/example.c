/* Reads a bulletin, edits its first segment in a draft, commits, writes the edited bulletin, undoes, and prints what it did.
 *
 * From the repository's root:
 *   bindings/build
 *   cc -std=c99 -Wall -Wextra -pedantic -Iinclude bindings/c/example.c target/staticlib/libplugin.a -o target/example
 *   target/example examples/advisory.txt
 *
 * The file's first line is the year and the month of the issue; the bulletin is the rest.
 */
#include <stdio.h>
#include <stdlib.h>

#include "hollgrimsa.h"

static uint8_t book[HOLLGRIMSA_BOOK_LENGTH];
static uint8_t text[HOLLGRIMSA_TEXT_MOST + 1];
static uint8_t block[HOLLGRIMSA_BLOCK_MOST];
static uint8_t edited[HOLLGRIMSA_EDITED_MOST];

/* The value of an answer; a refusal ends the program. */
static uint64_t value(const char *call, uint64_t answer) {
    if (hollgrimsa_refusal(answer) != HOLLGRIMSA_ACCEPTED) {
        printf("%s is refused: %u at %u\n", call, hollgrimsa_refusal(answer), (unsigned)hollgrimsa_value(answer));
        exit(1);
    }
    return hollgrimsa_value(answer);
}

/* A place as its six bytes. */
static void print_place(uint64_t place) {
    unsigned prefix = (unsigned)(place / 1000);
    unsigned number = (unsigned)(place % 1000);
    printf(" %c%c%c", 'A' + prefix / 52, 'A' + prefix / 2 % 26, prefix % 2 ? 'Z' : 'C');
    if (number == 0)
        printf("ALL");
    else
        printf("%03u", number);
}

static void print_reading(size_t length, uint64_t year, uint64_t month) {
    uint64_t segments = value("reading", hollgrimsa_segments(text, length, year, month));
    uint64_t bbb = hollgrimsa_bbb(text, length, year, month);
    uint64_t storm = hollgrimsa_storm(text, length, year, month);
    unsigned identifier = (unsigned)value("identifier", hollgrimsa_identifier(text, length, year, month));

    printf("%.6s, issued at minute %u", (const char *)text + identifier, (unsigned)value("issue", hollgrimsa_issue(text, length, year, month)));
    if (hollgrimsa_value(bbb) != 0)
        printf(", %c%c%c", hollgrimsa_bbb_byte(bbb, 0), hollgrimsa_bbb_byte(bbb, 1), hollgrimsa_bbb_byte(bbb, 2));
    if (hollgrimsa_value(storm) != 0)
        printf(", storm %u of %u", hollgrimsa_storm_number(storm), hollgrimsa_storm_year(storm));
    printf(", %u segments\n", (unsigned)segments);

    for (uint64_t n = 1; n <= segments; n++) {
        uint64_t view = hollgrimsa_view(text, length, year, month, n);
        uint64_t count = value("count", hollgrimsa_count(text, length, year, month, n));
        printf("segment %u: %u bytes from %u, until minute %u:", (unsigned)n, (unsigned)hollgrimsa_view_length(view),
               (unsigned)hollgrimsa_view_start(view), (unsigned)value("purge", hollgrimsa_purge(text, length, year, month, n)));
        for (uint64_t i = 0; i < count; i++)
            print_place(value("place", hollgrimsa_place(text, length, year, month, n, i)));
        printf("\n");
    }
}

/* Written bytes, each line ended as on a terminal. */
static void print_lines(const uint8_t *written, uint64_t n) {
    for (uint64_t i = 0; i < n; i++)
        if (written[i] != '\r')
            putchar(written[i]);
}

static void print_block(const char *when) {
    uint64_t n = value("write", hollgrimsa_write(book, sizeof book, 1, block, sizeof block));
    printf("segment 1 %s: ", when);
    print_lines(block, n);
}

/* The whole bulletin with the segments' blocks as the book has them, to be sent on. */
static void print_edited(size_t length) {
    uint64_t n = value("edited", hollgrimsa_write_edited(text, length, book, sizeof book, edited, sizeof edited));
    printf("the edited bulletin has %u bytes:\n", (unsigned)n);
    print_lines(edited, n);
}

static void print_changed(const char *call, uint64_t answer) {
    value(call, answer);
    printf("%s: %u changed", call, hollgrimsa_changed(answer));
    if (hollgrimsa_first_segment(answer) != 0)
        printf(", segment %u", hollgrimsa_first_segment(answer));
    if (hollgrimsa_second_segment(answer) != 0)
        printf(" and segment %u", hollgrimsa_second_segment(answer));
    printf("\n");
}

int main(int argc, char **argv) {
    FILE *file = fopen(argc > 1 ? argv[1] : "examples/advisory.txt", "rb");
    unsigned year, month;
    if (file == NULL || fscanf(file, "%u %u", &year, &month) != 2 || fgetc(file) != '\n') {
        printf("no file with a year and a month\n");
        return 1;
    }
    size_t length = fread(text, 1, sizeof text, file);
    fclose(file);

    print_reading(length, year, month);
    value("make", hollgrimsa_make(book, sizeof book, text, length, year, month));
    print_block("in the book");

    uint64_t draft = value("open", hollgrimsa_open(book, sizeof book));
    value("take", hollgrimsa_take(book, sizeof book, draft, 1));
    uint64_t first = value("read", hollgrimsa_read_place(book, sizeof book, draft, 1, 0));
    printf("draft %u: ", (unsigned)draft);
    printf("the place after the first was there: %u, ", (unsigned)value("add", hollgrimsa_add(book, sizeof book, draft, 1, first + 1)));
    printf("the first was there: %u, ", (unsigned)value("remove", hollgrimsa_remove(book, sizeof book, draft, 1, first)));
    printf("places now: %u\n", (unsigned)value("count", hollgrimsa_read_count(book, sizeof book, draft, 1)));

    uint64_t twice = hollgrimsa_take(book, sizeof book, draft, 1);
    printf("taking segment 1 again is refused: %u\n", hollgrimsa_refusal(twice));

    print_changed("commit", hollgrimsa_commit(book, sizeof book, draft));
    print_block("committed");
    print_edited(length);
    print_changed("undo", hollgrimsa_undo(book, sizeof book));
    print_block("undone");
    printf("undoing again is refused: %u\n", hollgrimsa_refusal(hollgrimsa_undo(book, sizeof book)));
    return 0;
}
