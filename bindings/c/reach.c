/* How far a call reads: behind what it may read stands a page that can't be read. The text that is passed goes on over that page, so a call that reads
 * on to the next run, or to the end, ends the program. A call may read AHEAD bytes beyond the last boundary that it gives, and the run that it cuts.
 * A cursor's moves read what is near in both directions, though no line feed is. */
#define _DEFAULT_SOURCE
#include "check.h"
#include <string.h>
#include <sys/mman.h>
#include <unistd.h>
#include <yengatomu.h>

enum { PAGE = 4096, READABLE = 2 * PAGE, UNREADABLE = 1 << 20, ROOM = 64, WINDOW = 2 * PAGE, MOVES = 20 };

/* What rules look ahead, in bytes: two characters, each with a mark. */
enum { AHEAD = 16 };

static const char THAI[] = "\xe0\xb8\xa0\xe0\xb8\xb2\xe0\xb8\xa9\xe0\xb8\xb2\xe0\xb9\x84\xe0\xb8\x97\xe0\xb8\xa2";
static const char FIRST[] = "\xe0\xb8\xa0\xe0\xb8\xb2\xe0\xb8\xa9\xe0\xb8\xb2";

/* A segmenter with a list of Thai words. */
static yengatomu_slot opened(uint32_t kind) {
    const yengatomu_word words[] = {{(const uint8_t *)FIRST, sizeof FIRST - 1}, {(const uint8_t *)THAI + sizeof FIRST - 1, sizeof THAI - sizeof FIRST}};
    yengatomu_slot slot = {0};
    CHECK(yengatomu_open(&slot, kind, 0, 0, false) == YENGATOMU_OK);
    CHECK(yengatomu_load_dictionary(&slot, words, 2, YENGATOMU_THAI) == YENGATOMU_OK);
    return slot;
}

/* The last READABLE bytes that can be read, filled with a text that comes again and again and ends right there, but for some bytes at the start. */
static uint8_t *text_of(uint8_t *start, const char *again) {
    const size_t len = strlen(again);
    memset(start, 'x', READABLE);
    for (size_t end = READABLE; end >= len; end -= len) memcpy(start + end - len, again, len);
    return start;
}

/* Gives all boundaries that stand at least so many bytes before the page that can't be read: by many calls, by one, one by one and back. */
static void try_boundaries(yengatomu_slot *slot, const uint8_t *text, size_t behind) {
    const size_t len = READABLE + UNREADABLE, last = READABLE - behind;
    size_t from = 0, count = 0, places[ROOM], *all = block(READABLE * sizeof *all);
    uint8_t *marks = block(READABLE);
    for (size_t place = 0; (place = yengatomu_next(slot, text, len, place)) <= last; count++) {
        CHECK(place != YENGATOMU_NONE);
        all[count] = from = place;
    }
    CHECK(count > READABLE / 64);
    CHECK(yengatomu_previous(slot, text, len, all[count - 1]) == all[count - 2]);
    CHECK(yengatomu_boundaries(slot, text, len, 0, all, count) == count && all[count - 1] == from);
    CHECK(yengatomu_marked_boundaries(slot, text, len, 0, all, count, marks, count) == count && all[count - 1] == from);
    CHECK(yengatomu_boundaries(slot, text, len, 0, places, ROOM) == ROOM && !memcmp(places, all, sizeof places));
    free(all);
    free(marks);
}

/* .. all ends of wrapped lines. */
static void try_lines(yengatomu_slot *slot, const uint8_t *text, size_t columns, size_t behind) {
    const size_t len = READABLE + UNREADABLE;
    size_t *ends = block(READABLE * sizeof *ends), *widths = block(READABLE * sizeof *widths), count = 0;
    while (yengatomu_wrap(slot, text, len, count ? ends[count - 1] : 0, columns, ends + count, 1) == 1 && ends[count] <= READABLE - behind - columns) count++;
    CHECK(count > READABLE / 256);
    CHECK(yengatomu_wrap_columns(slot, text, len, 0, columns, ends, count, widths, count) == count);
    free(ends);
    free(widths);
}

/* Memory of which the first page and the WINDOW bytes in the middle alone can be read, filled there by a text that comes again and again. */
static void *window_of(const void *again, size_t len) {
    uint8_t *all = mmap(NULL, UNREADABLE + WINDOW + UNREADABLE, PROT_READ | PROT_WRITE, MAP_PRIVATE | MAP_ANONYMOUS, -1, 0);
    if (all == MAP_FAILED) exit(2);
    for (size_t at = 0; at < WINDOW; at++) all[UNREADABLE + at] = ((const uint8_t *)again)[at % len];
    if (mprotect(all + PAGE, UNREADABLE - PAGE, PROT_NONE) || mprotect(all + UNREADABLE + WINDOW, UNREADABLE, PROT_NONE)) exit(2);
    return all;
}

/* A text of ASCII and of sequences of three bytes in UTF-16: writes its units, and returns how many. */
static size_t widened(const char *text, uint16_t *units) {
    size_t count = 0;
    for (const uint8_t *at = (const uint8_t *)text; *at; at += *at < 0x80 ? 1 : 3)
        units[count++] = (uint16_t)(*at < 0x80 ? *at : (*at & 0xF) << 12 | (at[1] & 0x3F) << 6 | (at[2] & 0x3F));
    return count;
}

/* Moves a cursor from the middle of the window to later boundaries, and back, in UTF-8 and in UTF-16. Closes the slot. */
static void try_moves(yengatomu_slot *slot, const char *again) {
    size_t places[MOVES], units_at[MOVES];
    uint16_t *units = block(strlen(again) * sizeof *units);
    const size_t count = widened(again, units);
    const size_t len = UNREADABLE + WINDOW + UNREADABLE, middle = UNREADABLE + WINDOW / 2;
    const uint8_t *text = window_of(again, strlen(again));
    const uint16_t *wide = window_of(units, count * sizeof *units);
    for (size_t i = 0; i < MOVES; i++) {
        places[i] = yengatomu_next(slot, text, len, i ? places[i - 1] : middle);
        units_at[i] = yengatomu_next_utf16(slot, wide, len / 2, i ? units_at[i - 1] : middle / 2);
        CHECK(places[i] > middle && units_at[i] > middle / 2);
    }
    for (size_t i = MOVES - 1; i > 0; i--) {
        CHECK(yengatomu_previous(slot, text, len, places[i]) == places[i - 1]);
        CHECK(yengatomu_previous_utf16(slot, wide, len / 2, units_at[i]) == units_at[i - 1]);
    }
    yengatomu_close(slot);
    free(units);
    munmap((void *)text, len);
    munmap((void *)wide, len);
}

/* .. of each kind; of words and lines with a list of Thai words too, of lines that may be broken anywhere, and of sentences with an abbreviation. */
static void try_all_moves(const char *mixed) {
    static const char prose[] = "Mr. Smith can't pay 3.14. He left! ", list[] = "{\"a\": [1, 2.5], \"b c\": null}, ";
    const yengatomu_word abbreviation = {(const uint8_t *)"Mr.", 3};
    for (uint32_t kind = YENGATOMU_CLUSTERS; kind <= YENGATOMU_LINES; kind++) {
        yengatomu_slot slot = {0};
        CHECK(yengatomu_open(&slot, kind, 0, 0, false) == YENGATOMU_OK);
        try_moves(&slot, prose);
        /* (in which no sentence ends) */
        if (kind == YENGATOMU_SENTENCES) continue;
        CHECK(yengatomu_open(&slot, kind, 0, 0, false) == YENGATOMU_OK);
        try_moves(&slot, list);
    }
    for (uint32_t kind = YENGATOMU_WORDS; kind <= YENGATOMU_LINES; kind += YENGATOMU_LINES - YENGATOMU_WORDS) {
        yengatomu_slot slot = opened(kind);
        try_moves(&slot, mixed);
    }
    yengatomu_slot anywhere = {0}, sentences = {0};
    CHECK(yengatomu_open(&anywhere, YENGATOMU_LINES, YENGATOMU_ANYWHERE, 0, false) == YENGATOMU_OK);
    try_moves(&anywhere, list);
    CHECK(yengatomu_open(&sentences, YENGATOMU_SENTENCES, 0, 0, false) == YENGATOMU_OK);
    CHECK(yengatomu_load_abbreviations(&sentences, &abbreviation, 1) == YENGATOMU_OK);
    try_moves(&sentences, prose);
}

int main(void) {
    uint8_t *start = mmap(NULL, READABLE + UNREADABLE, PROT_READ | PROT_WRITE, MAP_PRIVATE | MAP_ANONYMOUS, -1, 0);
    static const char *const plain[] = {"ab ", "ab, 3.14 can't ", "ab \n", "\xc3\xa9 e\xcc\x81 ", "\xe6\x97\xa5\xe6\x9c\xac "};
    char mixed[64];
    snprintf(mixed, sizeof mixed, "ab %s ", THAI);
    if (start == MAP_FAILED || mprotect(start + READABLE, UNREADABLE, PROT_NONE)) return 2;
    for (uint32_t kind = YENGATOMU_WORDS; kind <= YENGATOMU_LINES; kind += YENGATOMU_LINES - YENGATOMU_WORDS) {
        yengatomu_slot slot = opened(kind);
        for (size_t i = 0; i < sizeof plain / sizeof *plain; i++) {
            try_boundaries(&slot, text_of(start, plain[i]), AHEAD + strlen(plain[i]));
            if (kind == YENGATOMU_LINES) try_lines(&slot, start, 20, AHEAD + 4 * strlen(plain[i]));
        }
        /* the run that is cut, and what comes before it */
        try_boundaries(&slot, text_of(start, mixed), AHEAD + 2 * strlen(mixed));
        if (kind == YENGATOMU_LINES) try_lines(&slot, start, 20, AHEAD + 4 * strlen(mixed));
        yengatomu_close(&slot);
    }
    try_all_moves(mixed);
    return failed != 0;
}
