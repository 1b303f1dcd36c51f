/* What a caller may get wrong or overdo, and what must come of it: numbers that there are none of, rules that are wrong, slots that are empty, opened twice or
 * moved, starts inside a character and past the end, buffers without room, empty and ill-formed texts, all bytes of Latin-1, and, with the word `large`, a text
 * of 2^33 bytes. Under valgrind it must leave nothing behind. */
#define _DEFAULT_SOURCE
#include "check.h"
#include <string.h>
#include <sys/mman.h>
#include <yengatomu.h>

enum { ROOM = 256 };

static const uint8_t *bytes_of(const char *text) { return (const uint8_t *)text; }

static yengatomu_slot opened(uint32_t kind) {
    yengatomu_slot slot = {0};
    CHECK(yengatomu_open(&slot, kind, 0, 0, false) == YENGATOMU_OK);
    CHECK(slot.full);
    return slot;
}

/* What no slot may answer that is empty. */
static void check_empty(yengatomu_slot *slot) {
    static const yengatomu_word word = {(const uint8_t *)"a", 1};
    static const uint16_t units[] = {'a', ' ', 'b'};
    const uint8_t *text = bytes_of("a b");
    size_t places[4] = {7, 7, 7, 7}, widths[4] = {7, 7, 7, 7};
    uint8_t marks[4] = {7, 7, 7, 7};
    CHECK(!slot->full);
    CHECK(yengatomu_boundaries(slot, text, 3, 0, places, 4) == 0);
    CHECK(yengatomu_boundaries_utf16(slot, units, 3, 0, places, 4) == 0);
    CHECK(yengatomu_boundaries_latin1(slot, text, 3, 0, places, 4) == 0);
    CHECK(yengatomu_marked_boundaries(slot, text, 3, 0, places, 4, marks, 4) == 0);
    CHECK(yengatomu_marked_boundaries_utf16(slot, units, 3, 0, places, 4, marks, 4) == 0);
    CHECK(yengatomu_marked_boundaries_latin1(slot, text, 3, 0, places, 4, marks, 4) == 0);
    CHECK(yengatomu_wrap(slot, text, 3, 0, 1, places, 4) == 0);
    CHECK(yengatomu_wrap_columns(slot, text, 3, 0, 1, places, 4, widths, 4) == 0);
    CHECK(yengatomu_wrap_utf16(slot, units, 3, 0, 1, places, 4) == 0);
    CHECK(yengatomu_wrap_columns_utf16(slot, units, 3, 0, 1, places, 4, widths, 4) == 0);
    CHECK(yengatomu_wrap_balanced(slot, text, 3, 0, 1, places, 4, widths, 4) == 0);
    CHECK(yengatomu_wrap_balanced_utf16(slot, units, 3, 0, 1, places, 4, widths, 4) == 0);
    CHECK(places[0] == 7 && widths[0] == 7 && marks[0] == 7);
    CHECK(yengatomu_next(slot, text, 3, 0) == YENGATOMU_NONE);
    CHECK(yengatomu_next_utf16(slot, units, 3, 0) == YENGATOMU_NONE);
    CHECK(yengatomu_previous(slot, text, 3, 3) == YENGATOMU_NONE);
    CHECK(yengatomu_previous_utf16(slot, units, 3, 3) == YENGATOMU_NONE);
    CHECK(yengatomu_count(slot, text, 3) == 0);
    CHECK(yengatomu_count_utf16(slot, units, 3) == 0);
    CHECK(yengatomu_count_words(slot, text, 3) == 0);
    CHECK(yengatomu_count_words_utf16(slot, units, 3) == 0);
    CHECK(yengatomu_load_dictionary(slot, &word, 1, YENGATOMU_THAI) == YENGATOMU_NO_SUCH);
    CHECK(yengatomu_load_abbreviations(slot, &word, 1) == YENGATOMU_NO_SUCH);
    CHECK(yengatomu_count_by_cluster(slot) == YENGATOMU_NO_SUCH);
    CHECK(!slot->full);
}

static void try_numbers(void) {
    static const uint32_t unknown[] = {4, 5, 255, 256, 1u << 16, UINT32_MAX};
    yengatomu_slot slot = {0};
    for (size_t i = 0; i < sizeof unknown / sizeof *unknown; i++) {
        /* Each second time the slot holds a segmenter, which must be freed. */
        if (i % 2) slot = opened(YENGATOMU_WORDS);
        CHECK(yengatomu_open(&slot, unknown[i], 0, 0, false) == YENGATOMU_NO_SUCH);
        check_empty(&slot);
        CHECK(yengatomu_open(&slot, YENGATOMU_LINES, unknown[i], 0, false) == YENGATOMU_NO_SUCH);
        check_empty(&slot);
        CHECK(yengatomu_open(&slot, YENGATOMU_LINES, 0, unknown[i], true) == YENGATOMU_NO_SUCH);
        check_empty(&slot);
        /* Other kinds than lines don't read the options. */
        CHECK(yengatomu_open(&slot, YENGATOMU_SENTENCES, unknown[i], unknown[i], true) == YENGATOMU_OK);
        yengatomu_close(&slot);
        CHECK(yengatomu_unicode_version(unknown[i]) == 0);
    }
    for (uint32_t strictness = 0; strictness < 4; strictness++) {
        for (uint32_t word_break = 0; word_break < 3; word_break++) {
            for (int chinese = 0; chinese < 2; chinese++) {
                CHECK(yengatomu_open(&slot, YENGATOMU_LINES, strictness, word_break, chinese) == YENGATOMU_OK);
                CHECK(yengatomu_count(&slot, bytes_of("ab\ncd"), 5) > 1);
            }
        }
    }
    yengatomu_close(&slot);
    for (uint32_t kind = 0; kind < 4; kind++) CHECK(yengatomu_unicode_version(kind) >= 150000);
    CHECK(yengatomu_version() == YENGATOMU_VERSION);
}

static void try_slots(void) {
    yengatomu_slot slot = {0}, moved = {0};
    const uint8_t *text = bytes_of("a b");
    size_t places[ROOM];
    check_empty(&slot);
    yengatomu_close(&slot);
    check_empty(&slot);
    /* Opened twice: the first is freed. */
    slot = opened(YENGATOMU_SENTENCES);
    CHECK(yengatomu_boundaries(&slot, text, 3, 0, places, ROOM) == 1);
    CHECK(yengatomu_open(&slot, YENGATOMU_CLUSTERS, 0, 0, false) == YENGATOMU_OK);
    CHECK(yengatomu_boundaries(&slot, text, 3, 0, places, ROOM) == 3);
    /* Moved. */
    moved = slot;
    memset(&slot, 0, sizeof slot);
    CHECK(yengatomu_boundaries(&moved, text, 3, 0, places, ROOM) == 3 && places[0] == 1 && places[1] == 2 && places[2] == 3);
    check_empty(&slot);
    /* Closed, closed again, and opened again. */
    yengatomu_close(&moved);
    check_empty(&moved);
    yengatomu_close(&moved);
    CHECK(yengatomu_open(&moved, YENGATOMU_LINES, 0, 0, false) == YENGATOMU_OK);
    CHECK(yengatomu_boundaries(&moved, text, 3, 0, places, ROOM) == 2);
    yengatomu_close(&moved);
}

/* From each place on, also inside characters and past the end, the boundaries are those of the rest alone. */
static void check_rests(yengatomu_slot *slot, const char *given) {
    size_t len = strlen(given), whole[ROOM], alone[ROOM], count;
    uint8_t *rest, marks[ROOM];
    for (size_t from = 0; from <= len; from++) {
        rest = block(len - from);
        memcpy(rest, given + from, len - from);
        count = yengatomu_boundaries(slot, rest, len - from, 0, alone, ROOM);
        CHECK((count > 0) == (from < len));
        CHECK(yengatomu_boundaries(slot, bytes_of(given), len, from, whole, ROOM) == count);
        for (size_t i = 0; i < count; i++) CHECK(whole[i] == from + alone[i]);
        CHECK(!count || whole[count - 1] == len);
        CHECK(yengatomu_marked_boundaries(slot, bytes_of(given), len, from, whole, ROOM, marks, ROOM) == count);
        for (size_t i = 0; i < count; i++) CHECK(whole[i] == from + alone[i]);
        count = yengatomu_wrap(slot, rest, len - from, 0, 5, alone, ROOM);
        CHECK(yengatomu_wrap(slot, bytes_of(given), len, from, 5, whole, ROOM) == count);
        for (size_t i = 0; i < count; i++) CHECK(whole[i] == from + alone[i]);
        free(rest);
    }
    for (size_t past = 0; past < 3; past++) {
        size_t from = past < 2 ? len + past : SIZE_MAX;
        CHECK(yengatomu_boundaries(slot, bytes_of(given), len, from, whole, ROOM) == 0);
        CHECK(yengatomu_marked_boundaries(slot, bytes_of(given), len, from, whole, ROOM, marks, ROOM) == 0);
        CHECK(yengatomu_wrap(slot, bytes_of(given), len, from, 5, whole, ROOM) == 0);
        CHECK(yengatomu_next(slot, bytes_of(given), len, from) == YENGATOMU_NONE);
        CHECK(yengatomu_previous(slot, bytes_of(given), len, from) == (from > len ? len : yengatomu_previous(slot, bytes_of(given), len, len)));
    }
}

/* Calls that write the boundaries of bytes, in UTF-8 or Latin-1. */
typedef size_t boundaries_of(const yengatomu_slot *slot, const uint8_t *text, size_t len, size_t from, size_t *out, size_t room);
typedef size_t marked_of(const yengatomu_slot *slot, const uint8_t *text, size_t len, size_t from, size_t *out, size_t room, uint8_t *marks, size_t marks_room);

static void check_room_of(yengatomu_slot *slot, const char *text, boundaries_of *boundaries, marked_of *marked) {
    size_t len = strlen(text), all[ROOM], some[ROOM], count = boundaries(slot, bytes_of(text), len, 0, all, ROOM);
    uint8_t marks[ROOM];
    for (size_t room = 0; room <= count; room++) {
        memset(some, 0xA5, sizeof some);
        CHECK(boundaries(slot, bytes_of(text), len, 0, some, room) == room);
        CHECK(!memcmp(some, all, room * sizeof *all) && some[room] == SIZE_MAX / 0xFF * 0xA5);
        for (size_t marks_room = 0; marks_room <= count; marks_room++) {
            size_t least = room < marks_room ? room : marks_room;
            memset(some, 0xA5, sizeof some);
            memset(marks, 0xA5, sizeof marks);
            CHECK(marked(slot, bytes_of(text), len, 0, some, room, marks, marks_room) == least);
            CHECK(!memcmp(some, all, least * sizeof *all) && some[least] == SIZE_MAX / 0xFF * 0xA5 && marks[least] == 0xA5);
        }
    }
}

/* No more is written than there is room for. */
static void check_room(yengatomu_slot *slot, const char *text) {
    size_t len = strlen(text), all[ROOM], some[ROOM], widths[ROOM], count;
    check_room_of(slot, text, yengatomu_boundaries, yengatomu_marked_boundaries);
    check_room_of(slot, text, yengatomu_boundaries_latin1, yengatomu_marked_boundaries_latin1);
    CHECK(yengatomu_wrap(slot, bytes_of(text), len, 0, 3, some, 0) == 0);
    CHECK(yengatomu_wrap_columns(slot, bytes_of(text), len, 0, 3, some, ROOM, widths, 0) == 0);
    count = yengatomu_wrap_columns(slot, bytes_of(text), len, 0, 3, all, ROOM, widths, ROOM);
    for (size_t room = 0; room <= count; room++) {
        memset(some, 0xA5, sizeof some);
        memset(widths, 0xA5, sizeof widths);
        CHECK(yengatomu_wrap_columns(slot, bytes_of(text), len, 0, 3, some, ROOM, widths, room) == room);
        CHECK(!memcmp(some, all, room * sizeof *all) && some[room] == SIZE_MAX / 0xFF * 0xA5 && widths[room] == SIZE_MAX / 0xFF * 0xA5);
    }
    count = yengatomu_wrap_balanced(slot, bytes_of(text), len, 0, 3, all, ROOM, widths, ROOM);
    for (size_t room = 0; room <= count; room++) {
        memset(some, 0xA5, sizeof some);
        memset(widths, 0xA5, sizeof widths);
        CHECK(yengatomu_wrap_balanced(slot, bytes_of(text), len, 0, 3, some, ROOM, widths, room) == count);
        CHECK(!memcmp(some, all, room * sizeof *all) && some[room] == SIZE_MAX / 0xFF * 0xA5 && widths[room] == SIZE_MAX / 0xFF * 0xA5);
    }
}

/* An empty text has the boundary 0 alone. */
static void check_empty_text(yengatomu_slot *slot) {
    const uint8_t *text = block(0);
    const uint16_t *units = block(0);
    size_t places[1], widths[1];
    uint8_t marks[1];
    CHECK(yengatomu_boundaries(slot, text, 0, 0, places, 1) == 0);
    CHECK(yengatomu_boundaries_utf16(slot, units, 0, 0, places, 1) == 0);
    CHECK(yengatomu_boundaries_latin1(slot, text, 0, 0, places, 1) == 0);
    CHECK(yengatomu_marked_boundaries(slot, text, 0, 0, places, 1, marks, 1) == 0);
    CHECK(yengatomu_marked_boundaries_utf16(slot, units, 0, 0, places, 1, marks, 1) == 0);
    CHECK(yengatomu_marked_boundaries_latin1(slot, text, 0, 0, places, 1, marks, 1) == 0);
    CHECK(yengatomu_wrap(slot, text, 0, 0, 80, places, 1) == 0);
    CHECK(yengatomu_wrap_columns(slot, text, 0, 0, 80, places, 1, widths, 1) == 0);
    CHECK(yengatomu_wrap_utf16(slot, units, 0, 0, 80, places, 1) == 0);
    CHECK(yengatomu_wrap_columns_utf16(slot, units, 0, 0, 80, places, 1, widths, 1) == 0);
    CHECK(yengatomu_wrap_balanced(slot, text, 0, 0, 80, places, 1, widths, 1) == 0);
    CHECK(yengatomu_wrap_balanced_utf16(slot, units, 0, 0, 80, places, 1, widths, 1) == 0);
    CHECK(yengatomu_next_utf16(slot, units, 0, 0) == YENGATOMU_NONE);
    CHECK(yengatomu_previous_utf16(slot, units, 0, 0) == YENGATOMU_NONE);
    CHECK(yengatomu_previous_utf16(slot, units, 0, 1) == 0);
    CHECK(yengatomu_next(slot, text, 0, 0) == YENGATOMU_NONE);
    CHECK(yengatomu_previous(slot, text, 0, 0) == YENGATOMU_NONE);
    CHECK(yengatomu_previous(slot, text, 0, 1) == 0);
    CHECK(yengatomu_count(slot, text, 0) == 0 && yengatomu_count_utf16(slot, units, 0) == 0);
    CHECK(yengatomu_count_words(slot, text, 0) == 0 && yengatomu_count_words_utf16(slot, units, 0) == 0);
    free((void *)text);
    free((void *)units);
}

static void try_texts(void) {
    /* e and U+0301, Thai, flags, line feeds, an emoji of parts, and ill-formed bytes */
    static const char text[] = "Mr. e\xcc\x81 3.14!\r\n\xe0\xb8\xa0\xe0\xb8\xb2 \xf0\x9f\x87\xbb\xf0\x9f\x87\xb3\xf0\x9f\x91\xa9\xe2\x80\x8d\xf0\x9f\x91\xa7\n\xff\xed\xa0\x80z\xe6\x9d\xb1\xe4\xba\xac";
    for (uint32_t kind = 0; kind < 4; kind++) {
        yengatomu_slot slot = opened(kind);
        check_empty_text(&slot);
        check_rests(&slot, text);
        check_room(&slot, text);
        CHECK((yengatomu_count_words(&slot, bytes_of(text), sizeof text - 1) > 0) == (kind == YENGATOMU_WORDS));
        CHECK((yengatomu_wrap(&slot, bytes_of(text), sizeof text - 1, 0, SIZE_MAX, (size_t[9]){0}, 9) == 3) == (kind == YENGATOMU_LINES));
        CHECK((yengatomu_wrap(&slot, bytes_of(text), sizeof text - 1, 0, 0, (size_t[99]){0}, 99) > 3) == (kind == YENGATOMU_LINES));
        CHECK((yengatomu_wrap_balanced(&slot, bytes_of(text), sizeof text - 1, 0, UINT32_MAX, (size_t[9]){0}, 9, (size_t[9]){0}, 9) > 0) ==
              (kind == YENGATOMU_LINES));
        yengatomu_close(&slot);
    }
}

static void check_clusters(const char *text, size_t len, const size_t *wanted, size_t count) {
    yengatomu_slot slot = opened(YENGATOMU_CLUSTERS);
    size_t found[ROOM];
    CHECK(yengatomu_boundaries(&slot, bytes_of(text), len, 0, found, ROOM) == count);
    CHECK(!memcmp(found, wanted, count * sizeof *wanted));
    yengatomu_close(&slot);
}

/* The tables 3-8 to 3-11 of the Unicode Standard: where U+FFFD stand for ill-formed UTF-8; and the same of UTF-16. */
static void try_ill_formed(void) {
    static const uint16_t units[] = {0xD800, 'a', 0xDC00, 0xD800, 0xD83C, 0xDDFB, 0xD83C, 0xDDF3, 0xDBFF};
    static const size_t places[] = {1, 2, 3, 4, 8, 9};
    yengatomu_slot slot = opened(YENGATOMU_CLUSTERS);
    size_t found[ROOM];
    check_clusters("\xC0\xAF\xE0\x80\xBF\xF0\x81\x82\x41", 9, (size_t[]){1, 2, 3, 4, 5, 6, 7, 8, 9}, 9);
    check_clusters("\xED\xA0\x80\xED\xBF\xBF\xED\xAF\x41", 9, (size_t[]){1, 2, 3, 4, 5, 6, 7, 8, 9}, 9);
    check_clusters("\xF4\x91\x92\x93\xFF\x41\x80\xBF\x42", 9, (size_t[]){1, 2, 3, 4, 5, 6, 7, 8, 9}, 9);
    check_clusters("\xE1\x80\xE2\xF0\x91\x92\xF1\xBF\x41", 9, (size_t[]){2, 3, 6, 8, 9}, 5);
    CHECK(yengatomu_boundaries_utf16(&slot, units, 9, 0, found, ROOM) == 6 && !memcmp(found, places, sizeof places));
    yengatomu_close(&slot);
}

static void try_dictionaries(void) {
    static const char thai[] = "\xe0\xb8\xa0\xe0\xb8\xb2\xe0\xb8\xa9\xe0\xb8\xb2\xe0\xb9\x84\xe0\xb8\x97\xe0\xb8\xa2";
    const yengatomu_word good[] = {{bytes_of(thai), 12}, {bytes_of(thai) + 12, 9}};
    const yengatomu_word bad[] = {{bytes_of(thai), 12}, {bytes_of(thai) + 12, 8}};
    static const uint32_t unknown[] = {0, 6, 256, UINT32_MAX};
    size_t before[ROOM], after[ROOM], count;
    for (uint32_t kind = 0; kind < 4; kind++) {
        yengatomu_slot slot = opened(kind);
        bool takes = kind == YENGATOMU_WORDS || kind == YENGATOMU_LINES;
        count = yengatomu_boundaries(&slot, bytes_of(thai), 21, 0, before, ROOM);
        for (int i = 0; i < 4; i++) CHECK(yengatomu_load_dictionary(&slot, good, 2, unknown[i]) == YENGATOMU_NO_SUCH);
        CHECK(yengatomu_load_dictionary(&slot, bad, 2, YENGATOMU_THAI) == (takes ? YENGATOMU_NOT_UTF8 : YENGATOMU_NO_SUCH));
        CHECK(yengatomu_boundaries(&slot, bytes_of(thai), 21, 0, after, ROOM) == count && !memcmp(before, after, count * sizeof *after));
        for (uint32_t script = YENGATOMU_MYANMAR; script <= YENGATOMU_THAI; script++)
            CHECK(yengatomu_load_dictionary(&slot, good, 2, script) == (takes ? YENGATOMU_OK : YENGATOMU_NO_SUCH));
        count = yengatomu_boundaries(&slot, bytes_of(thai), 21, 0, before, ROOM);
        CHECK(!takes || (count == 2 && before[0] == 12 && before[1] == 21));
        /* The words that came first stay. */
        CHECK(yengatomu_load_dictionary(&slot, good + 1, 1, YENGATOMU_THAI) == (takes ? YENGATOMU_OK : YENGATOMU_NO_SUCH));
        CHECK(yengatomu_boundaries(&slot, bytes_of(thai), 21, 0, after, ROOM) == count && !memcmp(before, after, count * sizeof *after));
        yengatomu_close(&slot);
        /* No words at all. */
        slot = opened(kind);
        CHECK(yengatomu_load_dictionary(&slot, good, 0, YENGATOMU_THAI) == (takes ? YENGATOMU_OK : YENGATOMU_NO_SUCH));
        yengatomu_close(&slot);
    }
}

/* Whether a text's segments end there by a slot, in each encoding; 0 stands behind the last. The text is ASCII. */
static void check_ends(yengatomu_slot *slot, const char *text, const size_t *wanted) {
    size_t found[ROOM] = {0}, len = strlen(text), count = yengatomu_boundaries(slot, bytes_of(text), len, 0, found, ROOM), at = 0;
    uint16_t units[ROOM];
    for (size_t i = 0; i < len; i++) units[i] = (uint8_t)text[i];
    for (; wanted[at]; at++) CHECK(found[at] == wanted[at]);
    CHECK(count == at && yengatomu_count(slot, bytes_of(text), len) == at);
    CHECK(yengatomu_boundaries_latin1(slot, bytes_of(text), len, 0, found, ROOM) == at);
    for (size_t i = 0; i < at; i++) CHECK(found[i] == wanted[i]);
    CHECK(yengatomu_boundaries_utf16(slot, units, len, 0, found, ROOM) == at && yengatomu_count_utf16(slot, units, len) == at);
    for (size_t i = 0; i < at; i++) {
        const size_t before = i ? wanted[i - 1] : 0;
        CHECK(found[i] == wanted[i]);
        for (size_t place = before; place < wanted[i]; place++) {
            CHECK(yengatomu_next(slot, bytes_of(text), len, place) == wanted[i] && yengatomu_next_utf16(slot, units, len, place) == wanted[i]);
            CHECK(yengatomu_previous(slot, bytes_of(text), len, place + 1) == before && yengatomu_previous_utf16(slot, units, len, place + 1) == before);
        }
    }
}

/* Sentences go on after abbreviations; other kinds, and those that have some, take none. */
static void try_abbreviations(void) {
    const yengatomu_word good[] = {{bytes_of("Mr."), 3}, {bytes_of("z. B."), 5}, {bytes_of(""), 0}};
    const yengatomu_word ill[] = {{bytes_of("Mr."), 3}, {bytes_of("\xc3."), 2}}, feed[] = {{bytes_of("a\nb."), 4}, {bytes_of("Mr."), 3}};
    for (uint32_t kind = 0; kind < 4; kind++) {
        yengatomu_slot slot = opened(kind);
        if (kind != YENGATOMU_SENTENCES) CHECK(yengatomu_load_abbreviations(&slot, good, 3) == YENGATOMU_NO_SUCH);
        if (kind != YENGATOMU_SENTENCES) CHECK(yengatomu_load_abbreviations(&slot, ill, 2) == YENGATOMU_NO_SUCH);
        yengatomu_close(&slot);
    }
    yengatomu_slot slot = opened(YENGATOMU_SENTENCES);
    check_ends(&slot, "Mr. Bond. z. B. Jim\nMr. A", (const size_t[]){4, 13, 16, 20, 24, 25, 0});
    CHECK(yengatomu_load_abbreviations(&slot, ill, 2) == YENGATOMU_WRONG_WORD);
    CHECK(yengatomu_load_abbreviations(&slot, feed, 2) == YENGATOMU_WRONG_WORD);
    check_ends(&slot, "Mr. Bond. z. B. Jim\nMr. A", (const size_t[]){4, 13, 16, 20, 24, 25, 0});
    CHECK(yengatomu_load_abbreviations(&slot, good, 3) == YENGATOMU_OK);
    check_ends(&slot, "Mr. Bond. z. B. Jim\nMr. A", (const size_t[]){13, 20, 25, 0});
    check_ends(&slot, "Ask sMr. Bond. Mr.  ", (const size_t[]){9, 15, 20, 0});
    /* A part alone has lost the abbreviation that begins before it. */
    check_ends(&slot, "B. Jim", (const size_t[]){3, 6, 0});
    CHECK(yengatomu_load_abbreviations(&slot, good, 0) == YENGATOMU_NO_SUCH);
    CHECK(yengatomu_load_abbreviations(&slot, feed, 2) == YENGATOMU_NO_SUCH);
    CHECK(yengatomu_count_by_cluster(&slot) == YENGATOMU_NO_SUCH);
    check_empty_text(&slot);
    check_rests(&slot, "Mr. Bond. z. B. Jim\nMr. \xff\xe0\xb8\xa0 Mr. A");
    check_room(&slot, "Mr. Bond. z. B. Jim\nMr. \xff\xe0\xb8\xa0 Mr. A");
    yengatomu_close(&slot);
    /* No words at all suppress nothing, and count as some. */
    slot = opened(YENGATOMU_SENTENCES);
    CHECK(yengatomu_load_abbreviations(&slot, good, 0) == YENGATOMU_OK);
    check_ends(&slot, "Mr. Bond.", (const size_t[]){4, 9, 0});
    CHECK(yengatomu_load_abbreviations(&slot, good, 1) == YENGATOMU_NO_SUCH);
    yengatomu_close(&slot);
}

/* In Latin-1 each byte is a code point: from each place on and past the end its calls say what those of UTF-16 say of the same code points. */
static void check_latin1(const yengatomu_slot *slot, const uint8_t *given, size_t len) {
    size_t found[ROOM], wanted[ROOM];
    uint8_t *text = block(len), marks[ROOM], wanted_marks[ROOM];
    uint16_t *units = block(2 * len);
    memcpy(text, given, len);
    for (size_t i = 0; i < len; i++) units[i] = given[i];
    for (size_t from = 0; from <= len + 1; from++) {
        const size_t count = yengatomu_boundaries_utf16(slot, units, len, from, wanted, ROOM);
        CHECK((count > 0) == (from < len));
        CHECK(yengatomu_boundaries_latin1(slot, text, len, from, found, ROOM) == count && !memcmp(found, wanted, count * sizeof *wanted));
        CHECK(yengatomu_marked_boundaries_utf16(slot, units, len, from, wanted, ROOM, wanted_marks, ROOM) == count);
        CHECK(yengatomu_marked_boundaries_latin1(slot, text, len, from, found, ROOM, marks, ROOM) == count);
        CHECK(!memcmp(found, wanted, count * sizeof *wanted) && !memcmp(marks, wanted_marks, count));
    }
    CHECK(yengatomu_boundaries_latin1(slot, text, len, SIZE_MAX, found, ROOM) == 0);
    CHECK(yengatomu_marked_boundaries_latin1(slot, text, len, SIZE_MAX, found, ROOM, marks, ROOM) == 0);
    free(text);
    free(units);
}

/* All bytes up and down, and words between them; by each kind, and with words of its own. These are UTF-8, and are found in Latin-1. */
static void try_latin1(void) {
    static const char mixed[] = "Il co\xfbte 3,50 \xa3\xa0! Voir \xe9t. 3, Mr. \xc9. Soft\xadly,\r\n\xabOui.\xbb C'est \xe0 lui.\x85\xff";
    const yengatomu_word abbreviations[] = {{bytes_of("Mr."), 3}, {bytes_of("\xc3\xa9t."), 4}}, thai = {bytes_of("\xe0\xb8\xa0"), 3};
    uint8_t up[ROOM], down[ROOM];
    size_t places[ROOM];
    for (size_t i = 0; i < ROOM; i++) down[ROOM - 1 - i] = up[i] = (uint8_t)i;
    for (uint32_t kind = 0; kind < 4; kind++) {
        yengatomu_slot slot = opened(kind);
        for (int has_words = 0; has_words < 2; has_words++) {
            check_latin1(&slot, up, ROOM);
            check_latin1(&slot, down, ROOM);
            check_latin1(&slot, bytes_of(mixed), sizeof mixed - 1);
            if (kind == YENGATOMU_SENTENCES) {
                CHECK(yengatomu_boundaries_latin1(&slot, bytes_of("Un \xe9t. Oui."), 11, 0, places, ROOM) == (has_words ? 1 : 2));
                if (!has_words) CHECK(yengatomu_load_abbreviations(&slot, abbreviations, 2) == YENGATOMU_OK);
            } else {
                CHECK(yengatomu_load_dictionary(&slot, &thai, 1, YENGATOMU_THAI) == (kind ? YENGATOMU_OK : YENGATOMU_NO_SUCH));
            }
        }
        yengatomu_close(&slot);
    }
}

/* A family of emoji takes two columns by cluster, and six by character. */
static void try_columns(void) {
    static const char family[] = "\xf0\x9f\x91\xa9\xe2\x80\x8d\xf0\x9f\x91\xa9\xe2\x80\x8d\xf0\x9f\x91\xa7 a";
    static const uint16_t units[] = {0xD83D, 0xDC69, 0x200D, 0xD83D, 0xDC69, 0x200D, 0xD83D, 0xDC67, ' ', 'a'};
    const size_t len = sizeof family - 1;
    size_t ends[2], widths[2], places[ROOM];
    yengatomu_slot slot;
    for (uint32_t kind = 0; kind < YENGATOMU_LINES; kind++) {
        slot = opened(kind);
        CHECK(yengatomu_count_by_cluster(&slot) == YENGATOMU_NO_SUCH);
        yengatomu_close(&slot);
    }
    slot = opened(YENGATOMU_LINES);
    CHECK(yengatomu_wrap_columns(&slot, bytes_of(family), len, 0, 9, ends, 2, widths, 2) == 1 && ends[0] == len && widths[0] == 8);
    for (int times = 0; times < 2; times++) {
        CHECK(yengatomu_count_by_cluster(&slot) == YENGATOMU_OK);
        CHECK(yengatomu_wrap_columns(&slot, bytes_of(family), len, 0, 4, ends, 2, widths, 2) == 1 && ends[0] == len && widths[0] == 4);
        CHECK(yengatomu_wrap_columns_utf16(&slot, units, 10, 0, 4, ends, 2, widths, 2) == 1 && ends[0] == 10 && widths[0] == 4);
        CHECK(yengatomu_wrap(&slot, bytes_of(family), len, 0, 3, ends, 2) == 2 && ends[0] == len - 1 && ends[1] == len);
        CHECK(yengatomu_wrap_utf16(&slot, units, 10, 0, 3, ends, 2) == 2 && ends[0] == 9 && ends[1] == 10);
        CHECK(yengatomu_boundaries(&slot, bytes_of(family), len, 0, places, ROOM) == 2 && places[0] == len - 1);
    }
    CHECK(yengatomu_load_abbreviations(&slot, &(const yengatomu_word){bytes_of("a"), 1}, 1) == YENGATOMU_NO_SUCH);
    check_empty_text(&slot);
    check_rests(&slot, family);
    check_room(&slot, family);
    yengatomu_close(&slot);
}

static const char snake[] = "Letter = \\p{L} + \\p{M} + \\p{Nd}\nLine = [_ -]\nLetter \xc3\x97 Letter\nLine \xc3\x97 Line\n\xc3\xb7\n";

static void check_snake(yengatomu_slot *slot) {
    static const size_t wanted[] = {5, 6, 10};
    static const uint16_t units[] = {'s', 'n', 'a', 'k', 'e', '_', 'c', 'a', 's', 'e'};
    const yengatomu_word word = {bytes_of("a"), 1};
    const uint8_t *text = bytes_of("snake_case");
    size_t places[ROOM];
    uint8_t marks[ROOM];
    CHECK(slot->full);
    CHECK(yengatomu_boundaries(slot, text, 10, 0, places, ROOM) == 3 && !memcmp(places, wanted, sizeof wanted));
    CHECK(yengatomu_boundaries_utf16(slot, units, 10, 0, places, ROOM) == 3 && !memcmp(places, wanted, sizeof wanted));
    CHECK(yengatomu_boundaries_latin1(slot, text, 10, 0, places, ROOM) == 3 && !memcmp(places, wanted, sizeof wanted));
    CHECK(yengatomu_marked_boundaries(slot, text, 10, 0, places, ROOM, marks, ROOM) == 3 && !memcmp(marks, "\0\0\0", 3));
    CHECK(yengatomu_next(slot, text, 10, 0) == 5 && yengatomu_previous(slot, text, 10, 10) == 6);
    CHECK(yengatomu_count(slot, text, 10) == 3 && yengatomu_count_words(slot, text, 10) == 0);
    CHECK(yengatomu_wrap(slot, text, 10, 0, 3, places, ROOM) == 0);
    CHECK(yengatomu_load_dictionary(slot, &word, 1, YENGATOMU_THAI) == YENGATOMU_NO_SUCH);
    CHECK(yengatomu_load_abbreviations(slot, &word, 1) == YENGATOMU_NO_SUCH && yengatomu_count_by_cluster(slot) == YENGATOMU_NO_SUCH);
}

/* Rules that are wrong, cut off at each byte, without a machine, and in slots that hold something. */
static void try_rules(void) {
    static const struct {
        const char *text;
        uint32_t status;
        size_t line;
    } rows[] = {
        {"", YENGATOMU_WRONG_RULES, 1},
        {"\n# nothing\n", YENGATOMU_WRONG_RULES, 3},
        {"A = [a]\nA \xc3\x97 B\n\xc3\xb7\n", YENGATOMU_WRONG_RULES, 2},
        {"A = [a]\nA \xc3\x97 A\n", YENGATOMU_WRONG_RULES, 3},
        {"A = [a]\nA \xc3\x97 A\n\xc3", YENGATOMU_WRONG_RULES, 0},
        {"\xff", YENGATOMU_WRONG_RULES, 0},
        {"A = [a]\nB = [b]\nA B \xc3\xb7 A\nB A \xc3\xb7 B\n\xc3\x97\n", YENGATOMU_NO_MACHINE, 3},
    };
    yengatomu_slot slot = {0};
    size_t line = 7, len = sizeof snake - 1;
    for (size_t i = 0; i < 2 * sizeof rows / sizeof *rows; i++) {
        /* Each second time the slot holds a segmenter, which must be freed. */
        if (i % 2) CHECK(yengatomu_open_rules(&slot, bytes_of(snake), len, &line) == YENGATOMU_OK && line == 0);
        line = 7;
        CHECK(yengatomu_open_rules(&slot, bytes_of(rows[i / 2].text), strlen(rows[i / 2].text), &line) == rows[i / 2].status);
        CHECK(line == rows[i / 2].line);
        check_empty(&slot);
    }
    for (size_t some = 0; some < len; some++) {
        uint8_t *front = block(some);
        uint32_t status;
        memcpy(front, snake, some);
        status = yengatomu_open_rules(&slot, front, some, &line);
        /* (the last rule is there but for the line feed behind it) */
        CHECK(status == (some == len - 1 ? YENGATOMU_OK : YENGATOMU_WRONG_RULES) && line <= 6);
        CHECK(slot.full == (status == YENGATOMU_OK));
        free(front);
    }
    check_snake(&slot);
    CHECK(yengatomu_open(&slot, YENGATOMU_WORDS, 0, 0, false) == YENGATOMU_OK);
    CHECK(yengatomu_open_rules(&slot, bytes_of(snake), len, &line) == YENGATOMU_OK && line == 0);
    check_snake(&slot);
    check_empty_text(&slot);
    check_rests(&slot, "ab__c-- d!\n\xff\xe0\xb8\xa0_");
    check_room(&slot, "ab__c-- d!\n\xff\xe0\xb8\xa0_");
    yengatomu_close(&slot);
    check_empty(&slot);
}

/* A text of 2^33 zero bytes with a line feed at 2^32, at 2^32 + 7 and 1,000 bytes before the end. */
static void try_large(void) {
    const size_t len = (size_t)1 << 33, middle = (size_t)1 << 32;
    size_t places[8];
    uint8_t *text = mmap(NULL, len, PROT_READ | PROT_WRITE, MAP_PRIVATE | MAP_ANONYMOUS | MAP_NORESERVE, -1, 0);
    if (text == MAP_FAILED) {
        puts("no address space for 2^33 bytes");
        return;
    }
    text[middle] = text[middle + 7] = text[len - 1000] = '\n';
    for (uint32_t kind = 0; kind < 4; kind++) {
        yengatomu_slot slot = opened(kind);
        bool is_each = kind == YENGATOMU_CLUSTERS || kind == YENGATOMU_WORDS;
        if (is_each) {
            CHECK(yengatomu_boundaries(&slot, text, len, 0, places, 8) == 8 && places[7] == 8);
            CHECK(yengatomu_next(&slot, text, len, 0) == 1);
        }
        CHECK(yengatomu_boundaries(&slot, text, len, middle + 1, places, 1) == 1);
        CHECK(places[0] == (is_each ? middle + 2 : middle + 8));
        CHECK(yengatomu_next(&slot, text, len, middle + 3) == (is_each ? middle + 4 : middle + 8));
        CHECK(yengatomu_previous(&slot, text, len, middle + 3) == (is_each ? middle + 2 : middle + 1));
        CHECK(yengatomu_boundaries(&slot, text, len, len - 3, places, 8) == (is_each ? 3 : 1));
        CHECK(places[is_each ? 2 : 0] == len);
        CHECK(yengatomu_next(&slot, text, len, len - 1) == len && yengatomu_next(&slot, text, len, len) == YENGATOMU_NONE);
        CHECK(yengatomu_previous(&slot, text, len, SIZE_MAX) == len);
        CHECK(yengatomu_wrap(&slot, text, len, len - 1000, 80, places, 8) == (kind == YENGATOMU_LINES ? 2 : 0));
        yengatomu_close(&slot);
    }
    munmap(text, len);
    puts("2^33 bytes");
}

int main(int count, char **words) {
    try_numbers();
    try_slots();
    try_texts();
    try_ill_formed();
    try_dictionaries();
    try_abbreviations();
    try_latin1();
    try_columns();
    try_rules();
    if (count > 1 && !strcmp(words[1], "large")) try_large();
    return failed ? 1 : 0;
}
