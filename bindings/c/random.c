/* Random texts: what the calls say of them must agree.
 *
 *     random ROUNDS SEED      so many texts of at most 60 bytes, and as many of 16-bit units, and of Latin-1
 *
 * A text is of random bytes and of pieces that rules look at, whole and cut off. Texts and buffers are blocks of just their size, so that
 * valgrind sees any access beyond them. */
#include "check.h"
#include <string.h>
#include <yengatomu.h>

enum { MOST = 64 };

static uint64_t state;

/* A random number below a bound. */
static size_t below(size_t bound) {
    state ^= state << 13;
    state ^= state >> 7;
    state ^= state << 17;
    return (size_t)((state >> 11) % bound);
}

static const char *const pieces[] = {
    "a", "Z", "e\xcc\x81", "1", "3.14", "can't", " ", "  ", "\r\n", "\n", "\r", ".", "! ", "? \"", "Mr. ", ",", "(", ")", "-", "/", "%", "$", "\t", "\xc2\xa0", "\xc2\xad",
    "\xe2\x80\x8d", "\xe2\x80\xa8", "\xe2\x80\x99", "\xe2\x80\x8b", "\xe2\x81\xa0", "\xef\xb8\x8f", "\xef\xbf\xbd", "\xcc\x88", "\xd7\x90", "\xd7\x91\"", "\xd8\xa7", "\xdb\x9d",
    "\xe0\xa4\x95\xe0\xa5\x8d\xe0\xa4\xb7", "\xe0\xb8\xa0\xe0\xb8\xb2\xe0\xb8\xa9\xe0\xb8\xb2", "\xe0\xb9\x84\xe0\xb8\x97\xe0\xb8\xa2", "\xe0\xb8\x81\xe0\xb8\xb4", "\xe1\x80\x80", "\xe1\x9e\x80",
    "\xe1\x84\x80\xe1\x85\xa1\xe1\x86\xa8", "\xea\xb0\x80", "\xea\xb0\x81", "\xe6\x9d\xb1\xe4\xba\xac", "\xe3\x80\x82", "\xe3\x81\x81", "\xe3\x82\xab", "\xef\xbc\x81", "\xf0\x9f\x87\xbb", "\xf0\x9f\x87\xbb\xf0\x9f\x87\xb3",
    "\xf0\x9f\x91\xa9\xe2\x80\x8d\xf0\x9f\x91\xa7", "\xf0\x9f\x91\x8d\xf0\x9f\x8f\xbd", "\xf0\xa0\x80\x80", "\xed\xa0\x80", "\xf4\x90\x80\x80", "\xc0\xaf", "\xe1\x80", "\xff",
};

/* The same in UTF-16, and surrogates alone. */
static const uint16_t units_of[] = {'a', '1', '.', ' ', '\n', '\r', 0x301, 0x200D, 0x2019, 0xE20, 0xE34, 0x915, 0x94D, 0x1100, 0x1161, 0xAC00, 0x4E00, 0x3002, 0xD83C, 0xDDFB, 0xDDF3, 0xD83D, 0xDC69, 0xFFFD, 0xFE0F};

/* Bytes of Latin-1 that rules look at; others come from all of them. */
static const uint8_t latin1[] = "aZe19.,!?'\"()-:  \t\r\n\x85\xa0\xa3\xab\xad\xb7\xbb\xbf\xc9\xd7\xe9\xff";

typedef struct kind {
    uint32_t number;
    bool has_words;
    yengatomu_slot slot;
} kind;

/* Boundaries with their marks, in blocks of just that many. */
typedef struct list {
    size_t count;
    size_t *places;
    uint8_t *marks;
} list;

static size_t marked(kind *it, const void *text, bool is_utf16, size_t len, size_t from, size_t *places, size_t room, uint8_t *marks) {
    return is_utf16 ? yengatomu_marked_boundaries_utf16(&it->slot, text, len, from, places, room, marks, room)
                    : yengatomu_marked_boundaries(&it->slot, text, len, from, places, room, marks, room);
}

static size_t unmarked(kind *it, const void *text, bool is_utf16, size_t len, size_t from, size_t *places, size_t room) {
    return is_utf16 ? yengatomu_boundaries_utf16(&it->slot, text, len, from, places, room) : yengatomu_boundaries(&it->slot, text, len, from, places, room);
}

/* All boundaries, which must rise to the end; as many as are counted; and the same in smaller buffers, with marks and without. */
static list all_of(kind *it, const void *text, bool is_utf16, size_t len) {
    list all = {is_utf16 ? yengatomu_count_utf16(&it->slot, text, len) : yengatomu_count(&it->slot, text, len), NULL, NULL};
    size_t words = 0, room = it->has_words ? all.count : 1 + below(3), places[MOST], count;
    CHECK(all.count <= len && (all.count > 0) == (len > 0));
    all.places = block(all.count * sizeof(size_t));
    all.marks = block(all.count);
    CHECK(marked(it, text, is_utf16, len, 0, all.places, all.count, all.marks) == all.count);
    for (size_t i = 0; i < all.count; i++) {
        CHECK(all.places[i] > (i ? all.places[i - 1] : 0));
        CHECK(all.marks[i] <= (it->number == YENGATOMU_WORDS ? 2 : it->number == YENGATOMU_LINES ? 1 : 0));
        words += it->number == YENGATOMU_WORDS && all.marks[i];
    }
    if (all.count) CHECK(all.places[all.count - 1] == len);
    CHECK((is_utf16 ? yengatomu_count_words_utf16(&it->slot, text, len) : yengatomu_count_words(&it->slot, text, len)) == words);
    for (size_t at = 0; at < all.count; at += count) {
        count = unmarked(it, text, is_utf16, len, at ? all.places[at - 1] : 0, places, room);
        CHECK(count == (room < all.count - at ? room : all.count - at));
        CHECK(!memcmp(places, all.places + at, count * sizeof(size_t)));
        if (!count) break;
    }
    return all;
}

static size_t next(kind *it, const void *text, bool is_utf16, size_t len, size_t place) {
    return is_utf16 ? yengatomu_next_utf16(&it->slot, text, len, place) : yengatomu_next(&it->slot, text, len, place);
}

static size_t previous(kind *it, const void *text, bool is_utf16, size_t len, size_t place) {
    return is_utf16 ? yengatomu_previous_utf16(&it->slot, text, len, place) : yengatomu_previous(&it->slot, text, len, place);
}

static void check_near(kind *it, const void *text, bool is_utf16, size_t len, list all) {
    for (size_t place = 0; place <= len + 1; place++) {
        size_t above = YENGATOMU_NONE, under = place ? 0 : YENGATOMU_NONE;
        for (size_t i = all.count; i-- > 0;)
            if (all.places[i] > place) above = all.places[i];
        for (size_t i = 0; i < all.count; i++)
            if (all.places[i] < place) under = all.places[i];
        CHECK(next(it, text, is_utf16, len, place) == above);
        CHECK(previous(it, text, is_utf16, len, place) == under);
    }
}

static size_t wrapped(kind *it, const void *text, bool is_utf16, size_t len, size_t columns, size_t *ends) {
    return is_utf16 ? yengatomu_wrap_utf16(&it->slot, text, len, 0, columns, ends, MOST) : yengatomu_wrap(&it->slot, text, len, 0, columns, ends, MOST);
}

static size_t wrapped_columns(kind *it, const void *text, bool is_utf16, size_t len, size_t columns, size_t *ends, size_t *widths) {
    return is_utf16 ? yengatomu_wrap_columns_utf16(&it->slot, text, len, 0, columns, ends, MOST, widths, MOST)
                    : yengatomu_wrap_columns(&it->slot, text, len, 0, columns, ends, MOST, widths, MOST);
}

/* Lines end at boundaries, and where they must; one that is wider than there is room for has one segment alone. */
static void check_wrapped(kind *it, const void *text, bool is_utf16, size_t len, list all) {
    size_t columns = below(10), ends[MOST], same[MOST], widths[MOST];
    size_t count = wrapped_columns(it, text, is_utf16, len, columns, ends, widths), at = 0;
    CHECK(wrapped(it, text, is_utf16, len, columns, same) == count && !memcmp(ends, same, count * sizeof *ends));
    if (it->number != YENGATOMU_LINES) {
        CHECK(!count);
        return;
    }
    for (size_t i = 0; i < count; i++) {
        size_t first = at;
        while (at < all.count && all.places[at] < ends[i]) CHECK(!all.marks[at++]);
        CHECK(at < all.count && all.places[at++] == ends[i]);
        CHECK(widths[i] <= columns || at == first + 1);
    }
    CHECK(at == all.count);
}

static void try_bytes(kind *kinds, size_t count) {
    uint8_t room[MOST], *text;
    size_t len = 0, most = below(MOST - 4);
    while (len < most) {
        const char *piece = pieces[below(sizeof pieces / sizeof *pieces)];
        for (size_t left = below(4) ? strlen(piece) : below(strlen(piece)) + 1; left && len < most; left--) room[len++] = (uint8_t)*piece++;
        if (len < most && !below(8)) room[len++] = (uint8_t)below(256);
    }
    text = block(len);
    memcpy(text, room, len);
    for (size_t i = 0; i < count; i++) {
        list all = all_of(&kinds[i], text, false, len);
        check_near(&kinds[i], text, false, len, all);
        check_wrapped(&kinds[i], text, false, len, all);
        free(all.places);
        free(all.marks);
    }
    free(text);
}

static void try_units(kind *kinds, size_t count) {
    size_t len = below(MOST / 2);
    uint16_t *text = block(2 * len);
    for (size_t i = 0; i < len; i++) text[i] = below(4) ? units_of[below(sizeof units_of / sizeof *units_of)] : (uint16_t)below(1 << 16);
    for (size_t i = 0; i < count; i++) {
        list all = all_of(&kinds[i], text, true, len);
        check_near(&kinds[i], text, true, len, all);
        check_wrapped(&kinds[i], text, true, len, all);
        free(all.places);
        free(all.marks);
    }
    free(text);
}

/* What the calls of Latin-1 say, from any place on and with any room, is what those of UTF-16 say of the same code points. */
static void try_latin1(kind *kinds, size_t count) {
    const size_t len = below(41), from = below(2) ? 0 : below(len + 2), room = below(2) ? len : below(len + 1), marks_room = below(2) ? room : below(len + 1);
    uint8_t *text = block(len), *marks = block(marks_room), *same_marks = block(marks_room);
    uint16_t *units = block(2 * len);
    size_t *places = block(room * sizeof *places), *same = block(room * sizeof *same);
    for (size_t i = 0; i < len; i++) {
        const char *piece = below(8) ? NULL : below(2) ? "Mr. " : "\xe9. ";
        if (piece && i + strlen(piece) <= len) {
            memcpy(text + i, piece, strlen(piece));
            i += strlen(piece) - 1;
        } else {
            text[i] = below(4) ? latin1[below(sizeof latin1 - 1)] : (uint8_t)(below(2) ? 0xC0 + below(64) : below(256));
        }
    }
    for (size_t i = 0; i < len; i++) units[i] = text[i];
    for (size_t i = 0; i < count; i++) {
        const yengatomu_slot *slot = &kinds[i].slot;
        size_t found = yengatomu_boundaries_utf16(slot, units, len, from, places, room);
        CHECK(yengatomu_boundaries_latin1(slot, text, len, from, same, room) == found && !memcmp(places, same, found * sizeof *places));
        found = yengatomu_marked_boundaries_utf16(slot, units, len, from, places, room, marks, marks_room);
        CHECK(yengatomu_marked_boundaries_latin1(slot, text, len, from, same, room, same_marks, marks_room) == found);
        CHECK(!memcmp(places, same, found * sizeof *places) && !memcmp(marks, same_marks, found));
    }
    free(text);
    free(marks);
    free(same_marks);
    free(units);
    free(places);
    free(same);
}

static void open_all(kind *kinds, size_t count) {
    static const yengatomu_word words[] = {
        {(const uint8_t *)"\xe0\xb8\xa0\xe0\xb8\xb2\xe0\xb8\xa9\xe0\xb8\xb2", 12},
        {(const uint8_t *)"\xe0\xb9\x84\xe0\xb8\x97\xe0\xb8\xa2", 9},
        {(const uint8_t *)"\xe0\xb8\xa0", 3},
    };
    static const yengatomu_word abbreviations[] = {
        {(const uint8_t *)"Mr.", 3},
        {(const uint8_t *)"1. a", 4},
        {(const uint8_t *)".", 1},
        {(const uint8_t *)"\xc3\xa9.", 3},
    };
    for (size_t i = 0; i < count; i++) {
        CHECK(yengatomu_open(&kinds[i].slot, kinds[i].number, (uint32_t)below(4), (uint32_t)below(3), below(2)) == YENGATOMU_OK);
        if (kinds[i].has_words) {
            bool of_sentences = kinds[i].number == YENGATOMU_SENTENCES;
            CHECK((of_sentences ? yengatomu_load_abbreviations(&kinds[i].slot, abbreviations, 4)
                                : yengatomu_load_dictionary(&kinds[i].slot, words, 3, YENGATOMU_THAI)) == YENGATOMU_OK);
        }
        /* (lines with words count columns by cluster, and others by character) */
        if (kinds[i].has_words && kinds[i].number == YENGATOMU_LINES) CHECK(yengatomu_count_by_cluster(&kinds[i].slot) == YENGATOMU_OK);
    }
}

int main(int count, char **words) {
    kind kinds[] = {{0, false, {0}}, {1, false, {0}}, {2, false, {0}}, {3, false, {0}}, {1, true, {0}}, {2, true, {0}}, {3, true, {0}}};
    const size_t kind_count = sizeof kinds / sizeof *kinds;
    size_t rounds = count == 3 ? strtoul(words[1], NULL, 10) : 0;
    if (!rounds) {
        fprintf(stderr, "usage: random ROUNDS SEED\n");
        return 2;
    }
    state = strtoul(words[2], NULL, 10) * 2 + 1;
    for (size_t round = 0; round < rounds && failed < 10; round++) {
        if (round % 100 == 0) open_all(kinds, kind_count);
        try_bytes(kinds, kind_count);
        try_units(kinds, kind_count);
        try_latin1(kinds, kind_count);
        if (failed) fprintf(stderr, "in round %zu\n", round);
    }
    for (size_t i = 0; i < kind_count; i++) yengatomu_close(&kinds[i].slot);
    printf("%zu texts of bytes, and as many of units, and of Latin-1\n", rounds);
    return failed ? 1 : 0;
}
