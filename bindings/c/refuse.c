/* Refuses each growth of open, open_rules, load_dictionary, load_abbreviations, count_by_cluster and wrap_balanced in turn, alone and with all that
 * come behind it. Each must say that it is out of memory, leave no block behind, and leave the slot empty, or as it was. The other calls must ask
 * for no memory at all.
 *
 * Link it with -Wl,--wrap=NAME for malloc, calloc, realloc, aligned_alloc, posix_memalign and free. */
#include "check.h"
#include <string.h>
#include <yengatomu.h>

void *__real_malloc(size_t size);
void *__real_calloc(size_t count, size_t size);
void *__real_realloc(void *at, size_t size);
void *__real_aligned_alloc(size_t alignment, size_t size);
int __real_posix_memalign(void **at, size_t alignment, size_t size);
void __real_free(void *at);
void *__wrap_malloc(size_t size);
void *__wrap_calloc(size_t count, size_t size);
void *__wrap_realloc(void *at, size_t size);
void *__wrap_aligned_alloc(size_t alignment, size_t size);
int __wrap_posix_memalign(void **at, size_t alignment, size_t size);
void __wrap_free(void *at);

/* How many growths go well from now on, -1 for all; whether only the next one is refused then, or all; how many were asked for and refused; and how
 * many blocks there are. */
static long left = -1, asked, refused, live;
static bool once;

static bool is_refused(void) {
    asked++;
    if (left > 0) left--;
    else if (left == 0) {
        if (once) left = -1;
        refused++;
        return true;
    }
    return false;
}

static void *held(void *at) {
    live += at != NULL;
    return at;
}

void *__wrap_malloc(size_t size) { return is_refused() ? NULL : held(__real_malloc(size)); }
void *__wrap_calloc(size_t count, size_t size) { return is_refused() ? NULL : held(__real_calloc(count, size)); }
void *__wrap_aligned_alloc(size_t alignment, size_t size) { return is_refused() ? NULL : held(__real_aligned_alloc(alignment, size)); }

void *__wrap_realloc(void *at, size_t size) {
    if (is_refused()) return NULL;
    return at ? __real_realloc(at, size) : held(__real_realloc(at, size));
}

int __wrap_posix_memalign(void **at, size_t alignment, size_t size) {
    int status = is_refused() ? 12 : __real_posix_memalign(at, alignment, size);
    live += !status;
    return status;
}

void __wrap_free(void *at) {
    live -= at != NULL;
    __real_free(at);
}

static const char text[] = "Can't \xe0\xb8\xa0\xe0\xb8\xb2\xe0\xb8\xa9\xe0\xb8\xb2\xe0\xb9\x84\xe0\xb8\x97\xe0\xb8\xa2 3.14! Yes.\n\xff\xf0\x9f\x87";
static const char rules[] = "Letter = [a..z]\nDigit = [0..9]\nLetter \xc3\x97 Letter\nDigit \xc3\x97 Digit\n\xc3\xb7\n";
static const uint16_t units[] = {'a', 0xD800, ' ', 0xDC00, 0xD83C, 0xDDFB, '\n', 0xE20, '.'};
enum { UNITS = sizeof units / sizeof *units, ROOM = sizeof text };

/* Asks all calls of a slot that owe no memory, and returns how many growths they asked for. */
static long growths_of_calls(yengatomu_slot *slot) {
    const uint8_t *bytes = (const uint8_t *)text;
    size_t places[ROOM], widths[ROOM], len = sizeof text - 1;
    uint8_t marks[ROOM];
    long before = asked;
    left = 0;
    yengatomu_boundaries(slot, bytes, len, 0, places, ROOM);
    yengatomu_boundaries_utf16(slot, units, UNITS, 0, places, ROOM);
    yengatomu_boundaries_latin1(slot, bytes, len, 0, places, ROOM);
    yengatomu_marked_boundaries(slot, bytes, len, 0, places, ROOM, marks, ROOM);
    yengatomu_marked_boundaries_utf16(slot, units, UNITS, 0, places, ROOM, marks, ROOM);
    yengatomu_marked_boundaries_latin1(slot, bytes, len, 0, places, ROOM, marks, ROOM);
    yengatomu_wrap(slot, bytes, len, 0, 5, places, ROOM);
    yengatomu_wrap_columns(slot, bytes, len, 0, 5, places, ROOM, widths, ROOM);
    for (size_t place = 0; place <= len; place++) {
        yengatomu_next(slot, bytes, len, place);
        yengatomu_previous(slot, bytes, len, place);
    }
    yengatomu_count(slot, bytes, len);
    yengatomu_count_utf16(slot, units, UNITS);
    yengatomu_count_words(slot, bytes, len);
    yengatomu_count_words_utf16(slot, units, UNITS);
    left = -1;
    return asked - before;
}

/* Asks for balanced lines, of whose growths that of a number is refused. Returns whether one was. */
static bool refuse_balanced(const yengatomu_slot *slot, long number, const size_t *wanted, size_t count) {
    size_t ends[ROOM] = {0}, widths[ROOM], found;
    long before = live;
    refused = 0;
    left = number;
    found = yengatomu_wrap_balanced(slot, (const uint8_t *)text, sizeof text - 1, 0, 5, ends, ROOM, widths, ROOM);
    left = -1;
    CHECK(live == before);
    if (found == YENGATOMU_NONE)
        CHECK(refused && !ends[0]);
    else
        CHECK(found == count && !memcmp(ends, wanted, count * sizeof *wanted));
    return refused;
}

/* Balanced lines owe memory while they are found, and only of lines. */
static void refuse_balanced_lines(void) {
    yengatomu_slot slot = {0};
    size_t wanted[ROOM], widths[ROOM], count;
    long number = 0;
    CHECK(yengatomu_open(&slot, YENGATOMU_LINES, 0, 0, false) == YENGATOMU_OK);
    count = yengatomu_wrap_balanced(&slot, (const uint8_t *)text, sizeof text - 1, 0, 5, wanted, ROOM, widths, ROOM);
    CHECK(count > 2 && count < ROOM);
    while (refuse_balanced(&slot, number, wanted, count)) number++;
    CHECK(number > 4);
    yengatomu_close(&slot);
}

/* The boundaries of the text by what the slot holds. */
static size_t found(yengatomu_slot *slot, size_t *places) {
    return yengatomu_boundaries(slot, (const uint8_t *)text, sizeof text - 1, 0, places, ROOM);
}

/* Whether the slot finds these boundaries. */
static bool finds(yengatomu_slot *slot, const size_t *wanted, size_t count) {
    size_t places[ROOM];
    return found(slot, places) == count && !memcmp(places, wanted, count * sizeof *wanted);
}

/* Opens a slot, of whose growths that of a number is refused, alone or with all behind it. Returns whether one was. */
static bool refuse_open(yengatomu_slot *slot, uint32_t kind, uint32_t strictness, long number, const size_t *wanted, size_t count) {
    long before = live;
    uint32_t status;
    /* (every other time the slot holds a segmenter, which open frees first) */
    if (number % 2) CHECK(yengatomu_open(slot, YENGATOMU_CLUSTERS, 0, 0, false) == YENGATOMU_OK);
    refused = 0;
    left = number;
    status = yengatomu_open(slot, kind, strictness, 0, false);
    left = -1;
    if (status == YENGATOMU_OK) {
        /* (all growths went well, or one that wasn't needed didn't) */
        CHECK(slot->full && finds(slot, wanted, count));
        yengatomu_close(slot);
    } else {
        CHECK(status == YENGATOMU_NO_MEMORY && refused);
    }
    CHECK(!slot->full && live == before && found(slot, (size_t[ROOM]){0}) == 0);
    return refused;
}

static void refuse_opens(uint32_t kind, uint32_t strictness) {
    yengatomu_slot slot = {0};
    size_t wanted[ROOM], count;
    long number = 0;
    CHECK(yengatomu_open(&slot, kind, strictness, 0, false) == YENGATOMU_OK);
    count = found(&slot, wanted);
    CHECK(growths_of_calls(&slot) == 0);
    yengatomu_close(&slot);
    for (once = false; refuse_open(&slot, kind, strictness, number, wanted, count); once = !once) number += once;
    CHECK(number > 0);
    once = false;
    printf("open %u %u: %ld growths\n", kind, strictness, number);
}

/* Opens a slot by rules in the same way. */
static bool refuse_rules(long number, const size_t *wanted, size_t count) {
    yengatomu_slot slot = {0};
    size_t line = 7;
    long before = live;
    uint32_t status;
    if (number % 2) CHECK(yengatomu_open(&slot, YENGATOMU_WORDS, 0, 0, false) == YENGATOMU_OK);
    refused = 0;
    left = number;
    status = yengatomu_open_rules(&slot, (const uint8_t *)rules, sizeof rules - 1, &line);
    left = -1;
    CHECK(line == 0);
    if (status == YENGATOMU_OK) {
        CHECK(slot.full && finds(&slot, wanted, count));
        yengatomu_close(&slot);
    } else {
        CHECK(status == YENGATOMU_NO_MEMORY && refused);
    }
    CHECK(!slot.full && live == before);
    return refused;
}

static void refuse_all_rules(void) {
    yengatomu_slot slot = {0};
    size_t wanted[ROOM], count, line;
    long number = 0;
    CHECK(yengatomu_open_rules(&slot, (const uint8_t *)rules, sizeof rules - 1, &line) == YENGATOMU_OK);
    count = found(&slot, wanted);
    CHECK(count > 3 && growths_of_calls(&slot) == 0);
    yengatomu_close(&slot);
    for (once = false; refuse_rules(number, wanted, count); once = !once) number += once;
    CHECK(number > 0);
    once = false;
    printf("rules: %ld growths\n", number);
}

/* Loads a dictionary in the same way into a new segmenter. */
static bool refuse_load(uint32_t kind, uint32_t script, long number) {
    static const yengatomu_word words[] = {
        {(const uint8_t *)"\xe0\xb8\xa0\xe0\xb8\xb2\xe0\xb8\xa9\xe0\xb8\xb2", 12},
        {(const uint8_t *)"\xe0\xb9\x84\xe0\xb8\x97\xe0\xb8\xa2", 9},
    };
    yengatomu_slot slot = {0};
    size_t wanted[ROOM], count;
    long before = live, blocks;
    uint32_t status;
    CHECK(yengatomu_open(&slot, kind, 0, 0, false) == YENGATOMU_OK);
    count = found(&slot, wanted);
    blocks = live;
    refused = 0;
    left = number;
    status = yengatomu_load_dictionary(&slot, words, 2, script);
    left = -1;
    if (status != YENGATOMU_OK) CHECK(status == YENGATOMU_NO_MEMORY && refused && live == blocks && finds(&slot, wanted, count));
    CHECK(growths_of_calls(&slot) == 0);
    /* (it takes what it was refused) */
    CHECK(yengatomu_load_dictionary(&slot, words, 2, script) == YENGATOMU_OK);
    yengatomu_close(&slot);
    CHECK(live == before);
    return refused;
}

static void refuse_loads(uint32_t kind, uint32_t script) {
    long number = 0;
    for (once = false; refuse_load(kind, script, number); once = !once) number += once;
    CHECK(number > 0);
    once = false;
    printf("dictionary of kind %u, script %u: %ld growths\n", kind, script, number);
}

/* What a slot takes beside the words of scripts: abbreviations, or clusters by which columns are counted. */
static uint32_t take_more(yengatomu_slot *slot, uint32_t kind) {
    static const yengatomu_word words[] = {{(const uint8_t *)"3.14!", 5}, {(const uint8_t *)"Mr.", 3}};
    return kind == YENGATOMU_LINES ? yengatomu_count_by_cluster(slot) : yengatomu_load_abbreviations(slot, words, 2);
}

/* Has a new segmenter take it in the same way. */
static bool refuse_more(uint32_t kind, long number) {
    yengatomu_slot slot = {0};
    size_t before_it[ROOM], count;
    long before = live, blocks;
    uint32_t status;
    CHECK(yengatomu_open(&slot, kind, 0, 0, false) == YENGATOMU_OK);
    count = found(&slot, before_it);
    blocks = live;
    refused = 0;
    left = number;
    status = take_more(&slot, kind);
    left = -1;
    if (status != YENGATOMU_OK) {
        CHECK(status == YENGATOMU_NO_MEMORY && refused && live == blocks && finds(&slot, before_it, count));
        /* (it takes what it was refused) */
        CHECK(take_more(&slot, kind) == YENGATOMU_OK);
    }
    CHECK(growths_of_calls(&slot) == 0);
    CHECK(found(&slot, (size_t[ROOM]){0}) == (kind == YENGATOMU_LINES ? count : count - 1));
    yengatomu_close(&slot);
    CHECK(live == before);
    return refused;
}

static void refuse_all_more(uint32_t kind) {
    long number = 0;
    for (once = false; refuse_more(kind, number); once = !once) number += once;
    CHECK(number > 0);
    once = false;
    printf("more of kind %u: %ld growths\n", kind, number);
}

int main(void) {
    long before;
    /* (so that standard output has its buffer, which isn't counted) */
    puts("refusing");
    fflush(stdout);
    before = live;
    for (uint32_t kind = YENGATOMU_CLUSTERS; kind <= YENGATOMU_LINES; kind++) refuse_opens(kind, YENGATOMU_STRICT);
    refuse_opens(YENGATOMU_LINES, YENGATOMU_LOOSE);
    refuse_opens(YENGATOMU_LINES, YENGATOMU_ANYWHERE);
    refuse_all_rules();
    for (uint32_t script = YENGATOMU_MYANMAR; script <= YENGATOMU_THAI; script++) {
        refuse_loads(YENGATOMU_WORDS, script);
        refuse_loads(YENGATOMU_LINES, script);
    }
    refuse_all_more(YENGATOMU_SENTENCES);
    refuse_all_more(YENGATOMU_LINES);
    refuse_balanced_lines();
    CHECK(live == before);
    return failed ? 1 : 0;
}
