/* threads FILE: ten threads at once find what one thread found before: each in a slot of its own, which it opens or another thread opened; then all
 * in one slot, of each kind and by rules, with and without words, and in an empty one.
 * threads FILE write: all in one slot of words, to which one of them writes what it has already. A race detector must report that. */
#define _POSIX_C_SOURCE 200809L
#include "check.h"
#include <pthread.h>
#include <string.h>
#include <yengatomu.h>

enum { THREADS = 10, ROUNDS = 2, ROOM = 4096 };

static const uint8_t *text;
static uint16_t *units;
static size_t len;
static pthread_barrier_t all_there;

typedef struct task {
    pthread_t thread;
    yengatomu_slot own;
    const yengatomu_slot *slot;
    yengatomu_slot *written;
    uint32_t kind;
    bool opens;
    uint64_t wanted, found;
} task;

/* Sums of what the calls find that read a slot. */

static uint64_t sum_of_bytes(const yengatomu_slot *slot) {
    size_t places[ROOM] = {0}, widths[ROOM], from = 0, count;
    uint8_t marks[ROOM];
    uint64_t sum = yengatomu_count(slot, text, len) * 31 + yengatomu_count_words(slot, text, len);
    while ((count = yengatomu_marked_boundaries(slot, text, len, from, places, ROOM, marks, ROOM))) {
        for (size_t i = 0; i < count; i++) sum = sum * 31 + places[i] * 3 + marks[i];
        from = places[count - 1];
    }
    count = yengatomu_wrap_columns(slot, text, len, 0, 30, places, ROOM, widths, ROOM);
    for (size_t i = 0; i < count; i++) sum = sum * 31 + places[i] * 3 + widths[i];
    sum = sum * 31 + yengatomu_wrap(slot, text, len, len / 2, 20, places, ROOM);
    sum = sum * 31 + yengatomu_boundaries(slot, text, len, len / 2, places, ROOM);
    return sum * 31 + yengatomu_next(slot, text, len, len / 3) * 3 + yengatomu_previous(slot, text, len, len / 3);
}

static uint64_t sum_of_units(const yengatomu_slot *slot) {
    size_t places[ROOM], widths[ROOM];
    uint8_t marks[ROOM];
    uint64_t sum = yengatomu_count_utf16(slot, units, len) * 31 + yengatomu_count_words_utf16(slot, units, len);
    size_t count = yengatomu_marked_boundaries_utf16(slot, units, len, 0, places, ROOM, marks, ROOM);
    for (size_t i = 0; i < count; i++) sum = sum * 31 + places[i] * 3 + marks[i];
    count = yengatomu_wrap_columns_utf16(slot, units, len, 0, 30, places, ROOM, widths, ROOM);
    for (size_t i = 0; i < count; i++) sum = sum * 31 + places[i] * 3 + widths[i];
    sum = sum * 31 + yengatomu_wrap_utf16(slot, units, len, len / 2, 20, places, ROOM);
    sum = sum * 31 + yengatomu_boundaries_utf16(slot, units, len, len / 2, places, ROOM);
    return sum * 31 + yengatomu_next_utf16(slot, units, len, len / 3) * 3 + yengatomu_previous_utf16(slot, units, len, len / 3);
}

static uint64_t sum_of_latin1(const yengatomu_slot *slot) {
    size_t places[ROOM], count;
    uint8_t marks[ROOM];
    uint64_t sum = yengatomu_boundaries_latin1(slot, text, len, len / 2, places, ROOM);
    count = yengatomu_marked_boundaries_latin1(slot, text, len, 0, places, ROOM, marks, ROOM);
    for (size_t i = 0; i < count; i++) sum = sum * 31 + places[i] * 3 + marks[i];
    return sum;
}

static uint64_t sum_of(const yengatomu_slot *slot) { return (sum_of_bytes(slot) * 31 + sum_of_units(slot)) * 31 + sum_of_latin1(slot); }

static void *work(void *given) {
    task *it = given;
    pthread_barrier_wait(&all_there);
    for (int round = 0; round < ROUNDS; round++) {
        if (it->written) it->written->full = true;
        if (it->opens && yengatomu_open(&it->own, it->kind, 0, 0, false) != YENGATOMU_OK) return NULL;
        it->found = sum_of(it->slot);
        if (it->opens) yengatomu_close(&it->own);
        if (it->found != it->wanted) return NULL;
    }
    return NULL;
}

static void run(task *tasks) {
    for (int i = 0; i < THREADS; i++) {
        tasks[i].found = ~tasks[i].wanted;
        CHECK(!pthread_create(&tasks[i].thread, NULL, work, &tasks[i]));
    }
    for (int i = 0; i < THREADS; i++) {
        CHECK(!pthread_join(tasks[i].thread, NULL));
        CHECK(tasks[i].found == tasks[i].wanted);
    }
}

/* Each thread in a slot of its own. */
static void try_own(task *tasks) {
    for (int opens = 1; opens >= 0; opens--) {
        for (int i = 0; i < THREADS; i++) {
            tasks[i].slot = &tasks[i].own;
            tasks[i].kind = (uint32_t)i % 4;
            tasks[i].opens = opens;
            CHECK(yengatomu_open(&tasks[i].own, tasks[i].kind, 0, 0, false) == YENGATOMU_OK);
            tasks[i].wanted = sum_of(&tasks[i].own);
        }
        run(tasks);
    }
    for (int i = 0; i < THREADS; i++) yengatomu_close(&tasks[i].own);
}

/* All in one slot, whose bytes stay as they are. Returns the sum of what is found in it. */
static uint64_t try_shared(task *tasks, const yengatomu_slot *slot) {
    yengatomu_slot before;
    uint64_t wanted = sum_of(slot);
    memcpy(&before, slot, sizeof before);
    for (int i = 0; i < THREADS; i++) {
        tasks[i].slot = slot;
        tasks[i].opens = false;
        tasks[i].wanted = wanted;
    }
    run(tasks);
    CHECK(!memcmp(&before, slot, sizeof before));
    return wanted;
}

static yengatomu_word word_of(const char *text) {
    const yengatomu_word it = {(const uint8_t *)text, strlen(text)};
    return it;
}

/* All in one slot of a kind, first without words, and then with some that the text has: it is cut elsewhere. */
static void try_kind(task *tasks, uint32_t kind) {
    const yengatomu_word thai[] = {word_of("\xe0\xb8\xa0\xe0\xb8\xb2\xe0\xb8\xa9\xe0\xb8\xb2"), word_of("\xe0\xb9\x84\xe0\xb8\x97\xe0\xb8\xa2")};
    const yengatomu_word chinese = word_of("\xe8\x9c\x9c\xe8\x9c\x82"), abbreviation = word_of("bi\xe1\xbb\x83n.");
    yengatomu_slot slot = {0};
    CHECK(yengatomu_open(&slot, kind, 0, 0, false) == YENGATOMU_OK);
    const uint64_t plain = try_shared(tasks, &slot);
    if (kind == YENGATOMU_SENTENCES) CHECK(yengatomu_load_abbreviations(&slot, &abbreviation, 1) == YENGATOMU_OK);
    if (kind == YENGATOMU_WORDS) CHECK(yengatomu_load_dictionary(&slot, &chinese, 1, YENGATOMU_CHINESE_OR_JAPANESE) == YENGATOMU_OK);
    if (kind == YENGATOMU_WORDS || kind == YENGATOMU_LINES) CHECK(yengatomu_load_dictionary(&slot, thai, 2, YENGATOMU_THAI) == YENGATOMU_OK);
    if (kind == YENGATOMU_LINES) CHECK(yengatomu_count_by_cluster(&slot) == YENGATOMU_OK);
    if (kind != YENGATOMU_CLUSTERS) CHECK(try_shared(tasks, &slot) != plain);
    yengatomu_close(&slot);
}

/* All in one slot by rules: two letters `a` stay together. */
static void try_rules(task *tasks) {
    const char rules[] = "A = [a]\nA \xc3\x97 A\n\xc3\xb7\n";
    yengatomu_slot slot = {0};
    size_t line;
    CHECK(yengatomu_open_rules(&slot, (const uint8_t *)rules, sizeof rules - 1, &line) == YENGATOMU_OK);
    try_shared(tasks, &slot);
    yengatomu_close(&slot);
}

/* All in one slot, to which one of them writes. */
static void try_written(task *tasks) {
    yengatomu_slot slot = {0};
    CHECK(yengatomu_open(&slot, YENGATOMU_WORDS, 0, 0, false) == YENGATOMU_OK);
    tasks[0].written = &slot;
    try_shared(tasks, &slot);
    yengatomu_close(&slot);
}

int main(int count, char **words) {
    static task tasks[THREADS];
    static const yengatomu_slot empty;
    if (count != 2 && (count != 3 || strcmp(words[2], "write"))) {
        fprintf(stderr, "usage: threads FILE [write]\n");
        return 2;
    }
    text = read_file(words[1], &len);
    units = block(len * sizeof *units);
    for (size_t i = 0; i < len; i++) units[i] = text[i];
    CHECK(!pthread_barrier_init(&all_there, NULL, THREADS));
    if (count == 3) {
        try_written(tasks);
    } else {
        try_own(tasks);
        try_shared(tasks, &empty);
        for (uint32_t kind = 0; kind < 4; kind++) try_kind(tasks, kind);
        try_rules(tasks);
    }
    pthread_barrier_destroy(&all_there);
    free(units);
    free((void *)text);
    printf("%d threads\n", THREADS);
    return failed ? 1 : 0;
}
