/* parallel FILE [THREADS]: counts the words of a file in so many threads, one if none are named, and says how long that took.
 *
 * A text may be split behind line feeds: its parts have the words that it has. All threads share one segmenter. */
#define _POSIX_C_SOURCE 200809L
#include "check.h"
#include <pthread.h>
#include <string.h>
#include <time.h>
#include <yengatomu.h>

enum { MOST = 256 };

static yengatomu_slot words;

typedef struct part {
    pthread_t thread;
    const uint8_t *text;
    size_t len, count;
} part;

/* Splits a text behind line feeds into at most so many parts, of about the same size where its lines are short. Returns how many. */
static size_t split(const uint8_t *text, size_t len, part *parts, size_t most) {
    const size_t size = (len + most - 1) / most;
    size_t count = 0;
    while (len) {
        const uint8_t *feed = len > size ? memchr(text + size - 1, '\n', len - size + 1) : NULL;
        const size_t taken = feed ? (size_t)(feed - text) + 1 : len;
        parts[count].text = text;
        parts[count++].len = taken;
        text += taken;
        len -= taken;
    }
    return count;
}

static void *count_part(void *given) {
    part *it = given;
    it->count = yengatomu_count_words(&words, it->text, it->len);
    return NULL;
}

/* Counts the words of a text in at most so many threads. */
static size_t count_words(const uint8_t *text, size_t len, size_t threads) {
    static part parts[MOST];
    const size_t count = split(text, len, parts, threads);
    size_t sum = 0;
    for (size_t i = 0; i < count; i++) CHECK(!pthread_create(&parts[i].thread, NULL, count_part, &parts[i]));
    for (size_t i = 0; i < count; i++) {
        CHECK(!pthread_join(parts[i].thread, NULL));
        sum += parts[i].count;
    }
    return sum;
}

static double now(void) {
    struct timespec it;
    CHECK(!clock_gettime(CLOCK_MONOTONIC, &it));
    return (double)it.tv_sec + (double)it.tv_nsec / 1e9;
}

int main(int count, char **given) {
    const long threads = count == 3 ? strtol(given[2], NULL, 10) : 1;
    size_t len;
    if (count < 2 || count > 3 || threads < 1 || threads > MOST) {
        fprintf(stderr, "usage: parallel FILE [THREADS]\n");
        return 2;
    }
    uint8_t *text = read_file(given[1], &len);
    CHECK(yengatomu_open(&words, YENGATOMU_WORDS, 0, 0, false) == YENGATOMU_OK);
    const double start = now();
    const size_t found = count_words(text, len, (size_t)threads);
    printf("%zu words in %.3f s\n", found, now() - start);
    yengatomu_close(&words);
    free(text);
    return failed ? 1 : 0;
}
