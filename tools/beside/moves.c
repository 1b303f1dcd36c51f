/* How long a cursor's moves take at the end of a text without a line feed, by the library for C.
 *
 *     cc -O2 -Ibindings/include tools/beside/moves.c FOLDER/libyengatomu.a -lpthread -ldl -lm -o moves && ./moves crates/speed/data/english.txt
 *
 * FOLDER is bindings/lib, or what unproved_library.py made. For each kind and 1, 2, 4 and 8 MB it prints the microseconds of a move, over 200 of each
 * direction. Line feeds of the file are spaces. */
#define _POSIX_C_SOURCE 199309L
#include <stdio.h>
#include <stdlib.h>
#include <time.h>
#include "yengatomu.h"

enum { MOVES = 200, MOST = 8000000 };

static double microseconds(void) {
    struct timespec now;
    clock_gettime(CLOCK_MONOTONIC, &now);
    return 1e6 * (double)now.tv_sec + 1e-3 * (double)now.tv_nsec;
}

static void print_moves(const char *name, const yengatomu_slot *slot, const uint8_t *text, size_t len) {
    size_t place = len;
    double start = microseconds();
    for (int move = 0; move < MOVES; move++) place = yengatomu_previous(slot, text, len, place);
    double turn = microseconds();
    for (int move = 0; move < MOVES; move++) place = yengatomu_next(slot, text, len, place);
    double end = microseconds();
    printf("%-9s %zu MB: next %.1f, previous %.1f%s\n", name, len / 1000000, (end - turn) / MOVES, (turn - start) / MOVES, place == len ? "" : ", elsewhere");
}

int main(int argc, char **argv) {
    static const char *const names[] = {"clusters", "words", "sentences", "lines"};
    static uint8_t part[MOST];
    FILE *file = argc == 2 ? fopen(argv[1], "rb") : NULL;
    size_t size = file ? fread(part, 1, sizeof part, file) : 0;
    uint8_t *text = malloc(MOST);
    if (!size || !text) return 2;
    for (size_t at = 0; at < MOST; at++) {
        uint8_t byte = part[at % size];
        text[at] = byte == '\n' || byte == '\r' ? ' ' : byte;
    }
    for (uint32_t kind = YENGATOMU_CLUSTERS; kind <= YENGATOMU_LINES; kind++) {
        yengatomu_slot slot = {0};
        if (yengatomu_open(&slot, kind, 0, 0, false) != YENGATOMU_OK) return 1;
        for (size_t len = MOST / 8; len <= MOST; len *= 2) print_moves(names[kind], &slot, text, len);
        yengatomu_close(&slot);
    }
    free(text);
    return 0;
}
