/* What the test programs share: a check that goes on when it fails, and a text read from a file. */
#ifndef CHECK_H
#define CHECK_H
#include <stdint.h>
#include <stdio.h>
#include <stdlib.h>

static int failed;

/* Says where something isn't so, and goes on. The program then ends with status 1. */
#define CHECK(it) ((it) ? (void)0 : (void)(failed++, fprintf(stderr, "%s:%d: not so: %s\n", __FILE__, __LINE__, #it)))

/* A block of just so many bytes, so that valgrind sees a read past its end. */
static inline void *block(size_t bytes) {
    void *it = calloc(bytes ? bytes : 1, 1);
    if (!it) {
        fprintf(stderr, "no memory\n");
        exit(2);
    }
    return it;
}

/* The bytes of a file. */
static inline uint8_t *read_file(const char *path, size_t *len) {
    FILE *file = fopen(path, "rb");
    long end = -1;
    uint8_t *bytes;
    if (file && !fseek(file, 0, SEEK_END)) end = ftell(file);
    if (end < 0) {
        fprintf(stderr, "%s can't be read\n", path);
        exit(2);
    }
    rewind(file);
    bytes = block((size_t)end);
    *len = fread(bytes, 1, (size_t)end, file);
    fclose(file);
    if (*len != (size_t)end) {
        fprintf(stderr, "%s can't be read to its end\n", path);
        exit(2);
    }
    return bytes;
}
#endif
