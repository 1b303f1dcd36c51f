/* Asks the library what standard input says, a command a line, and prints a line for each question:
 *
 *     open KIND STRICTNESS WORD_BREAK CHINESE_OR_JAPANESE      the status
 *     rules FILE                  opens by the rules in a file; the status, and the line of an error
 *     load SCRIPT FILE            the words of a file, one a line; the status
 *     abbreviations FILE          the same of abbreviations
 *     by-cluster                  has columns counted by cluster; the status
 *     text FILE, units FILE       takes the text of a file: UTF-8, or UTF-16 in the machine's byte order
 *     hex DIGITS, hex16 DIGITS    the same from digits, two a byte or four a unit; none is the empty text
 *     boundaries ROOM             the boundaries, found in calls with so much room
 *     marked ROOM                 the same with their marks, as PLACE:MARK
 *     offsets, word-offsets       a line for each segment, or for each word: where it begins and ends
 *     rooms                       how many boundaries there are, if buffers of 1, 7 and 65,536 give the same ones, with marks and without
 *     wrap COLUMNS                the wrapped lines, as END:COLUMNS
 *     balanced COLUMNS            the balanced lines of each paragraph, as END:COLUMNS
 *     near PLACE                  the nearest boundary below and above, - for none
 *     count                       how many segments, and how many words
 */
#define _POSIX_C_SOURCE 200809L
#include "check.h"
#include <stdbool.h>
#include <string.h>
#include <sys/types.h>
#include <yengatomu.h>

static yengatomu_slot slot;
static uint8_t *text;
static uint16_t *units;
static size_t len;
static bool is_utf16;

/* A list of boundaries with their marks. */
typedef struct list {
    size_t count, room;
    size_t *places;
    uint8_t *marks;
} list;

static size_t first(size_t from, size_t *out, size_t room) {
    return is_utf16 ? yengatomu_boundaries_utf16(&slot, units, len, from, out, room) : yengatomu_boundaries(&slot, text, len, from, out, room);
}

static size_t first_marked(size_t from, size_t *out, size_t room, uint8_t *marks) {
    return is_utf16 ? yengatomu_marked_boundaries_utf16(&slot, units, len, from, out, room, marks, room)
                    : yengatomu_marked_boundaries(&slot, text, len, from, out, room, marks, room);
}

/* All boundaries, found in calls with so much room, as those of the first call tell where the next one begins. */
static list all(size_t room, bool with_marks) {
    list found = {0, room, block(room * sizeof(size_t)), block(room)};
    size_t from = 0;
    memset(found.marks, 0, room);
    for (;;) {
        size_t *places;
        uint8_t *marks;
        size_t count;
        if (found.room - found.count < room) {
            found.room = 2 * found.room + room;
            found.places = realloc(found.places, found.room * sizeof(size_t));
            found.marks = realloc(found.marks, found.room);
            if (!found.places || !found.marks) exit(2);
        }
        places = found.places + found.count;
        marks = found.marks + found.count;
        count = with_marks ? first_marked(from, places, room, marks) : first(from, places, room);
        if (!count) return found;
        if (!with_marks) memset(marks, 0, count);
        found.count += count;
        from = found.places[found.count - 1];
    }
}

static void let_go(list it) {
    free(it.places);
    free(it.marks);
}

static void print_all(size_t room, bool with_marks) {
    list found = all(room, with_marks);
    for (size_t i = 0; i < found.count; i++) {
        printf(i ? " %zu" : "%zu", found.places[i]);
        if (with_marks) printf(":%d", found.marks[i]);
    }
    puts("");
    let_go(found);
}

/* One call has room for all: so it is right with a dictionary too. */
static void print_offsets(bool of_words) {
    list found = all(len + 1, true);
    for (size_t i = 0; i < found.count; i++)
        if (!of_words || found.marks[i]) printf("%zu %zu\n", i ? found.places[i - 1] : 0, found.places[i]);
    let_go(found);
}

static bool is_same(list one, list other, bool with_marks) {
    return one.count == other.count && !memcmp(one.places, other.places, one.count * sizeof(size_t)) &&
           (!with_marks || !memcmp(one.marks, other.marks, one.count));
}

static void print_rooms(void) {
    static const size_t rooms[] = {1, 7, 65536};
    list wanted = all(len + 1, true);
    for (size_t i = 0; i < 3; i++) {
        for (int with_marks = 0; with_marks < 2; with_marks++) {
            list found = all(rooms[i], with_marks);
            if (!is_same(wanted, found, with_marks)) {
                printf("room %zu, marks %d: %zu boundaries, and not these %zu\n", rooms[i], with_marks, found.count, wanted.count);
                let_go(found);
                let_go(wanted);
                return;
            }
            let_go(found);
        }
    }
    printf("%zu\n", wanted.count);
    let_go(wanted);
}

static size_t first_ends(size_t from, size_t columns, size_t *ends, size_t room) {
    return is_utf16 ? yengatomu_wrap_utf16(&slot, units, len, from, columns, ends, room) : yengatomu_wrap(&slot, text, len, from, columns, ends, room);
}

static size_t first_wrapped(size_t from, size_t columns, size_t *ends, size_t *widths, size_t room) {
    return is_utf16 ? yengatomu_wrap_columns_utf16(&slot, units, len, from, columns, ends, room, widths, room)
                    : yengatomu_wrap_columns(&slot, text, len, from, columns, ends, room, widths, room);
}

static void print_wrapped(size_t columns) {
    size_t ends[100], same[100], widths[100], from = 0, count;
    while ((count = first_wrapped(from, columns, ends, widths, 100))) {
        CHECK(first_ends(from, columns, same, 100) == count && !memcmp(ends, same, count * sizeof(size_t)));
        for (size_t i = 0; i < count; i++) printf("%zu:%zu ", ends[i], widths[i]);
        from = ends[count - 1];
    }
    puts("");
}

/* The balanced lines of the paragraph behind a place, in buffers that have room for them. */
static list paragraph(size_t from, uint32_t columns, size_t **widths) {
    list found = {0, 1, NULL, NULL};
    do {
        found.room = found.count > found.room ? found.count : found.room;
        found.places = realloc(found.places, found.room * sizeof(size_t));
        *widths = realloc(*widths, found.room * sizeof(size_t));
        if (!found.places || !*widths) exit(2);
        found.count = is_utf16 ? yengatomu_wrap_balanced_utf16(&slot, units, len, from, columns, found.places, found.room, *widths, found.room)
                               : yengatomu_wrap_balanced(&slot, text, len, from, columns, found.places, found.room, *widths, found.room);
    } while (found.count > found.room);
    return found;
}

static void print_balanced(uint32_t columns) {
    const char *space = "";
    size_t from = 0, *widths = NULL;
    for (;;) {
        list found = paragraph(from, columns, &widths);
        for (size_t i = 0; i < found.count; i++, space = " ") printf("%s%zu:%zu", space, found.places[i], widths[i]);
        if (found.count) from = found.places[found.count - 1];
        free(found.places);
        if (!found.count) break;
    }
    free(widths);
    printf("\n");
}

static void print_near(size_t place) {
    size_t found[] = {is_utf16 ? yengatomu_previous_utf16(&slot, units, len, place) : yengatomu_previous(&slot, text, len, place),
                      is_utf16 ? yengatomu_next_utf16(&slot, units, len, place) : yengatomu_next(&slot, text, len, place)};
    for (int i = 0; i < 2; i++) {
        if (found[i] == YENGATOMU_NONE)
            printf("- ");
        else
            printf("%zu ", found[i]);
    }
    puts("");
}

static void take(uint8_t *bytes, size_t count, bool as_utf16) {
    free(text);
    free(units);
    text = bytes;
    units = NULL;
    len = count;
    is_utf16 = as_utf16;
    if (as_utf16) {
        len = count / 2;
        units = block(2 * len);
        memcpy(units, bytes, 2 * len);
    }
}

static void take_digits(const char *digits, bool as_utf16) {
    size_t count = strlen(digits) / (as_utf16 ? 4 : 2);
    uint8_t *bytes = block(as_utf16 ? 2 * count : count);
    for (size_t i = 0; i < count; i++) {
        unsigned it;
        if (sscanf(digits + i * (as_utf16 ? 4 : 2), as_utf16 ? "%4x" : "%2x", &it) != 1) exit(2);
        if (as_utf16) {
            uint16_t unit = (uint16_t)it;
            memcpy(bytes + 2 * i, &unit, 2);
        } else {
            bytes[i] = (uint8_t)it;
        }
    }
    take(bytes, as_utf16 ? 2 * count : count, as_utf16);
}

/* The words of a script, or, where that is 0, abbreviations. */
static uint32_t load(uint32_t script, const char *path) {
    size_t size, count = 0, at = 0;
    uint8_t *bytes = read_file(path, &size);
    yengatomu_word *words = block((size + 1) * sizeof *words);
    uint32_t status;
    for (size_t i = 0; i < size; i++) {
        if (bytes[i] == '\n') {
            words[count].bytes = bytes + at;
            words[count++].len = i - at;
            at = i + 1;
        }
    }
    status = script ? yengatomu_load_dictionary(&slot, words, count, script) : yengatomu_load_abbreviations(&slot, words, count);
    free(words);
    free(bytes);
    return status;
}

static void print_rules(const char *path) {
    size_t size, line;
    uint8_t *bytes = read_file(path, &size);
    uint32_t status = yengatomu_open_rules(&slot, bytes, size, &line);
    printf("%u %zu\n", status, line);
    free(bytes);
}

static bool is_done(char *line) {
    char rest[4096];
    unsigned a, b, c, d;
    size_t number;
    rest[0] = 0;
    if (sscanf(line, "open %u %u %u %u", &a, &b, &c, &d) == 4)
        printf("%u\n", yengatomu_open(&slot, a, b, c, d));
    else if (sscanf(line, "load %u %4095s", &a, rest) == 2)
        printf("%u\n", load(a, rest));
    else if (sscanf(line, "abbreviations %4095s", rest) == 1)
        printf("%u\n", load(0, rest));
    else if (!strcmp(line, "by-cluster"))
        printf("%u\n", yengatomu_count_by_cluster(&slot));
    else if (sscanf(line, "rules %4095s", rest) == 1)
        print_rules(rest);
    else if (sscanf(line, "text %4095s", rest) == 1 || sscanf(line, "units %4095s", rest) == 1) {
        uint8_t *bytes = read_file(rest, &number);
        take(bytes, number, line[0] == 'u');
    } else if (!strncmp(line, "hex16 ", 6))
        take_digits(line + 6, true);
    else if (!strncmp(line, "hex ", 4))
        take_digits(line + 4, false);
    else if (sscanf(line, "boundaries %zu", &number) == 1)
        print_all(number, false);
    else if (sscanf(line, "marked %zu", &number) == 1)
        print_all(number, true);
    else if (!strcmp(line, "offsets"))
        print_offsets(false);
    else if (!strcmp(line, "word-offsets"))
        print_offsets(true);
    else if (!strcmp(line, "rooms"))
        print_rooms();
    else if (sscanf(line, "wrap %zu", &number) == 1)
        print_wrapped(number);
    else if (sscanf(line, "balanced %zu", &number) == 1)
        print_balanced((uint32_t)number);
    else if (sscanf(line, "near %zu", &number) == 1)
        print_near(number);
    else if (!strcmp(line, "count") && is_utf16)
        printf("%zu %zu\n", yengatomu_count_utf16(&slot, units, len), yengatomu_count_words_utf16(&slot, units, len));
    else if (!strcmp(line, "count"))
        printf("%zu %zu\n", yengatomu_count(&slot, text, len), yengatomu_count_words(&slot, text, len));
    else
        return false;
    return true;
}

int main(void) {
    char *line = NULL;
    size_t room = 0;
    ssize_t got;
    take(block(0), 0, false);
    while ((got = getline(&line, &room, stdin)) > 0) {
        if (line[got - 1] == '\n') line[got - 1] = 0;
        if (!is_done(line)) {
            fprintf(stderr, "ask: no command: %.80s\n", line);
            return 2;
        }
    }
    free(line);
    free(text);
    free(units);
    yengatomu_close(&slot);
    return failed ? 1 : 0;
}
