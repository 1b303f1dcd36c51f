// How little boundaries can take: by dense rows in plain C, beside a plain scan of each segment and the library for C, all by Unicode's machines.
//
//     tools/beside/plain.py /tmp/plain
//     gcc -O3 -I/tmp/plain -Ibindings/include -o /tmp/rows tools/beside/rows.c FOLDER/libyengatomu.a -lpthread -ldl -lm
//     /tmp/rows FILE [ROUNDS [KIND]]
//
// FOLDER is bindings/lib, or what unproved_library.py made. For each kind, or for one, it prints the nanoseconds a byte that each way takes to write all
// boundaries of the file into a buffer, the least of 50 rounds, and stops where two ways find others. tools/beside/rows_table.py counts instructions.
#define _POSIX_C_SOURCE 199309L
#include <stdlib.h>
#include <time.h>
#include "yengatomu.h"
// The machines, what reads a code point, and the symbols of code points.
#define main plain_main
#include "plain.c"
#undef main

enum { SLOW = 0xFFFF, STATES = 128, ROW = 256, PAGES = 1024, PAGE = 64, MOST = 1000000 };

// For each state a row of what it does: by each byte of ASCII, and by 128 + each symbol. An entry is the next state's row, and in its lowest bit whether a
// segment ends before. Where it is SLOW, a scan from the last boundary decides. Code points below U+10000 have their 128 + symbol in pages.
typedef struct { uint16_t entries[STATES * ROW], pages[PAGES]; u8 symbols[PAGES][PAGE]; } Rows;

static uint16_t entry_of(const Machine *m, size_t state, size_t symbol) {
    u8 next = m->next[state][symbol];
    bool ends = next == NO_STATE;
    if (ends) next = m->next[0][symbol];
    if (next == NO_STATE || m->states[next] == CONDITION) return SLOW;
    if (ends && (m->states[state] == CONTINUES || m->states[state] == CONDITION)) return SLOW;
    return next << 8 | ends;
}

static void make_rows(Rows *rows, const Machine *m, size_t states) {
    for (size_t state = 0; state < states; state++) {
        uint16_t *row = rows->entries + state * ROW;
        for (size_t symbol = 0; symbol < 128; symbol++) row[128 + symbol] = symbol == 0 || symbol == 127 ? SLOW : entry_of(m, state, symbol);
        for (size_t byte = 0; byte < 128; byte++) row[byte] = row[128 + m->symbols.blocks[0][byte]];
    }
    // Page 0 is of what is no code point in three bytes: those below U+0800 are written in fewer, and surrogates never. A scan reads them.
    size_t count = 1;
    memset(rows->symbols[0], 255, PAGE);
    for (size_t page = 0; page < PAGES; page++) {
        u8 *made = rows->symbols[count];
        for (size_t i = 0; i < PAGE; i++) made[i] = 128 + value_of(&m->symbols, page * PAGE + i);
        size_t same = 1;
        while (memcmp(rows->symbols[same], made, PAGE) != 0) same++;
        rows->pages[page] = page < 2 || page >> 5 == 0x1B ? 0 : same;
        if (same == count && rows->pages[page]) count++;
    }
}

// What the row says of the next code point, which takes so many bytes.
INLINE size_t next_entry(const Machine *m, const Rows *rows, size_t row, const u8 *p, const u8 *end, size_t *len) {
    uint32_t word;
    *len = 1;
    if (*p < 0x80) return rows->entries[row + *p];
    if (end - p >= 4) {
        memcpy(&word, p, 4);
        uint32_t three = (word & 0xF) << 6 | (word >> 8 & 0x3F), two = word & 0x1F;
        if ((word & 0xC0C0F0) == 0x8080E0 && three >= 32) return *len = 3, rows->entries[row + rows->symbols[rows->pages[three]][word >> 16 & 0x3F]];
        if ((word & 0xC0E0) == 0x80C0) return *len = 2, rows->entries[row + rows->symbols[rows->pages[two]][word >> 8 & 0x3F]];
    }
    return rows->entries[row + 128 + value_at(&m->symbols, p, end, len)];
}

// The end of the segment that begins at a place.
APART const u8 *scan(const Machine *m, const u8 *p, const u8 *end) {
    const u8 *accepted = p, *named = NULL;
    size_t len;
    u8 state = 0, symbol = value_or(&m->symbols, p, end, &len, 0);
    while ((state = m->next[state][symbol]) != NO_STATE) {
        p += len;
        symbol = value_or(&m->symbols, p, end, &len, 0);
        u8 kind = m->states[state];
        if (m->has_lookahead && kind == CONDITION) {
            if (named) return named;
            continue;
        }
        if (kind != CONTINUES) accepted = p;
        if (m->has_lookahead && kind == NAMES) named = p;
    }
    return accepted;
}

static bool ends_there(const Machine *m, size_t state) {
    return m->next[state][0] == NO_STATE && m->states[state] != CONTINUES && m->states[state] != CONDITION;
}

APART size_t by_rows(const Machine *m, const Rows *rows, const u8 *text, const u8 *end, size_t *places) {
    size_t count = 1, len, entry;
    places[0] = 0;
    for (const u8 *p = text; p < end; places[count++] = p - text) {
        size_t row = (size_t)m->next[0][value_at(&m->symbols, p, end, &len)] << 8;
        for (p += len; p < end && (entry = next_entry(m, rows, row, p, end, &len)) != SLOW; p += len) {
            places[count] = p - text;
            count += entry & 1;
            row = entry & ~(size_t)0xFF;
        }
        if (p < end || !ends_there(m, row >> 8)) p = scan(m, text + places[count - 1], end);
    }
    return count;
}

APART size_t by_scans(const Machine *m, const u8 *text, const u8 *end, size_t *places) {
    size_t count = 1;
    places[0] = 0;
    for (const u8 *p = text; p < end; places[count++] = p - text) p = scan(m, p, end);
    return count;
}

static double seconds(void) {
    struct timespec now;
    clock_gettime(CLOCK_MONOTONIC, &now);
    return (double)now.tv_sec + 1e-9 * (double)now.tv_nsec;
}

int main(int count, char **words) {
    static const struct { const char *name; const Machine *machine; size_t states; } kinds[] = {
        {"clusters", &grapheme_neo, sizeof grapheme_neo_states}, {"words", &word_neo, sizeof word_neo_states},
        {"sentences", &sentence_neo, sizeof sentence_neo_states}, {"lines", &line_neo, sizeof line_neo_states},
    };
    static u8 text[MOST];
    static size_t places[3][MOST + 4];
    static Rows rows;
    FILE *file = count < 2 ? NULL : fopen(words[1], "rb");
    size_t len = file ? fread(text, 1, sizeof text, file) : 0, rounds = count < 3 ? 50 : strtoul(words[2], NULL, 10);
    if (len == 0) return fputs("usage: rows FILE [ROUNDS [KIND]]\n", stderr), 2;
    for (uint32_t kind = YENGATOMU_CLUSTERS; kind <= YENGATOMU_LINES; kind++) {
        const Machine *m = kinds[kind].machine;
        if (count > 3 && strcmp(words[3], kinds[kind].name) != 0) continue;
        yengatomu_slot slot = {0};
        if (yengatomu_open(&slot, kind, YENGATOMU_STRICT, YENGATOMU_BREAK_NORMAL, false) != YENGATOMU_OK) return 1;
        make_rows(&rows, m, kinds[kind].states);
        double least[3] = {1, 1, 1};
        size_t found[3] = {0};
        for (size_t round = 0; round < rounds; round++)
            for (int way = 0; way < 3; way++) {
                double start = seconds();
                found[way] = way == 0   ? by_rows(m, &rows, text, text + len, places[0])
                             : way == 1 ? yengatomu_boundaries(&slot, text, len, 0, places[1] + 1, MOST) + 1
                                        : by_scans(m, text, text + len, places[2]);
                double took = seconds() - start;
                if (took < least[way]) least[way] = took;
            }
        for (int way = 1; way < 3; way++)
            if (found[way] != found[0] || memcmp(places[way] + 1, places[0] + 1, (found[0] - 1) * sizeof **places) != 0)
                return printf("%s: other boundaries\n", kinds[kind].name), 1;
        printf("%-9s rows %.1f, Yengatomu %.1f, scans %.1f\n", kinds[kind].name, 1e9 * least[0] / len, 1e9 * least[1] / len, 1e9 * least[2] / len);
        yengatomu_close(&slot);
    }
}
