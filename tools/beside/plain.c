// Measures plain C over a file in UTF-8: the algorithms of this repository by its machines and pair tables, without dictionaries, options and statuses.
//
//     tools/beside/plain.py /tmp/plain && gcc -O3 -I/tmp/plain -o /tmp/plain/plain tools/beside/plain.c
//     /tmp/plain/plain FILE [ENGINE]
//
// A row for each engine, or for one, as crates/speed prints it of the same file by real data: how many boundaries there are, and the sum of their places. So
// this finds no difference, and tools/beside/plain_table.py counts instructions:
//
//     grep real: crates/speed/stdout | grep -v memo | diff - <(/tmp/plain/plain crates/speed/data/mixed.txt)
#include <stdbool.h>
#include <stdio.h>
#include <string.h>
#include "plain_data.h"

#define INLINE static inline __attribute__((always_inline))
#define APART static __attribute__((noinline))

typedef uint8_t u8;
typedef struct { const u8 (*blocks)[128]; const uint16_t *pages; } Values;
typedef struct { Values symbols; const u8 *states, (*next)[128]; bool has_lookahead; } Machine;
typedef struct { Values classes; const u8 (*entries)[128]; u8 last, start, end, complex; bool has_complex; } Pairs;
typedef struct { size_t count, sum; } Tally;

// What states do to a scan, and the bytes of transitions and entries, as plain.py writes them.
enum { CONTINUES, ACCEPTS, NAMES, CONDITION };
enum { NO_STATE = 255 };
enum { INTERMEDIATE = 128, BREAK = 253, NO_MATCH = 254, KEEP = 255 };

#define VALUES(name) {name##_blocks, name##_pages}
#define MACHINE(name, has_lookahead) static const Machine name = {VALUES(name), name##_states, name##_next, has_lookahead};
#define PAIRS(name, has_complex) \
    static const Pairs name = {VALUES(name), name##_entries, name##_last, name##_start_of_text, name##_end_of_text, name##_complex, has_complex};
MACHINE(grapheme_neo, false)
MACHINE(sentence_neo, false)
MACHINE(word_neo, false)
MACHINE(line_neo, true)
PAIRS(grapheme_classic, false)
PAIRS(sentence_classic, false)
PAIRS(word_classic, true)
PAIRS(line_classic, true)
PAIRS(line_17, true)
static const Values scripts = VALUES(script);

INLINE bool is_trail(u8 byte) { return (byte & 0xC0) == 0x80; }

// The code point of four bytes, or of what is ill-formed, and from bit 24 on how many bytes it takes: the longest beginning of a sequence of Table 3-7 of the
// Unicode Standard that isn't whole, at least one byte, is U+FFFD.
APART uint32_t read_other(const u8 *p, const u8 *end) {
    size_t left = end - p;
    u8 a = p[0], low = a == 0xE0 ? 0xA0 : a == 0xF0 ? 0x90 : 0x80, high = a == 0xED ? 0x9F : a == 0xF4 ? 0x8F : 0xBF;
    if (a < 0xE0 || a > 0xF4 || left < 2 || p[1] < low || p[1] > high) return 0xFFFD | 1 << 24;
    if (a < 0xF0 || left < 3 || !is_trail(p[2])) return 0xFFFD | 2 << 24;
    if (left < 4 || !is_trail(p[3])) return 0xFFFD | 3 << 24;
    return (a & 7) << 18 | (p[1] & 0x3F) << 12 | (p[2] & 0x3F) << 6 | (p[3] & 0x3F) | 4 << 24;
}

// The code point where no ASCII stands.
INLINE uint32_t read_wide(const u8 *p, const u8 *end, size_t *len) {
    if (p[0] >> 4 == 0xE && end - p > 2 && is_trail(p[1]) && is_trail(p[2])) {
        uint32_t c = (p[0] & 0xF) << 12 | (p[1] & 0x3F) << 6 | (p[2] & 0x3F);
        *len = 3;
        if (c >= 0x800 && c >> 11 != 0x1B) return c;
    }
    if (p[0] >= 0xC2 && p[0] < 0xE0 && end - p > 1 && is_trail(p[1])) {
        *len = 2;
        return (p[0] & 0x1F) << 6 | (p[1] & 0x3F);
    }
    uint32_t read = read_other(p, end);
    *len = read >> 24;
    return read & 0xFFFFFF;
}

INLINE uint32_t read(const u8 *p, const u8 *end, size_t *len) {
    *len = 1;
    return *p < 0x80 ? *p : read_wide(p, end, len);
}

INLINE u8 value_of(const Values *values, uint32_t c) { return values->blocks[values->pages[c >> 7]][c & 127]; }

// The symbol or class of the code point at a place, and how many bytes it takes.
INLINE u8 value_at(const Values *values, const u8 *p, const u8 *end, size_t *len) {
    if (*p >= 0x80) return value_of(values, read_wide(p, end, len));
    *len = 1;
    return values->blocks[0][*p];
}

// The same, or that of the end.
INLINE u8 value_or(const Values *values, const u8 *p, const u8 *end, size_t *len, u8 of_end) {
    *len = 0;
    return p < end ? value_at(values, p, end, len) : of_end;
}

INLINE u8 script_at(const u8 *p, const u8 *end) {
    size_t len;
    return value_of(&scripts, read(p, end, &len));
}

// The script of the complex character before a place.
INLINE u8 script_before(const u8 *p, const u8 *end) {
    do p -= 1;
    while (is_trail(*p));
    return script_at(p, end);
}

INLINE void found(Tally *tally, size_t place) {
    tally->count += 1;
    tally->sum += place;
}

// Each segment is the longest match, unless a condition holds: then it ends where the lookahead was named last. The symbol that ended it begins the next.
INLINE Tally by_machine(const Machine *m, const u8 *text, const u8 *end) {
    Tally tally = {1, 0};
    size_t len;
    u8 symbol = value_or(&m->symbols, text, end, &len, 0), state, next;
    for (const u8 *p = text; p < end; found(&tally, p - text)) {
        const u8 *accepted = p, *named = NULL;
        for (state = 0; (next = m->next[state][symbol]) != NO_STATE; state = next) {
            p += len;
            symbol = value_or(&m->symbols, p, end, &len, 0);
            u8 kind = m->states[next];
            if (m->has_lookahead && kind == CONDITION) {
                if (!named) continue;
                accepted = named;
                break;
            }
            if (kind != CONTINUES) accepted = p;
            if (m->has_lookahead && kind == NAMES) named = p;
        }
        if (accepted == p) continue;
        p = accepted;
        symbol = value_or(&m->symbols, p, end, &len, 0);
    }
    return tally;
}

// Clusters, sentences and words: `right` stands at `p`, and `left` before it.
INLINE Tally by_pairs(const Pairs *t, const u8 *text, const u8 *end) {
    Tally tally = {1, 0};
    const u8 *p = text, *saved;
    size_t len;
    u8 left = value_at(&t->classes, p, end, &len), right, entry, state;
    for (p += len; p < end; left = right, p += len) {
        right = value_at(&t->classes, p, end, &len);
        if (t->has_complex && right == t->complex) {
            if (left == t->complex) {
                // A run: a boundary where the script changes, and at its end.
                for (u8 before = script_before(p, end), script; p < end; p += len, before = script) {
                    uint32_t c = read(p, end, &len);
                    right = value_of(&t->classes, c);
                    if (right != t->complex) break;
                    script = value_of(&scripts, c);
                    if (script != before) found(&tally, p - text);
                }
                if (p == end) break;
            }
            found(&tally, p - text);
            continue;
        }
        entry = t->entries[left][right];
        if (entry == KEEP) continue;
        if (entry < BREAK) {
            // A walk, which saves a place to go back to.
            saved = p;
            do {
                state = entry & ~INTERMEDIATE;
                p += len;
                right = value_or(&t->classes, p, end, &len, t->end);
                entry = t->entries[state][right];
                if (p < end && entry < BREAK && (entry & INTERMEDIATE || state <= t->last)) saved = p;
            } while (p < end && entry < BREAK);
            if (entry == NO_MATCH) {
                p = saved;
                right = value_at(&t->classes, p, end, &len);
            } else if (entry == KEEP || p == end) {
                continue;
            }
        }
        found(&tally, p - text);
    }
    found(&tally, end - text);
    return tally;
}

// Whether a mark of lines is glued to a base of this class.
INLINE bool is_glued(u8 base, u8 class) {
    return (class == LINE_PROPERTY_CM || class == LINE_PROPERTY_ZWJ)
        && base != LINE_PROPERTY_BK && base != LINE_PROPERTY_CR && base != LINE_PROPERTY_LF
        && base != LINE_PROPERTY_NL && base != LINE_PROPERTY_SP && base != LINE_PROPERTY_ZW;
}

// Lines, over units: a base with the marks that are glued to it. `last` is the class of the left unit's last character.
INLINE Tally by_units(const Pairs *t, const u8 *text, const u8 *end) {
    Tally tally = {1, 0};
    const u8 *p = text, *saved;
    size_t len;
    u8 left = value_at(&t->classes, p, end, &len), last = left, right, entry, first, state;
    bool is_joined, is_saved_joined;
    for (p += len; p < end; left = last = right, p += len) {
        right = value_at(&t->classes, p, end, &len);
        while (is_glued(left, right)) {
            last = right;
            p += len;
            right = value_or(&t->classes, p, end, &len, t->end);
        }
        if (p == end) break;
        if (__builtin_expect(right == t->complex, 0) && last == t->complex) {
            // A run: a boundary where the script changes. Its last character is the next left unit.
            for (u8 before = script_before(p, end), script; p < end; p += len, before = script) {
                uint32_t c = read(p, end, &len);
                if (value_of(&t->classes, c) != t->complex) break;
                script = value_of(&scripts, c);
                if (script != before) found(&tally, p - text);
            }
            len = 0;
            continue;
        }
        entry = t->entries[left][right];
        if (entry == KEEP) continue;
        is_joined = last == LINE_PROPERTY_ZWJ;
        if (entry < BREAK) {
            // A walk.
            saved = p;
            is_saved_joined = is_joined;
            first = entry & ~INTERMEDIATE;
            do {
                state = entry & ~INTERMEDIATE;
                last = left = right;
                p += len;
                right = value_or(&t->classes, p, end, &len, t->end);
                while (is_glued(left, right)) {
                    last = right;
                    p += len;
                    right = value_or(&t->classes, p, end, &len, t->end);
                }
                entry = t->entries[state][right];
                is_joined = last == LINE_PROPERTY_ZWJ;
                if (p < end && entry < BREAK && (entry & INTERMEDIATE || state <= t->last)) {
                    saved = p;
                    is_saved_joined = is_joined;
                }
            } while (p < end && entry < BREAK);
            if (entry == NO_MATCH) {
                is_joined = is_saved_joined || (is_joined && p < end && first <= t->last);
                p = saved;
                right = value_at(&t->classes, p, end, &len);
            } else if (entry == KEEP || p == end) {
                continue;
            }
        }
        if (!is_joined) found(&tally, p - text);
    }
    found(&tally, end - text);
    return tally;
}

// What the engine 17 asks of classes.
#define V3(name) LINE_V3_PROPERTY_##name
enum {
    MARK = 1, GLUE = 2, BARE = 4, COMPLEX = 8, SPACE = 16, SIGN = 32, HYPHEN = 64, LETTER = 128, OPENING = 256, START = 512,
    BEFORE_QUOTE = 1024, AFTER_QUOTE = 2048, BEFORE_HYPHEN = 4096, ENDS_LINE = BARE | BEFORE_QUOTE | AFTER_QUOTE | BEFORE_HYPHEN,
};
static const uint16_t kinds[256] = {
    [V3(CM)] = MARK | GLUE, [V3(CM_EASTASIAN)] = MARK | GLUE, [V3(ZWJ)] = MARK | GLUE, [V3(SA_MC_MN)] = GLUE | COMPLEX, [V3(SA)] = COMPLEX,
    [V3(BK)] = ENDS_LINE, [V3(CR)] = ENDS_LINE, [V3(LF)] = ENDS_LINE, [V3(NL)] = ENDS_LINE, [V3(ZW)] = ENDS_LINE,
    [V3(SP)] = SPACE | BARE | AFTER_QUOTE | BEFORE_HYPHEN, [V3(CB)] = BEFORE_HYPHEN, [V3(OP)] = OPENING, [V3(OP_EASTASIAN)] = OPENING,
    [V3(AL)] = LETTER, [V3(AL_EASTASIAN)] = LETTER, [V3(AL_DOTTED_CIRCLE)] = LETTER, [V3(HL)] = LETTER,
    [V3(AI)] = LETTER, [V3(AI_EASTASIAN)] = LETTER, [V3(XX)] = LETTER, [V3(XX_EXTPICT)] = LETTER,
    [V3(HH)] = SIGN | HYPHEN | START, [V3(HY)] = SIGN | HYPHEN | START, [V3(IS)] = SIGN | AFTER_QUOTE,
    [V3(QU_PF)] = SIGN | AFTER_QUOTE | START, [V3(QU_PI)] = AFTER_QUOTE | START, [V3(QU)] = AFTER_QUOTE | START,
    [V3(GL)] = AFTER_QUOTE, [V3(GL_EASTASIAN)] = AFTER_QUOTE, [V3(WJ)] = AFTER_QUOTE, [V3(CL)] = AFTER_QUOTE, [V3(CL_EASTASIAN)] = AFTER_QUOTE,
    [V3(CP)] = AFTER_QUOTE, [V3(EX)] = AFTER_QUOTE, [V3(EX_EASTASIAN)] = AFTER_QUOTE, [V3(SY)] = AFTER_QUOTE,
};

// The first character from a place on that is no mark: its class, or 0 where there is none, and its place, or that of the last mark.
typedef struct { const u8 *place; u8 class; } Base;

APART Base base_ahead(const u8 *p, const u8 *end) {
    Base base = {p, 0};
    for (size_t len; p < end; p += len) {
        base.place = p;
        base.class = value_at(&line_17.classes, p, end, &len);
        if (!(kinds[base.class] & MARK)) return base;
        base.class = 0;
    }
    return base;
}

// A boundary, unless there is none, where the next turn begins, and whether an opening and a space were met since the last boundary.
typedef struct { const u8 *boundary, *next; bool is_opened; } Turn;

static Turn cut(const u8 *boundary, const u8 *next) { return (Turn){boundary, next, false}; }
static Turn go(const u8 *next, bool is_opened) { return (Turn){NULL, next, is_opened}; }
static Turn unless(bool is_joined, const u8 *place, bool is_opened) { return is_joined ? go(place, is_opened) : cut(place, place); }

// The turn at an infix separator, a closing quote or a hyphen at `p`, before `after`. With no next turn the table decides.
APART Turn by_sign(u8 left, u8 last, u8 right, const u8 *p, const u8 *after, const u8 *end, bool is_opened) {
    Base base = base_ahead(after, end);
    int kind = kinds[base.class];
    bool is_marked = base.place != after || (!base.class && after < end);
    if (right == V3(IS) && left == V3(SP) && base.class == V3(NU)) return cut(p, p);
    if (right == V3(QU_PF) && kinds[left] & BEFORE_QUOTE) return cut(p, is_marked && !(kind & HYPHEN) ? base.place : p);
    if (right == V3(QU_PF) && left == V3(SP)) {
        if (is_opened) return go(p, true);
        if (kind & HYPHEN) return cut(p, p);
        if (base.class && !(kind & AFTER_QUOTE)) return cut(p, base.place);
    }
    if (kinds[right] & HYPHEN && kinds[left] & BEFORE_HYPHEN && kind & LETTER)
        return left == V3(CB) && last == V3(ZWJ) ? go(after, is_opened) : cut(p, after);
    return go(NULL, is_opened);
}

// The turn by a walk from a state that the table names of the left unit and `before`, which stands at `p`, before `after`.
APART Turn by_walk(const Pairs *t, u8 state, bool is_joined, u8 before, const u8 *p, const u8 *after, const u8 *end, bool is_opened) {
    const u8 *saved = p;
    bool is_saved_joined = is_joined, from_class = state <= t->last;
    size_t len;
    for (p = after; p < end; p += len) {
        u8 right = value_at(&t->classes, p, end, &len), entry = t->entries[state][right];
        if (kinds[right] & GLUE && !(kinds[before] & BARE)) {
            before = right;
            continue;
        }
        if (is_opened && right != V3(SP) && !(kinds[right] & HYPHEN)) return go(p, false);
        is_opened = is_opened && right == V3(SP);
        if (before == V3(SP) && kinds[right] & SIGN) {
            bool sticks = t->entries[state][V3(AL)] == KEEP;
            Base base = base_ahead(p + len, end);
            if (right == V3(IS) && state != V3(ZW) && !sticks) return go(saved, is_opened);
            if (right == V3(QU_PF) && state > t->last) return go(sticks ? p : saved, is_opened);
            if (kinds[right] & HYPHEN && kinds[base.class] & LETTER) return sticks ? go(base.place, is_opened) : cut(p, p + len);
        }
        is_joined = before == V3(ZWJ);
        if (entry == KEEP) return go(p, is_opened);
        if (entry == BREAK) return unless(is_joined, p, is_opened);
        if (entry == NO_MATCH) return unless(is_saved_joined || (is_joined && from_class), saved, is_opened);
        if (entry & INTERMEDIATE || state <= t->last) {
            saved = p;
            is_saved_joined = is_joined;
        }
        state = entry & ~INTERMEDIATE;
        before = right;
    }
    return t->entries[state][t->end] == NO_MATCH ? unless(is_saved_joined, saved, is_opened) : cut(end, end);
}

// Lines by the engine 17, turn by turn. `last` is the class of the left unit's last character.
INLINE Tally by_turns(const Pairs *t, const u8 *text, const u8 *end) {
    Tally tally = {1, 0};
    const u8 *p = text;
    size_t len;
    u8 left = value_at(&t->classes, p, end, &len), last = left, right, entry;
    bool is_opened = false;
    if (kinds[left] & START && t->entries[t->start][left] < INTERMEDIATE) left = t->entries[t->start][left];
    for (p += len; p < end; left = last = right, p += len) {
        right = value_at(&t->classes, p, end, &len);
        Turn turn = go(NULL, is_opened);
        if (kinds[right] & (GLUE | COMPLEX | SPACE | SIGN)) {
            while (kinds[right] & GLUE && !(kinds[left] & BARE) && !(right == V3(SA_MC_MN) && kinds[left] & COMPLEX)) {
                last = right;
                p += len;
                right = value_or(&t->classes, p, end, &len, t->end);
            }
            if (p == end) break;
            if (right == V3(SP) && kinds[left] & OPENING) is_opened = true;
            if (kinds[right] & COMPLEX && kinds[last] & COMPLEX) {
                // A run, as that of lines over units.
                for (u8 before = script_before(p, end), script; p < end; p += len, before = script) {
                    uint32_t c = read(p, end, &len);
                    u8 class = value_of(&t->classes, c);
                    if (!(kinds[class] & COMPLEX)) break;
                    right = class;
                    script = value_of(&scripts, c);
                    if (script == before) continue;
                    found(&tally, p - text);
                    is_opened = false;
                }
                len = 0;
                continue;
            }
            turn.is_opened = is_opened;
            if (kinds[right] & SIGN) turn = by_sign(left, last, right, p, p + len, end, is_opened);
        }
        if (!turn.next) {
            entry = t->entries[left][right];
            if (entry == KEEP) continue;
            if (entry >= BREAK) {
                if (last == V3(ZWJ)) continue;
                found(&tally, p - text);
                is_opened = false;
                continue;
            }
            turn = by_walk(t, entry & ~INTERMEDIATE, last == V3(ZWJ), right, p, p + len, end, is_opened);
        }
        if (turn.boundary) found(&tally, turn.boundary - text);
        is_opened = turn.is_opened;
        p = turn.next;
        if (p == end) return tally;
        right = value_at(&t->classes, p, end, &len);
    }
    found(&tally, end - text);
    return tally;
}

#define PASS(name, by) APART Tally pass_##name(const u8 *text, const u8 *end) { return by(&name, text, end); }
PASS(grapheme_classic, by_pairs)
PASS(grapheme_neo, by_machine)
PASS(sentence_classic, by_pairs)
PASS(sentence_neo, by_machine)
PASS(word_classic, by_pairs)
PASS(word_neo, by_machine)
PASS(line_classic, by_units)
PASS(line_17, by_turns)
PASS(line_neo, by_machine)

static const struct { const char *name; Tally (*pass)(const u8 *, const u8 *); } engines[] = {
    {"grapheme-classic", pass_grapheme_classic}, {"grapheme-neo", pass_grapheme_neo}, {"sentence-classic", pass_sentence_classic},
    {"sentence-neo", pass_sentence_neo}, {"word-classic", pass_word_classic}, {"word-neo", pass_word_neo},
    {"line-classic", pass_line_classic}, {"line-17", pass_line_17}, {"line-neo", pass_line_neo},
};

int main(int count, char **words) {
    static u8 text[300000];
    FILE *file = count < 2 ? NULL : fopen(words[1], "rb");
    size_t len = file ? fread(text, 1, sizeof text, file) : 0, end = len;
    if (len == 0) return fputs("usage: plain FILE [ENGINE]\n", stderr), 2;
    // As often as it has room, as crates/speed has it.
    for (; end + len <= sizeof text; end += len) memcpy(text + end, text, len);
    for (size_t i = 0; i < sizeof engines / sizeof *engines; i += 1) {
        if (count > 2 && strcmp(words[2], engines[i].name) != 0) continue;
        Tally tally = engines[i].pass(text, text + end);
        printf("%s real: %zu boundaries, sum %zu\n", engines[i].name, tally.count, tally.sum);
    }
}
