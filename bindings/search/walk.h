/* walk.h: goes through a text piece by piece, for the extensions of SQLite and PostgreSQL, which each take memory in a way of their own.
 *
 *     walk it = {.slot = &words, .text = text, .len = len, .by_line = has_dictionary, .ends = ends, .marks = marks, .room = WALK_ROOM};
 *     piece found;
 *     for (size_t needs; (needs = walk_needs(&it));) {
 *         (where needs > it.room: larger buffers in it.ends and it.marks)
 *         walk_fill(&it);
 *         while (walk_next(&it, &found)) ...
 *     }
 *
 * It needs no more room than WALK_ROOM, but for lines of more bytes by a dictionary: these are cut in one call. */
#ifndef WALK_H
#define WALK_H
#include <string.h>
#include <yengatomu.h>

enum { WALK_ROOM = 1024 };

/* A piece of the text: where it begins and ends, and its mark. */
typedef struct piece {
    size_t start, end;
    uint8_t mark;
} piece;

typedef struct walk {
    yengatomu_slot *slot;
    const uint8_t *text;
    size_t len;
    /* Whether the slot has a dictionary: calls then go on only from behind a line feed. */
    bool by_line;
    /* Where the pieces are wrapped lines: how many columns they have. Else 0. */
    size_t columns;
    /* The caller's buffers, which both have so much room. Lines leave marks as they are. */
    size_t *ends;
    uint8_t *marks;
    size_t room;
    /* Where the text begins that no call has cut yet, and how much of it the next call is given. */
    size_t from, stretch;
    /* How many ends there are, which of them comes next, how far behind them their text begins, and where the next piece begins. */
    size_t count, at, base, start;
} walk;

/* How much of the text the next call is given: with a dictionary whole lines. */
static inline size_t walk_stretch(const walk *it) {
    const uint8_t *const rest = it->text + it->from, *feed;
    const size_t left = it->len - it->from;
    size_t end = WALK_ROOM;
    if (!it->by_line || left <= WALK_ROOM) return left;
    while (end && rest[end - 1] != '\n') end--;
    if (end) return end;
    feed = (const uint8_t *)memchr(rest + WALK_ROOM, '\n', left - WALK_ROOM);
    return feed ? (size_t)(feed - rest) + 1 : left;
}

/* How much room walk_fill needs. 0 at the end of the text. */
static inline size_t walk_needs(walk *it) {
    it->stretch = walk_stretch(it);
    if (it->stretch <= WALK_ROOM) return it->stretch;
    return it->by_line ? yengatomu_count(it->slot, it->text + it->from, it->stretch) : WALK_ROOM;
}

/* Cuts the stretch, or as much of it as there is room for. */
static inline void walk_fill(walk *it) {
    const uint8_t *const text = it->by_line ? it->text + it->from : it->text;
    const size_t len = it->by_line ? it->stretch : it->len, from = it->by_line ? 0 : it->from;
    it->base = it->by_line ? it->from : 0;
    it->count = it->columns ? yengatomu_wrap(it->slot, text, len, from, it->columns, it->ends, it->room)
                            : yengatomu_marked_boundaries(it->slot, text, len, from, it->ends, it->room, it->marks, it->room);
    it->at = 0;
    it->from = it->count ? it->base + it->ends[it->count - 1] : it->len;
}

/* Gives the next piece, if walk_fill left one. */
static inline bool walk_next(walk *it, piece *found) {
    if (it->at == it->count) return false;
    found->start = it->start;
    found->end = it->start = it->base + it->ends[it->at];
    found->mark = it->columns ? 0 : it->marks[it->at];
    it->at++;
    return true;
}

#endif
