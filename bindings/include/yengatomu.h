/* Text boundaries, proved: grapheme clusters, words and sentences of UAX #29 (Unicode 18.0), and line breaks of UAX #14 revision 55
 * (Unicode 17) with properties of Unicode 18.0.
 *
 *     yengatomu_slot words = {0};
 *     size_t ends[64];
 *     if (yengatomu_open(&words, YENGATOMU_WORDS, 0, 0, false) == YENGATOMU_OK) {
 *         size_t count = yengatomu_boundaries(&words, text, len, 0, ends, 64);
 *         ...
 *         yengatomu_close(&words);
 *     }
 *
 * A text is UTF-8, which may be ill-formed: places are bytes from its start. Calls that end in _utf16 take UTF-16, which may be
 * ill-formed too: there places are 16-bit units. In UTF-8 what is ill-formed counts as U+FFFD, as Unicode's Table 3-7
 * splits it; in UTF-16 a surrogate that stands alone counts as itself. Calls that end in _latin1 take Latin-1: each byte is a code
 * point, and places are bytes.
 * No call keeps a pointer, writes but to the buffers and the slot (unless const) that it is handed, aborts, or takes a lock.
 *
 * What a caller owes:
 * - A slot begins as zero bytes, and nobody but these calls writes to it. It may be moved, but not copied and used twice.
 * - Calls that take a const slot read it: any number of threads may make them at once on one slot, also on an empty one.
 * - Calls that take a slot without const change it. While one of them runs, no other call may use the slot. To open, load or close a
 *   slot while another thread reads it is the caller's fault, and no call notices; nor may it be moved meanwhile.
 * - A slot may be opened by one thread, used by others and closed by another again, as long as these happen one after another.
 * - Each length is that of the array in front of it, in its own elements. No array is NULL, not even one of length 0.
 * - Buffers overlap neither one another nor the text. What error points to is one of one element. */
#ifndef YENGATOMU_H
#define YENGATOMU_H
#include <stdbool.h>
#include <stddef.h>
#include <stdint.h>
#ifdef __cplusplus
extern "C" {
#endif

/* Holds a segmenter or nothing. Begin with zero bytes: yengatomu_slot slot = {0}; its fields are the library's own. */
typedef struct yengatomu_slot {
    bool full;
    void *at;
} yengatomu_slot;

/* A word of a dictionary, or an abbreviation: UTF-8. */
typedef struct yengatomu_word {
    const uint8_t *bytes;
    size_t len;
} yengatomu_word;

/* kind */
enum { YENGATOMU_CLUSTERS, YENGATOMU_WORDS, YENGATOMU_SENTENCES, YENGATOMU_LINES };
/* strictness, as `line-break` of CSS Text 3 has it. By ANYWHERE lines may break at each grapheme cluster and must break nowhere; but a
 * word_break other than YENGATOMU_BREAK_NORMAL overrides it. */
enum { YENGATOMU_STRICT, YENGATOMU_NORMAL, YENGATOMU_LOOSE, YENGATOMU_ANYWHERE };
/* word_break, as `word-break` of CSS Text 3 has it */
enum { YENGATOMU_BREAK_NORMAL, YENGATOMU_BREAK_ALL, YENGATOMU_KEEP_ALL };
/* script */
enum { YENGATOMU_MYANMAR = 1, YENGATOMU_CHINESE_OR_JAPANESE, YENGATOMU_KHMER, YENGATOMU_LAO, YENGATOMU_THAI };
/* what open, load_dictionary and count_by_cluster return */
enum { YENGATOMU_OK, YENGATOMU_NO_MEMORY, YENGATOMU_NO_SUCH, YENGATOMU_NOT_UTF8 };
/* what load_abbreviations returns beside the first three of these */
enum { YENGATOMU_WRONG_WORD = 3 };
/* what open_rules returns beside YENGATOMU_OK and YENGATOMU_NO_MEMORY */
enum { YENGATOMU_WRONG_RULES = 2, YENGATOMU_NO_MACHINE };
/* marks of words: what ends at the boundary */
enum { YENGATOMU_NO_WORD, YENGATOMU_NUMBER, YENGATOMU_LETTERS };
/* marks of lines: whether the line must end at the boundary */
enum { YENGATOMU_MAY_BREAK, YENGATOMU_MUST_BREAK };
/* no boundary */
#define YENGATOMU_NONE SIZE_MAX
/* what yengatomu_version returns in the library that comes with this header */
#define YENGATOMU_VERSION 10000

/* Frees what the slot holds and makes a segmenter of the kind in its place, over Unicode's data. YENGATOMU_NO_SUCH for a number that
 * is none of those above; strictness, word_break and chinese_or_japanese are those of lines, and other kinds don't read them.
 * If it isn't YENGATOMU_OK, the slot is empty. */
uint32_t yengatomu_open(yengatomu_slot *slot, uint32_t kind, uint32_t strictness, uint32_t word_break, bool chinese_or_japanese);

/* Frees what the slot holds and makes a segmenter by your own rules in its place: a text of UTF-8, in the notation that the page
 * crates/segment/segment.1 of this repository tells, as
 *
 *     Letter = \p{L} + \p{M} + \p{Nd}
 *     Letter × Letter
 *     ÷
 *
 * Its boundaries are where the rules break, and the other calls take it as one of clusters. It is proved that the machine
 * follows some rules; that these are those of the text is tested. YENGATOMU_WRONG_RULES where the text is
 * ill-formed or a line of it is wrong; YENGATOMU_NO_MACHINE where the rules are too large, or need to know too much of the text to be
 * followed. *error is then the number of the line, from 1 on: that which is wrong, or that of a rule which shows why there is no
 * machine; 0 where the text is ill-formed, where no rule shows it, and in all other cases. If it isn't YENGATOMU_OK, the slot is empty. */
uint32_t yengatomu_open_rules(yengatomu_slot *slot, const uint8_t *text, size_t len, size_t *error);

/* Gives a segmenter of words or lines the words of a script that is written without spaces, if it has none of that script yet;
 * otherwise nothing changes, and it is YENGATOMU_OK. A list of no words counts as one: to load another, open the slot anew.
 * Of lines YENGATOMU_CHINESE_OR_JAPANESE changes nothing. YENGATOMU_NO_SUCH for another number, another kind or an empty slot,
 * YENGATOMU_NOT_UTF8 where a word is ill-formed. If it isn't YENGATOMU_OK, the slot is as it was. */
uint32_t yengatomu_load_dictionary(yengatomu_slot *slot, const yengatomu_word *words, size_t count, uint32_t script);

/* Gives a segmenter of sentences the abbreviations after which a sentence goes on: whole words with their full stops, as Mr. or z. B., in any
 * order. A boundary is left out where the text before it ends with one of them and perhaps spaces, before which neither a letter nor a
 * digit stands; but not at the end of the text. Upper and lower case differ. A list of no words counts as one. YENGATOMU_NO_SUCH for
 * another kind, for an empty slot, and where there are abbreviations already: to load others, open the slot anew. YENGATOMU_WRONG_WORD
 * where a word is ill-formed or has a line feed in it. If it isn't YENGATOMU_OK, the slot is as it was. */
uint32_t yengatomu_load_abbreviations(yengatomu_slot *slot, const yengatomu_word *words, size_t count);

/* Has a segmenter of lines count the columns of wrapped lines cluster by cluster from now on, and no longer character by character: each
 * cluster takes the width of its characters together, so that a family of emoji takes two columns. One of more than 128 bytes in UTF-8
 * takes the sum of the widths of its characters. Where lines may end stays as it is. YENGATOMU_NO_SUCH for another kind or an empty slot.
 * If it isn't YENGATOMU_OK, the slot is as it was; to count by character again, open it anew. */
uint32_t yengatomu_count_by_cluster(yengatomu_slot *slot);

/* Frees what the slot holds, and leaves it empty. It may be opened again, or closed again. */
void yengatomu_close(yengatomu_slot *slot);

/* Writes the first boundaries above from to out, as many as there is room for, and returns how many: those of the text from there on,
 * taken alone. The last of all is len; a room of len holds them all, and a room of 0 gives 0. Where from is 0, or a boundary and the
 * slot has neither a dictionary nor abbreviations, they are the boundaries of the whole text: so go on from the last one, until 0 is
 * returned. With a dictionary or abbreviations go on only from behind a line feed: what they look at may begin before the boundary.
 * 0 where from is len or more, and where the slot is empty. */
size_t yengatomu_boundaries(const yengatomu_slot *slot, const uint8_t *text, size_t len, size_t from, size_t *out, size_t room);
size_t yengatomu_boundaries_utf16(const yengatomu_slot *slot, const uint16_t *text, size_t len, size_t from, size_t *out, size_t room);
size_t yengatomu_boundaries_latin1(const yengatomu_slot *slot, const uint8_t *text, size_t len, size_t from, size_t *out, size_t room);

/* The same, with a mark for each: of words YENGATOMU_NO_WORD and so on, of lines YENGATOMU_MAY_BREAK or YENGATOMU_MUST_BREAK, of
 * others 0. It writes as many as both buffers have room for. */
size_t yengatomu_marked_boundaries(const yengatomu_slot *slot, const uint8_t *text, size_t len, size_t from, size_t *out, size_t room,
                                   uint8_t *marks, size_t marks_room);
size_t yengatomu_marked_boundaries_utf16(const yengatomu_slot *slot, const uint16_t *text, size_t len, size_t from, size_t *out,
                                         size_t room, uint8_t *marks, size_t marks_room);
size_t yengatomu_marked_boundaries_latin1(const yengatomu_slot *slot, const uint8_t *text, size_t len, size_t from, size_t *out,
                                          size_t room, uint8_t *marks, size_t marks_room);

/* The nearest boundary above the place, which may be inside a character; and the nearest below it, which may be past the end.
 * YENGATOMU_NONE where there is none, and where the slot is empty. It reads what is near, and the whole of a run that a dictionary cuts.
 * Where an abbreviation has a space, it reads from the start of the line on. */
size_t yengatomu_next(const yengatomu_slot *slot, const uint8_t *text, size_t len, size_t place);
size_t yengatomu_next_utf16(const yengatomu_slot *slot, const uint16_t *text, size_t len, size_t place);
size_t yengatomu_previous(const yengatomu_slot *slot, const uint8_t *text, size_t len, size_t place);
size_t yengatomu_previous_utf16(const yengatomu_slot *slot, const uint16_t *text, size_t len, size_t place);

/* Writes where the first lines end that the text from there on is wrapped to, as many as there is room for, and returns how many.
 * A line takes as many segments as fit in the columns, at least one, and ends where it must. Spaces, line feeds and carriage returns
 * before its end take no columns, nor do control characters: write spaces for tabs first. Columns are counted by character, or by cluster
 * (yengatomu_count_by_cluster). Go on as with yengatomu_boundaries. 0 where from is len or more, where the slot is empty, and of other kinds than lines. */
size_t yengatomu_wrap(const yengatomu_slot *slot, const uint8_t *text, size_t len, size_t from, size_t columns, size_t *ends, size_t room);
size_t yengatomu_wrap_utf16(const yengatomu_slot *slot, const uint16_t *text, size_t len, size_t from, size_t columns, size_t *ends,
                            size_t room);
/* The same, with how many columns each line takes. It writes as many as both buffers have room for. */
size_t yengatomu_wrap_columns(const yengatomu_slot *slot, const uint8_t *text, size_t len, size_t from, size_t columns, size_t *ends,
                              size_t room, size_t *widths, size_t widths_room);
size_t yengatomu_wrap_columns_utf16(const yengatomu_slot *slot, const uint16_t *text, size_t len, size_t from, size_t columns, size_t *ends,
                                    size_t room, size_t *widths, size_t widths_room);

/* Writes where the balanced lines of the first paragraph behind from end and how many columns they take, as many as both buffers have room for,
 * and returns how many lines it has; where that is more, call again with more room. A paragraph ends where a line must, or with the text. Go on
 * from its last end. A balanced line takes whole segments that fit in the columns, at least one, as a wrapped one does. Of all such lines they
 * leave the least ragged edge: the sum of the squares of the columns that all lines but the last leave free is the least. 0 where from is len or
 * more, where the slot is empty, and of other kinds than lines. YENGATOMU_NONE when out of memory: it takes some 200 bytes for each segment of
 * the paragraph, and frees them. */
size_t yengatomu_wrap_balanced(const yengatomu_slot *slot, const uint8_t *text, size_t len, size_t from, uint32_t columns, size_t *ends,
                               size_t room, size_t *widths, size_t widths_room);
size_t yengatomu_wrap_balanced_utf16(const yengatomu_slot *slot, const uint16_t *text, size_t len, size_t from, uint32_t columns,
                                     size_t *ends, size_t room, size_t *widths, size_t widths_room);

/* How many segments the text has: one less than it has boundaries. 0 where the slot is empty. */
size_t yengatomu_count(const yengatomu_slot *slot, const uint8_t *text, size_t len);
size_t yengatomu_count_utf16(const yengatomu_slot *slot, const uint16_t *text, size_t len);
/* How many of them are words, of letters or numbers. 0 of other kinds than words. */
size_t yengatomu_count_words(const yengatomu_slot *slot, const uint8_t *text, size_t len);
size_t yengatomu_count_words_utf16(const yengatomu_slot *slot, const uint16_t *text, size_t len);

/* Versions as 10,000 times the major number, 100 times the minor one and the update: of this library, and of the Unicode data by which
 * a kind is segmented (0 for no such kind). The data of each kind are of 18.0 (180000). So are the rules, those of UAX #29; but the rules
 * of lines are those of UAX #14 revision 55, which belongs to 17.0. */
uint32_t yengatomu_version(void);
uint32_t yengatomu_unicode_version(uint32_t kind);

#ifdef __cplusplus
}
#endif
#endif
