/* yengatomu_folder.h: dictionaries and abbreviations from lists in files, for yengatomu.h. It needs the C library alone; its calls are compiled with the program.
 *
 * A list is a text of UTF-8 with a word a line. White space around a word, a byte order mark at the start and blank lines count for nothing. */
#ifndef YENGATOMU_FOLDER_H
#define YENGATOMU_FOLDER_H
#include <errno.h>
#include <stdio.h>
#include <stdlib.h>
#include <string.h>
#include <yengatomu.h>

/* what these calls return beside what yengatomu_load_dictionary and yengatomu_load_abbreviations do: the file can't be read (errno says why); it has no words */
enum { YENGATOMU_UNREAD = 4, YENGATOMU_NO_WORDS };

/* Reads a file into memory that the caller frees; unless it is YENGATOMU_OK there is none. */
static inline uint32_t yengatomu_read_list(const char *path, char **list, size_t *len) {
    FILE *file = fopen(path, "rb");
    uint32_t error = YENGATOMU_OK;
    size_t room = 0, got;
    *list = NULL;
    *len = 0;
    if (!file) return YENGATOMU_UNREAD;
    do {
        if (*len == room) {
            char *larger = room <= SIZE_MAX / 2 ? (char *)realloc(*list, room = room ? 2 * room : 65536) : NULL;
            if (!larger) {
                error = YENGATOMU_NO_MEMORY;
                break;
            }
            *list = larger;
        }
        *len += got = fread(*list + *len, 1, room - *len, file);
    } while (got);
    if (ferror(file)) error = YENGATOMU_UNREAD;
    if (fclose(file) && error == YENGATOMU_OK) error = YENGATOMU_UNREAD;
    if (error != YENGATOMU_OK) {
        free(*list);
        *list = NULL;
    }
    return error;
}

/* Puts the words of a list into an array, unless that is NULL, and returns how many there are. */
static inline size_t yengatomu_words_in(const char *list, size_t len, yengatomu_word *words) {
    const char *const end = list + len, *const white = " \t\r\v\f";
    size_t count = 0;
    if (len > 2 && !memcmp(list, "\xEF\xBB\xBF", 3)) list += 3;
    while (list < end) {
        const char *feed = (const char *)memchr(list, '\n', (size_t)(end - list)), *stop = feed ? feed : end, *next = feed ? feed + 1 : end;
        while (list < stop && *list && strchr(white, *list)) list++;
        while (list < stop && stop[-1] && strchr(white, stop[-1])) stop--;
        if (list < stop) {
            if (words) {
                words[count].bytes = (const uint8_t *)list;
                words[count].len = (size_t)(stop - list);
            }
            count++;
        }
        list = next;
    }
    return count;
}

/* Gives a segmenter the words of a list in a file: of a script, or, where that is NULL, abbreviations. */
static inline uint32_t yengatomu_load_list(yengatomu_slot *slot, const char *path, const uint32_t *script) {
    char *list;
    size_t len, count;
    yengatomu_word *words;
    uint32_t error = yengatomu_read_list(path, &list, &len);
    if (error != YENGATOMU_OK) return error;
    count = yengatomu_words_in(list, len, NULL);
    words = (yengatomu_word *)malloc(count * sizeof *words + 1);
    if (words) yengatomu_words_in(list, len, words);
    if (!count) error = YENGATOMU_NO_WORDS;
    else if (!words) error = YENGATOMU_NO_MEMORY;
    else error = script ? yengatomu_load_dictionary(slot, words, count, *script) : yengatomu_load_abbreviations(slot, words, count);
    free(words);
    free(list);
    return error;
}

/* Gives a segmenter of words or lines the words of a list in a file, as yengatomu_load_dictionary does. */
static inline uint32_t yengatomu_load_file(yengatomu_slot *slot, const char *path, uint32_t script) {
    return yengatomu_load_list(slot, path, &script);
}

/* Gives a segmenter of sentences the abbreviations of a list in a file, as yengatomu_load_abbreviations does. */
static inline uint32_t yengatomu_load_abbreviations_file(yengatomu_slot *slot, const char *path) {
    return yengatomu_load_list(slot, path, NULL);
}

/* Gives a segmenter of sentences the abbreviations of a language, as "en": those of abbreviations-en.txt of a folder, as tools/dictionaries
 * writes it. */
static inline uint32_t yengatomu_load_language(yengatomu_slot *slot, const char *folder, const char *language) {
    const size_t room = strlen(folder) + strlen(language) + sizeof "/abbreviations-.txt";
    char *path = (char *)malloc(room);
    uint32_t error;
    if (!path) return YENGATOMU_NO_MEMORY;
    snprintf(path, room, "%s/abbreviations-%s.txt", folder, language);
    error = yengatomu_load_abbreviations_file(slot, path);
    free(path);
    return error;
}

/* Gives a segmenter of words or lines the lists of a folder, as tools/dictionaries writes it: those of myanmar.txt, cj.txt, khmer.txt, lao.txt and
 * thai.txt that are there. YENGATOMU_UNREAD if none is there, or one can't be read. At an error it ends with the file that has it; those before are
 * loaded. */
static inline uint32_t yengatomu_load_folder(yengatomu_slot *slot, const char *folder) {
    static const char *const names[] = {"myanmar", "cj", "khmer", "lao", "thai"};
    const size_t room = strlen(folder) + sizeof "/myanmar.txt";
    char *path = (char *)malloc(room);
    uint32_t all = YENGATOMU_UNREAD;
    if (!path) return YENGATOMU_NO_MEMORY;
    for (uint32_t script = YENGATOMU_MYANMAR; script <= YENGATOMU_THAI; script++) {
        snprintf(path, room, "%s/%s.txt", folder, names[script - 1]);
        const uint32_t error = yengatomu_load_file(slot, path, script);
        if (error == YENGATOMU_UNREAD && errno == ENOENT) continue;
        all = error;
        if (error != YENGATOMU_OK) break;
    }
    free(path);
    return all;
}

#endif
