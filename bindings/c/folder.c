/* folder KIND FOLDER FILE [LANGUAGE]: prints the places of a file's segments, by the dictionaries of a folder, or its abbreviations of a language. */
#include <yengatomu_folder.h>

int main(int count, char **words) {
    yengatomu_slot slot = {0};
    char *text;
    size_t len, from = 0;
    if (count < 4 || count > 5 || yengatomu_open(&slot, (uint32_t)atoi(words[1]), YENGATOMU_STRICT, YENGATOMU_BREAK_NORMAL, false) != YENGATOMU_OK) return 2;
    const uint32_t error = count == 5 ? yengatomu_load_language(&slot, words[2], words[4]) : yengatomu_load_folder(&slot, words[2]);
    if (error != YENGATOMU_OK) {
        printf("error %u\n", (unsigned)error);
    } else if (yengatomu_read_list(words[3], &text, &len) == YENGATOMU_OK) {
        size_t *ends = (size_t *)malloc((len + 1) * sizeof *ends);
        if (!ends) return 2;
        /* (one call has room for all, since none may go on in the middle of a line) */
        const size_t found = yengatomu_boundaries(&slot, (const uint8_t *)text, len, 0, ends, len);
        for (size_t i = 0; i < found; from = ends[i++]) printf("%zu %zu\n", from, ends[i]);
        free(ends);
        free(text);
    }
    yengatomu_close(&slot);
    return 0;
}
