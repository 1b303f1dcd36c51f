#include <stdio.h>
#include <yengatomu.h>
int main(void) {
    yengatomu_slot words = {0};
    if (yengatomu_open(&words, YENGATOMU_WORDS, YENGATOMU_STRICT, YENGATOMU_BREAK_NORMAL, false) != YENGATOMU_OK) return 1;
    printf("%zu\n", yengatomu_count_words(&words, (const uint8_t *)"can't pay 3.14!", 15));
    yengatomu_close(&words);
}
