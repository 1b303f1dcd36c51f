// Prints the words of one of ICU4C's dictionaries, each on a line.
//
//     apt-get install g++ libicu-dev icu-devtools
//     apt-get source icu
//     icupkg -d /tmp -x 'brkitr/*.dict' icu-*/source/data/in/icudt72l.dat
//     g++ -O2 -o /tmp/icu4c_words tools/beside/icu4c_words.cpp -licuuc
//     /tmp/icu4c_words /tmp/brkitr/thaidict.dict
#include <cstdint>
#include <cstdio>
#include <cstring>
#include <fstream>
#include <iterator>
#include <string>
#include <unicode/bytestrie.h>
#include <unicode/ucharstrie.h>
#include <unicode/unistr.h>

// Which of the numbers at the start of the data say where the trie begins, of which kind it is, and what a byte stands for.
enum Index { TRIE = 0, KIND = 4, TRANSFORM = 5 };

static void print(const icu::UnicodeString &word) {
    std::string text;
    std::puts(word.toUTF8String(text).c_str());
}

// A byte of a trie stands for a character so much after the transform's, but for the two joiners.
static UChar32 character(uint8_t byte, int32_t transform) {
    return byte == 0xFF ? 0x200D : byte == 0xFE ? 0x200C : (transform & 0x1FFFFF) + byte;
}

static void print_bytes(const char *trie, int32_t transform, UErrorCode &status) {
    icu::BytesTrie::Iterator words(trie, 0, status);
    while (words.next(status)) {
        icu::UnicodeString word;
        for (int32_t i = 0; i < words.getString().length(); ++i)
            word.append(character(words.getString().data()[i], transform));
        print(word);
    }
}

static void print_units(const char *trie, UErrorCode &status) {
    icu::UCharsTrie::Iterator words(reinterpret_cast<const UChar *>(trie), 0, status);
    while (words.next(status))
        print(words.getString());
}

int main(int count, char **arguments) {
    if (count != 2)
        return 2;
    std::ifstream file(arguments[1], std::ios::binary);
    std::string bytes{std::istreambuf_iterator<char>(file), {}};
    uint16_t header;
    std::memcpy(&header, bytes.data(), sizeof header);
    const char *data = bytes.data() + header;
    int32_t indices[8];
    std::memcpy(indices, data, sizeof indices);
    UErrorCode status = U_ZERO_ERROR;
    if ((indices[KIND] & 7) == 0)
        print_bytes(data + indices[TRIE], indices[TRANSFORM], status);
    else
        print_units(data + indices[TRIE], status);
    return U_FAILURE(status) ? 1 : 0;
}
