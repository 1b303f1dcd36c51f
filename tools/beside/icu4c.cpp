// Measures ICU4C's break iterators over a file in UTF-8, as UTF-8 and as UTF-16.
//
//     apt-get install g++ libicu-dev
//     g++ -O3 -o /tmp/icu4c tools/beside/icu4c.cpp -licuuc
//     /tmp/icu4c FILE [PASSES]
//
// A row for each kind: how many boundaries there are, the sum of their places, and how many MB of UTF-8 the best of 25
// passes does in a second. Words and lines come a second time, by the same rules without ICU4C's dictionaries.
#include <algorithm>
#include <chrono>
#include <cstdio>
#include <cstdlib>
#include <fstream>
#include <iterator>
#include <memory>
#include <unicode/rbbi.h>
#include <unicode/uchar.h>

using icu::BreakIterator;
using Breaks = std::unique_ptr<BreakIterator>;
using Clock = std::chrono::steady_clock;

// Ends the program where ICU4C met an error.
static void check(UErrorCode status) {
    if (U_FAILURE(status)) {
        std::fprintf(stderr, "%s\n", u_errorName(status));
        std::exit(1);
    }
}

// The same rules, but the set of characters that ICU4C knows by the name "dictionary" has another name.
static Breaks without_dictionaries(Breaks breaks, UErrorCode &status) {
    check(status);
    icu::UnicodeString rules = dynamic_cast<icu::RuleBasedBreakIterator &>(*breaks).getRules();
    rules.findAndReplace("$dictionary=", "$unused=");
    UParseError place;
    return Breaks(new icu::RuleBasedBreakIterator(rules, place, status));
}

// Counts the boundaries and adds up their places.
__attribute__((noinline)) static std::pair<long, long> pass(BreakIterator &breaks, UText *text) {
    UErrorCode status = U_ZERO_ERROR;
    breaks.setText(text, status);
    check(status);
    long count = 0, sum = 0;
    for (long place = breaks.first(); place != BreakIterator::DONE; place = breaks.next()) {
        count += 1;
        sum += place;
    }
    return {count, sum};
}

static void measure(const char *form, const char *kind, BreakIterator &breaks, UText *text, size_t len, int passes) {
    std::pair<long, long> found;
    Clock::duration best = Clock::duration::max();
    for (int i = 0; i < passes; i += 1) {
        Clock::time_point start = Clock::now();
        found = pass(breaks, text);
        best = std::min(best, Clock::now() - start);
    }
    double rate = len / std::chrono::duration<double, std::micro>(best).count();
    std::printf("%s %s: %ld boundaries, sum %ld, %.0f MB/s\n", form, kind, found.first, found.second, rate);
}

int main(int count, char **words) {
    if (count < 2) return 2;
    std::ifstream file(words[1], std::ios::binary);
    std::string utf8((std::istreambuf_iterator<char>(file)), std::istreambuf_iterator<char>());
    icu::UnicodeString utf16 = icu::UnicodeString::fromUTF8(utf8);
    UErrorCode status = U_ZERO_ERROR;
    std::pair<const char *, UText *> texts[] = {
        {"UTF-8", utext_openUTF8(nullptr, utf8.data(), utf8.size(), &status)},
        {"UTF-16", utext_openUChars(nullptr, utf16.getBuffer(), utf16.length(), &status)},
    };
    const icu::Locale &root = icu::Locale::getRoot();
    std::pair<const char *, Breaks> kinds[] = {
        {"grapheme", Breaks(BreakIterator::createCharacterInstance(root, status))},
        {"sentence", Breaks(BreakIterator::createSentenceInstance(root, status))},
        {"word", Breaks(BreakIterator::createWordInstance(root, status))},
        {"line", Breaks(BreakIterator::createLineInstance(root, status))},
        {"word-plain", without_dictionaries(Breaks(BreakIterator::createWordInstance(root, status)), status)},
        {"line-plain", without_dictionaries(Breaks(BreakIterator::createLineInstance(root, status)), status)},
    };
    check(status);
    std::printf("ICU %s, Unicode %s\n", U_ICU_VERSION, U_UNICODE_VERSION);
    for (auto &[form, text] : texts)
        for (auto &[kind, breaks] : kinds)
            measure(form, kind, *breaks, text, utf8.size(), count > 2 ? std::atoi(words[2]) : 25);
}
