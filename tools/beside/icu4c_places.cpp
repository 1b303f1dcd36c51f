// Prints the places of ICU4C's word boundaries in a file in UTF-8, each on a line, and on standard error how many MB of it the best of PASSES (1) does in
// a second.
//
//     apt-get install g++ libicu-dev
//     g++ -O3 -o /tmp/icu4c_places tools/beside/icu4c_places.cpp -licuuc
//     /tmp/icu4c_places FILE [PASSES]
#include <algorithm>
#include <chrono>
#include <cstdio>
#include <cstdlib>
#include <fstream>
#include <iterator>
#include <memory>
#include <string>
#include <unicode/brkiter.h>
#include <unicode/utext.h>
#include <vector>

using Clock = std::chrono::steady_clock;

static void check(UErrorCode status) {
    if (U_FAILURE(status)) {
        std::fprintf(stderr, "%s\n", u_errorName(status));
        std::exit(1);
    }
}

static std::vector<long> places_of(icu::BreakIterator &breaks, UText *text) {
    UErrorCode status = U_ZERO_ERROR;
    breaks.setText(text, status);
    check(status);
    std::vector<long> places;
    for (long place = breaks.first(); place != icu::BreakIterator::DONE; place = breaks.next())
        places.push_back(place);
    return places;
}

int main(int count, char **arguments) {
    if (count < 2)
        return 2;
    std::ifstream file(arguments[1], std::ios::binary);
    std::string bytes{std::istreambuf_iterator<char>(file), {}};
    UErrorCode status = U_ZERO_ERROR;
    std::unique_ptr<icu::BreakIterator> breaks(icu::BreakIterator::createWordInstance(icu::Locale::getRoot(), status));
    UText *text = utext_openUTF8(nullptr, bytes.data(), bytes.size(), &status);
    check(status);
    std::vector<long> places;
    Clock::duration best = Clock::duration::max();
    for (int passes = count > 2 ? std::atoi(arguments[2]) : 1; passes > 0; --passes) {
        Clock::time_point start = Clock::now();
        places = places_of(*breaks, text);
        best = std::min(best, Clock::now() - start);
    }
    utext_close(text);
    for (long place : places)
        std::printf("%ld\n", place);
    std::fprintf(stderr, "%.0f MB/s\n", bytes.size() / 1e6 / std::chrono::duration<double>(best).count());
}
