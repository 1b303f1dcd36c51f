// test FOLDER: what yengatomu.hpp gives is what the calls of yengatomu.h give. It writes lists of words into the folder.
#include <atomic>
#include <cstdio>
#include <fstream>
#include <thread>
#include <type_traits>
#include <yengatomu.hpp>
// (twice, as a program may include it)
#include <yengatomu.hpp>

using namespace yengatomu;

static int failed;
#define CHECK(it) ((it) ? (void)0 : (void)(failed++, std::fprintf(stderr, "%s:%d: not so: %s\n", __FILE__, __LINE__, #it)))

template <class Call> static const char *thrown(Call call) {
    try {
        return call(), "nothing";
    } catch (const std::bad_alloc &) {
        return "bad_alloc";
    } catch (const std::system_error &error) {
        return error.code() == std::errc::no_such_file_or_directory ? "no such file" : "system_error";
    } catch (const std::invalid_argument &) {
        return "invalid_argument";
    }
}
#define CHECK_THROWS(call, what) CHECK(std::string_view(thrown([&] { call; })) == (what))

// The program is linked with --wrap for these, so that the library's calls come here.
static std::atomic<bool> refused;
extern "C" {
#define REFUSED(result, name, takes, gives)                                     \
    result __real_##name takes;                                                 \
    result __wrap_##name takes;                                                 \
    result __wrap_##name takes { return refused ? result() : __real_##name gives; }
using block = void *;
REFUSED(block, malloc, (size_t size), (size))
REFUSED(block, calloc, (size_t count, size_t size), (count, size))
REFUSED(block, realloc, (void *at, size_t size), (at, size))
REFUSED(block, aligned_alloc, (size_t align, size_t size), (align, size))
int __real_posix_memalign(void **at, size_t align, size_t size);
int __wrap_posix_memalign(void **at, size_t align, size_t size);
int __wrap_posix_memalign(void **at, size_t align, size_t size) { return refused ? ENOMEM : __real_posix_memalign(at, align, size); }
}

template <class Segmenter> constexpr bool is_moved_only() {
    return std::is_nothrow_move_constructible_v<Segmenter> && std::is_nothrow_move_assignable_v<Segmenter> &&
           !std::is_copy_constructible_v<Segmenter> && !std::is_copy_assignable_v<Segmenter>;
}
static_assert(is_moved_only<cluster_segmenter>() && is_moved_only<word_segmenter>());
static_assert(is_moved_only<sentence_segmenter>() && is_moved_only<line_segmenter>());
static_assert(!std::is_convertible_v<line_options, line_segmenter>);
using words_of_bytes = decltype(std::declval<const word_segmenter &>().segments(""));
static_assert(std::is_same_v<words_of_bytes::value_type, segment<kind::words, char>>);
#ifdef __cpp_lib_ranges
#include <ranges>
static_assert(std::ranges::input_range<words_of_bytes> && std::movable<words_of_bytes>);
#endif

static std::vector<std::string> texts() {
    const char *const parts[] = {"a", "can't", " ", "3.14", "! ", "e\u0301", "\u0e01\u0e02", "\u0e01", "\u4eac", "\U0001F1FB\U0001F1F3", ". B", "Mr. Z"};
    std::vector<std::string> made = {"", "\n", "a", "a\n"};
    unsigned state = 1;
    for (const int per_line : {0, 3, 600}) {
        std::string text;
        for (int i = 0; i < 1500; i++) {
            state = state * 1103515245 + 12345;
            text += parts[(state >> 16) % 12];
            if (per_line && i % per_line == per_line - 1) text += i % 2 ? "\n" : "\r\n";
        }
        made.push_back(text);
    }
    return made;
}

static std::u16string in_utf16(std::string_view text) {
    std::u16string made;
    for (size_t i = 0; i < text.size();) {
        const auto lead = static_cast<unsigned char>(text[i++]);
        char32_t point = lead < 0x80 ? lead : lead & (lead < 0xE0 ? 0x1F : lead < 0xF0 ? 0x0F : 0x07);
        while (i < text.size() && (text[i] & 0xC0) == 0x80) point = point << 6 | (text[i++] & 0x3F);
        if (point < 0x10000) made += static_cast<char16_t>(point);
        else (made += static_cast<char16_t>(0xD7C0 + (point >> 10))) += static_cast<char16_t>(0xDC00 + (point & 0x3FF));
    }
    return made;
}

// What is said of a piece beside its text and where that begins.
template <class Char> static size_t more_of(const segment<kind::words, Char> &it) { return static_cast<size_t>(it.type); }
template <class Char> static size_t more_of(const segment<kind::lines, Char> &it) { return it.must_break; }
template <class Char> static size_t more_of(const wrapped_line<Char> &it) { return it.columns; }
template <class Piece> static size_t more_of(const Piece &) { return 0; }

// A range has the ends, and what more there is, that one call with room for all has.
template <class View, class Range, class More> static void check_range(View text, Range range, const std::vector<size_t> &ends, const std::vector<More> &more) {
    size_t at = 0, start = 0;
    for (const auto &it : range) {
        CHECK(it.begin == start && it.text.data() == text.data() + start && more_of(it) == size_t{more.at(at)});
        start += it.text.size();
        CHECK(start == ends.at(at++));
    }
    CHECK(at == ends.size() && start == text.size());
}

template <class Segmenter> static void check_segments(const Segmenter &by, const yengatomu_slot &slot, const std::string &text) {
    const auto units = in_utf16(text);
    std::vector<size_t> ends(text.size() + 1);
    std::vector<std::uint8_t> marks(ends.size());
    const auto bytes = detail::units(text);
    size_t count = yengatomu_marked_boundaries(&slot, bytes, text.size(), 0, ends.data(), ends.size(), marks.data(), marks.size());
    check_range(std::string_view(text), by.segments(text), {ends.begin(), ends.begin() + count}, marks);
    CHECK(by.count(text) == count);
    for (size_t place : {size_t{0}, text.size() / 2, text.size()}) {
        CHECK(by.next(text, place).value_or(YENGATOMU_NONE) == yengatomu_next(&slot, bytes, text.size(), place));
        CHECK(by.previous(text, place).value_or(YENGATOMU_NONE) == yengatomu_previous(&slot, bytes, text.size(), place));
    }
    count = yengatomu_marked_boundaries_utf16(&slot, detail::units(units), units.size(), 0, ends.data(), ends.size(), marks.data(), marks.size());
    check_range(std::u16string_view(units), by.segments(units), {ends.begin(), ends.begin() + count}, marks);
    CHECK(by.count(units) == count);
}

static void check_wrapped(const line_segmenter &by, const yengatomu_slot &slot, const std::string &text) {
    const auto units = in_utf16(text);
    std::vector<size_t> ends(text.size() + 1), widths(text.size() + 1);
    size_t count = yengatomu_wrap_columns(&slot, detail::units(text), text.size(), 0, 9, ends.data(), ends.size(), widths.data(), widths.size());
    check_range(std::string_view(text), by.wrap(text, 9), {ends.begin(), ends.begin() + count}, widths);
    count = yengatomu_wrap_columns_utf16(&slot, detail::units(units), units.size(), 0, 9, ends.data(), ends.size(), widths.data(), widths.size());
    check_range(std::u16string_view(units), by.wrap(units, 9), {ends.begin(), ends.begin() + count}, widths);
}

// All kinds, without words and with words.
static void check_texts(const std::string &folder) {
    yengatomu_slot slots[4] = {};
    cluster_segmenter clusters;
    word_segmenter words;
    sentence_segmenter sentences;
    line_segmenter lines;
    for (std::uint32_t kind = 0; kind < 4; kind++) CHECK(yengatomu_open(&slots[kind], kind, 0, 0, false) == YENGATOMU_OK);
    for (const bool has_words : {false, true}) {
        if (has_words) {
            words.load_folder(folder), CHECK(yengatomu_load_folder(&slots[1], folder.c_str()) == YENGATOMU_OK);
            sentences.load_language(folder, "en"), CHECK(yengatomu_load_language(&slots[2], folder.c_str(), "en") == YENGATOMU_OK);
            lines.load_folder(folder), CHECK(yengatomu_load_folder(&slots[3], folder.c_str()) == YENGATOMU_OK);
        }
        for (const auto &text : texts()) {
            check_segments(clusters, slots[0], text);
            check_segments(words, slots[1], text);
            check_segments(sentences, slots[2], text);
            check_segments(lines, slots[3], text);
            check_wrapped(lines, slots[3], text);
            CHECK(words.count_words(text) == yengatomu_count_words(&slots[1], detail::units(text), text.size()));
            CHECK(words.count_words(in_utf16(text)) == words.count_words(text));
        }
    }
    for (auto &slot : slots) yengatomu_close(&slot);
}

static void check_words_loaded(const std::string &folder) {
    word_segmenter words, by_file;
    words.load_dictionary(std::vector<std::string>{"\u0e01\u0e02", "\u0e02"}, script::thai);
    by_file.load_folder(folder);
    CHECK(words.count("\u0e01\u0e02\u0e02") == 2 && by_file.count("\u0e01\u0e02\u0e02") == 2 && word_segmenter().count("\u0e01\u0e02\u0e02") == 3);
    sentence_segmenter sentences;
    CHECK(sentences.count("Mr. Z went. He left.") == 3);
    sentences.load_abbreviations(std::vector<const char *>{"Mr."});
    CHECK(sentences.count("Mr. Z went. He left.") == 2);
    CHECK_THROWS(sentences.load_language(folder, "en"), "invalid_argument");
    CHECK_THROWS(sentence_segmenter().load_language(folder, "xx"), "no such file");
    CHECK_THROWS(sentence_segmenter().load_abbreviations(std::vector<std::string_view>{"a\nb"}), "invalid_argument");
    CHECK_THROWS(word_segmenter().load_folder(folder + "/none"), "no such file");
    CHECK_THROWS(words.load_dictionary(std::vector<std::string_view>{"\xFF"}, script::lao), "invalid_argument");
    CHECK_THROWS(words.load_dictionary(std::vector<std::string_view>(), script::lao), "nothing");
    line_segmenter lines(line_options{line_strictness::loose, line_word_break::keep_all, true});
    CHECK_THROWS(lines.count_by_cluster(), "nothing");
    CHECK(!lines.segments("a\nb").begin()->text.empty() && lines.segments("a\nb").begin()->must_break);
}

// Balanced lines, also of a paragraph that has more than one call has room for.
static void check_balanced() {
    const line_segmenter lines;
    std::string text = "aaa bb cc ddddd\naaa bb cc ddddd", many;
    size_t at = 0;
    for (const auto &[line, begin, columns] : lines.wrap_balanced(text, 6)) {
        const std::string_view wanted[] = {"aaa ", "bb cc ", "ddddd\n", "aaa ", "bb cc ", "ddddd"};
        CHECK(at < 6 && line == wanted[at++] && line.data() == text.data() + begin && columns == line.find_last_not_of(" \n") + 1);
    }
    CHECK(at == 6 && lines.wrap_balanced(in_utf16(text), 6).size() == 6 && lines.wrap_balanced(std::string_view(), 6).empty());
    while (many.size() < 4000) many += "word of ";
    const auto found = lines.wrap_balanced(many, 20);
    CHECK(found.size() > 64 && found.back().begin + found.back().text.size() == many.size());
    refused = true;
    const std::string_view said = thrown([&] { lines.wrap_balanced(text, 6); });
    refused = false;
    CHECK(said == "bad_alloc");
}

static void check_moves() {
    word_segmenter one, other(std::move(one));
    CHECK(one.count("a b") == 0 && one.segments("a b").begin() == one.segments("a b").end() && !one.next("a", 0));
    CHECK(other.count("a b") == 3 && other.count_words("a b") == 2);
    one = std::move(other);
    CHECK(one.count("a b") == 3 && other.count("a b") == 0);
    CHECK(one.count(std::string_view()) == 0 && one.count("\xE0\xFF") == 2);
    auto range = one.segments("a b");
    auto it = range.begin();
    CHECK(it++->text == "a" && it->text == " " && (++it)->type == word_type::letters && ++it == range.end());
    auto later = one.segments("a b");
    CHECK(std::distance(later.begin(), later.end()) == 3);
}

static void check_refused() {
    word_segmenter words;
    refused = true;
    const std::string_view said[] = {thrown([] { cluster_segmenter(); }), thrown([] { line_segmenter(); }), thrown([&] { words.load_folder("none"); })};
    refused = false;
    CHECK(said[0] == "bad_alloc" && said[1] == "bad_alloc" && said[2] == "bad_alloc" && words.count("a b") == 3);
}

static void check_threads() {
    const word_segmenter words;
    const auto text = texts().back();
    const auto wanted = words.count_words(text);
    std::atomic<int> right{0};
    std::vector<std::thread> threads;
    for (int i = 0; i < 4; i++) threads.emplace_back([&] { right += words.count_words(text) == wanted; });
    for (auto &it : threads) it.join();
    CHECK(right == 4 && wanted > 100);
}

int main(int count, char **arguments) {
    if (count != 2) return 2;
    const std::string folder = arguments[1];
    std::ofstream(folder + "/thai.txt") << "\u0e01\u0e02\n\u0e02\n";
    std::ofstream(folder + "/abbreviations-en.txt") << "! Mr.\n";
    check_texts(folder);
    check_words_loaded(folder);
    check_balanced();
    check_moves();
    check_refused();
    check_threads();
    return failed != 0;
}
