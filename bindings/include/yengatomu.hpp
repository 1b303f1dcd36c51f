/// yengatomu.hpp: grapheme clusters, words, sentences and lines for C++17, over yengatomu.h, which says more of what each call does.
///
///     const yengatomu::word_segmenter words;
///     for (const auto &[text, begin, type] : words.segments("can't pay 3.14!"))
///         if (type != yengatomu::word_type::none) std::cout << begin << ' ' << text << '\n';
///
/// Texts are UTF-8 (std::string_view) or UTF-16 (std::u16string_view), and may be ill-formed. Places count a text's units from its start.
/// A segmenter can be moved, but not copied; what it was moved from finds nothing. To make one takes about a millisecond, so keep it. Any
/// number of threads may call its const methods at once. While one of them runs, or a range is in use, nobody may move or change it.
#ifndef YENGATOMU_HPP
#define YENGATOMU_HPP
#include <algorithm>
#include <iterator>
#include <new>
#include <optional>
#include <stdexcept>
#include <string>
#include <string_view>
#include <system_error>
#include <utility>
#include <vector>
#include <yengatomu_folder.h>

namespace yengatomu {
using std::size_t;
using place = std::optional<size_t>;
enum class kind : std::uint32_t { clusters = YENGATOMU_CLUSTERS, words, sentences, lines };
enum class word_type : std::uint8_t { none = YENGATOMU_NO_WORD, number, letters };
enum class script : std::uint32_t { myanmar = YENGATOMU_MYANMAR, chinese_or_japanese, khmer, lao, thai };
enum class line_strictness : std::uint32_t { strict = YENGATOMU_STRICT, normal, loose, anywhere };
enum class line_word_break : std::uint32_t { normal = YENGATOMU_BREAK_NORMAL, break_all, keep_all };
struct line_options {
    line_strictness strictness = line_strictness::strict;
    line_word_break word_break = line_word_break::normal;
    bool chinese_or_japanese = false;
};
/// A segment: its text, and where that begins. Those of words also have a type, and those of lines whether the line must end behind them.
template <kind K, class Char> struct segment { std::basic_string_view<Char> text; size_t begin; };
template <class Char> struct segment<kind::words, Char> { std::basic_string_view<Char> text; size_t begin; word_type type; };
template <class Char> struct segment<kind::lines, Char> { std::basic_string_view<Char> text; size_t begin; bool must_break; };
/// A wrapped line: its text, with the spaces and the line feed at its end, where that begins, and how many columns it takes.
template <class Char> struct wrapped_line { std::basic_string_view<Char> text; size_t begin, columns; };

namespace detail {
// The text as C takes it: never NULL.
inline const std::uint8_t *units(std::string_view it) { return reinterpret_cast<const std::uint8_t *>(it.data() ? it.data() : ""); }
inline const std::uint16_t *units(std::u16string_view it) { return reinterpret_cast<const std::uint16_t *>(it.data() ? it.data() : u""); }
// The words as C takes them, and one more, so that the array is never NULL.
template <class List> std::vector<yengatomu_word> words_of(const List &list) {
    std::vector<yengatomu_word> words;
    for (const std::string_view word : list) words.push_back({units(word), word.size()});
    return words.push_back({units(std::string_view()), 0}), words;
}
template <class Enum> constexpr std::uint32_t number(Enum it) { return static_cast<std::uint32_t>(it); }
inline place found(size_t it) { return it == YENGATOMU_NONE ? std::nullopt : place(it); }
inline void done(std::uint32_t result, const char *what) {
    if (result == YENGATOMU_NO_MEMORY) throw std::bad_alloc();
    if (result == YENGATOMU_UNREAD) throw std::system_error(errno, std::generic_category(), what);
    if (result != YENGATOMU_OK) throw std::invalid_argument("yengatomu: " + std::string(what) + ": error " + std::to_string(result));
}
// What is segmented, and by what: by line where that has words. And where segments or lines end, with the mark or the columns of each.
template <class Char> struct task { const yengatomu_slot *slot; bool by_line; std::basic_string_view<Char> text; };
template <class More> struct buffer { std::vector<size_t> ends; std::vector<More> more; };
template <kind K, class Char, auto Call> struct cut {
    using more = std::uint8_t;
    task<Char> it;
    size_t operator()(size_t from, buffer<more> &to) const {
        return Call(it.slot, units(it.text), it.text.size(), from, to.ends.data(), to.ends.size(), to.more.data(), to.more.size());
    }
    segment<K, Char> made(size_t begin, size_t end, [[maybe_unused]] more mark) const {
        if constexpr (K == kind::words) return {it.text.substr(begin, end - begin), begin, static_cast<word_type>(mark)};
        else if constexpr (K == kind::lines) return {it.text.substr(begin, end - begin), begin, mark == YENGATOMU_MUST_BREAK};
        else return {it.text.substr(begin, end - begin), begin};
    }
};
template <class Char, auto Call> struct wrap {
    using more = size_t;
    task<Char> it;
    size_t columns;
    size_t operator()(size_t from, buffer<more> &to) const {
        return Call(it.slot, units(it.text), it.text.size(), from, columns, to.ends.data(), to.ends.size(), to.more.data(), to.more.size());
    }
    wrapped_line<Char> made(size_t begin, size_t end, more width) const { return {it.text.substr(begin, end - begin), begin, width}; }
};
// The balanced lines of a text, paragraph by paragraph.
template <auto Call, class Char> std::vector<wrapped_line<Char>> balanced(const yengatomu_slot *slot, std::basic_string_view<Char> text, std::uint32_t columns) {
    std::vector<wrapped_line<Char>> lines;
    std::vector<size_t> ends(64), widths(64);
    for (size_t from = 0;;) {
        const size_t count = Call(slot, units(text), text.size(), from, columns, ends.data(), ends.size(), widths.data(), widths.size());
        if (count == YENGATOMU_NONE) throw std::bad_alloc();
        if (!count) return lines;
        if (count > ends.size()) {
            ends.resize(count), widths.resize(count);
            continue;
        }
        for (size_t i = 0; i < count; from = ends[i++]) lines.push_back({text.substr(from, ends[i] - from), from, widths[i]});
    }
}
using wrap_utf8 = wrap<char, yengatomu_wrap_columns>;
using wrap_utf16 = wrap<char16_t, yengatomu_wrap_columns_utf16>;
} // namespace detail

/// Segments or wrapped lines of a text, as an input range, which is read once. It finds at most 256 ahead, but with a dictionary or
/// abbreviations whole lines of the text. It borrows the text and the segmenter. std::bad_alloc where its buffer gets no memory.
template <class Ask> class pieces {
  public:
    using value_type = decltype(std::declval<Ask>().made(0, 0, 0));
    class iterator {
      public:
        using iterator_category = std::input_iterator_tag;
        using value_type = pieces::value_type; using pointer = const value_type *; using reference = const value_type &;
        using difference_type = std::ptrdiff_t;
        iterator() = default;
        explicit iterator(pieces *range) : range(range) { ++*this; }
        reference operator*() const { return piece; }
        pointer operator->() const { return &piece; }
        iterator &operator++() { return range = range->next(piece) ? range : nullptr, *this; }
        iterator operator++(int) { auto old = *this; return ++*this, old; }
        friend bool operator==(const iterator &a, const iterator &b) { return a.range == b.range; }
        friend bool operator!=(const iterator &a, const iterator &b) { return a.range != b.range; }
      private:
        pieces *range = nullptr;
        value_type piece{};
    };
    explicit pieces(Ask ask) : ask(ask) {}
    iterator begin() { return iterator(this); }
    iterator end() { return {}; }
  private:
    bool next(value_type &piece) {
        if (at == count && !fill()) return false;
        const auto from = std::exchange(start, to.ends[at]);
        return piece = ask.made(from, start, to.more[at++]), true;
    }
    // Goes on from the last end; by line only from behind a line feed, and the buffer grows until it has one.
    bool fill() {
        const auto left = ask.it.text.size() - start;
        grow(std::min(std::clamp<size_t>(4 * to.ends.size(), 16, 256), left));
        for (at = count = 0; left && (count = ask(start, to)); grow(std::min(2 * to.ends.size(), left))) {
            if (!ask.it.by_line || to.ends[count - 1] == ask.it.text.size()) break;
            while (count && ask.it.text[to.ends[count - 1] - 1] != '\n') count--;
            if (count) break;
        }
        return count;
    }
    void grow(size_t room) { to.ends.resize(std::max(room, to.ends.size())), to.more.resize(to.ends.size()); }
    Ask ask;
    detail::buffer<typename Ask::more> to;
    size_t at = 0, count = 0, start = 0;
};

/// What segmenters of all kinds have: segments gives a range of segment. std::bad_alloc comes of a constructor that gets no memory, and of calls
/// that load words. These also throw std::system_error where a file can't be read, and std::invalid_argument where yengatomu.h has another error.
template <kind K> class segmenter {
  public:
    segmenter(segmenter &&it) noexcept : slot(std::exchange(it.slot, {})), has_words(it.has_words) {}
    segmenter &operator=(segmenter &&it) noexcept { segmenter old(std::move(it)); return std::swap(slot, old.slot), has_words = old.has_words, *this; }
    ~segmenter() { yengatomu_close(&slot); }
    auto segments(std::string_view it) const & { return pieces(detail::cut<K, char, yengatomu_marked_boundaries>{{&slot, has_words, it}}); }
    auto segments(std::u16string_view it) const & { return pieces(detail::cut<K, char16_t, yengatomu_marked_boundaries_utf16>{{&slot, has_words, it}}); }
    template <class Text> void segments(const Text &) && = delete;
    /// How many segments the text has.
    size_t count(std::string_view it) const { return yengatomu_count(&slot, detail::units(it), it.size()); }
    size_t count(std::u16string_view it) const { return yengatomu_count_utf16(&slot, detail::units(it), it.size()); }
    /// The nearest boundary above the place, and the nearest below it, where there is one.
    place next(std::string_view it, size_t at) const { return detail::found(yengatomu_next(&slot, detail::units(it), it.size(), at)); }
    place next(std::u16string_view it, size_t at) const { return detail::found(yengatomu_next_utf16(&slot, detail::units(it), it.size(), at)); }
    place previous(std::string_view it, size_t at) const { return detail::found(yengatomu_previous(&slot, detail::units(it), it.size(), at)); }
    place previous(std::u16string_view it, size_t at) const { return detail::found(yengatomu_previous_utf16(&slot, detail::units(it), it.size(), at)); }
  protected:
    explicit segmenter(line_options it = {}) {
        detail::done(yengatomu_open(&slot, detail::number(K), detail::number(it.strictness), detail::number(it.word_break), it.chinese_or_japanese), "open");
    }
    /// Takes the words of a script: a list of what a std::string_view can be made of.
    template <class List> void load_dictionary(const List &list, script of) {
        const auto words = detail::words_of(list);
        detail::done(yengatomu_load_dictionary(&slot, words.data(), words.size() - 1, detail::number(of)), "load_dictionary"), has_words = true;
    }
    /// Takes the dictionaries of a folder that tools/dictionaries wrote.
    void load_folder(const std::string &path) { has_words = true, detail::done(yengatomu_load_folder(&slot, path.c_str()), path.c_str()); }
    yengatomu_slot slot{};
    bool has_words = false;
};

struct cluster_segmenter : segmenter<kind::clusters> { cluster_segmenter() {} };
struct word_segmenter : segmenter<kind::words> {
    word_segmenter() {}
    using segmenter::load_dictionary, segmenter::load_folder;
    /// How many segments are words, of letters or numbers.
    size_t count_words(std::string_view it) const { return yengatomu_count_words(&slot, detail::units(it), it.size()); }
    size_t count_words(std::u16string_view it) const { return yengatomu_count_words_utf16(&slot, detail::units(it), it.size()); }
};
struct sentence_segmenter : segmenter<kind::sentences> {
    sentence_segmenter() {}
    /// Takes abbreviations, as "Mr.", after which a sentence goes on; or those of a language, as "en", from such a folder.
    template <class List> void load_abbreviations(const List &list) {
        const auto words = detail::words_of(list);
        detail::done(yengatomu_load_abbreviations(&slot, words.data(), words.size() - 1), "load_abbreviations"), has_words = true;
    }
    void load_language(const std::string &path, const std::string &language) {
        detail::done(yengatomu_load_language(&slot, path.c_str(), language.c_str()), path.c_str()), has_words = true;
    }
};
struct line_segmenter : segmenter<kind::lines> {
    explicit line_segmenter(line_options options = {}) : segmenter(options) {}
    using segmenter::load_dictionary, segmenter::load_folder;
    /// Counts the columns of wrapped lines by cluster from now on.
    void count_by_cluster() { detail::done(yengatomu_count_by_cluster(&slot), "count_by_cluster"); }
    /// The lines that the text is wrapped to.
    auto wrap(std::string_view text, size_t columns) const & { return pieces(detail::wrap_utf8{{&slot, has_words, text}, columns}); }
    auto wrap(std::u16string_view text, size_t columns) const & { return pieces(detail::wrap_utf16{{&slot, has_words, text}, columns}); }
    template <class Text> void wrap(const Text &, size_t) && = delete;
    /// Its lines balanced: of all lines that fit, those with the least ragged edge. They borrow the text alone. std::bad_alloc when out of memory.
    auto wrap_balanced(std::string_view text, std::uint32_t columns) const { return detail::balanced<yengatomu_wrap_balanced>(&slot, text, columns); }
    auto wrap_balanced(std::u16string_view text, std::uint32_t columns) const { return detail::balanced<yengatomu_wrap_balanced_utf16>(&slot, text, columns); }
};
} // namespace yengatomu
#endif
