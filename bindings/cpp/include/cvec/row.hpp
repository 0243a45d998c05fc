// How a T is kept in records, and how rows of it become the words of a call.
#ifndef CVEC_ROW_HPP
#define CVEC_ROW_HPP

#include "word_file.hpp"

#include <array>
#include <cstddef>
#include <cstdint>
#include <cstring>
#include <iterator>
#include <memory>
#include <new>
#include <optional>
#include <tuple>
#include <type_traits>
#include <utility>
#include <vector>

namespace cvec {
namespace detail {

// A word in memory, its type, and its bytes in a file.
template <class Word, cvec_type Type, std::size_t Width> struct kept_by {
    using word = Word;
    static constexpr cvec_type type = Type;
    static constexpr std::size_t width = Width;
};

using by_u64 = kept_by<std::uint64_t, CVEC_U64, 8>;

// A row of one of these sizes is one record; of another it is whole records of u64.
template <std::size_t Size> struct record_of_size { using kept = by_u64; };
template <> struct record_of_size<1> { using kept = kept_by<std::uint8_t, CVEC_U8, 1>; };
template <> struct record_of_size<2> { using kept = kept_by<std::uint16_t, CVEC_U16, 2>; };
template <> struct record_of_size<4> { using kept = kept_by<std::uint32_t, CVEC_U32, 4>; };
template <> struct record_of_size<16> { using kept = kept_by<cvec_pair, CVEC_PAIR, 16>; };
template <> struct record_of_size<24> { using kept = kept_by<cvec_bytes24, CVEC_BYTES24, 24>; };
template <> struct record_of_size<32> { using kept = kept_by<cvec_bytes32, CVEC_BYTES32, 32>; };
template <> struct record_of_size<64> { using kept = kept_by<cvec_bytes64, CVEC_BYTES64, 64>; };

template <class T>
using by_record = std::conditional_t<std::is_same_v<T, cvec_flagged>, kept_by<cvec_flagged, CVEC_FLAGGED, 9>,
                                     typename record_of_size<sizeof(T)>::kept>;

template <class T, class Layout> using keeping = std::conditional_t<std::is_same_v<Layout, rows_of_u64>, by_u64, by_record<T>>;

// What one growth may have: 2^20 bytes of payload, with 8 of its own.
inline constexpr std::size_t most_bytes = (std::size_t{1} << 20) - 8;

template <class Iterator> using category_of = typename std::iterator_traits<Iterator>::iterator_category;

// An iterator that is no path: of two pointers to char one may be meant as that.
template <class Iterator>
using value_of_iterator = std::enable_if_t<!std::is_convertible_v<Iterator, std::string> && !std::is_same_v<category_of<Iterator>, void>,
                                           typename std::iterator_traits<Iterator>::value_type>;

// Types whose bytes are all that there is of a value. A pair and a tuple aren't trivially copyable, but only since they are assigned to
// part by part, which nothing here does.
template <class T> struct is_its_bytes : std::is_trivially_copyable<T> {};
template <class A, class B> struct is_its_bytes<std::pair<A, B>> : std::conjunction<is_its_bytes<A>, is_its_bytes<B>> {};
template <class... Parts> struct is_its_bytes<std::tuple<Parts...>> : std::conjunction<is_its_bytes<Parts>...> {};

template <class T, class Layout = one_record> struct row {
    using kept = keeping<T, Layout>;
    using word = typename kept::word;

    static_assert(is_its_bytes<T>::value && std::is_copy_constructible_v<T> && !std::is_const_v<T> && !std::is_volatile_v<T>,
                  "cvec::concurrent_vector<T>: T is copied to a file byte by byte, so it is trivially copyable, and not const");
    static_assert(sizeof(T) <= 256, "cvec::concurrent_vector<T>: T has 256 bytes at most");
    static_assert(alignof(T) <= 16, "cvec::concurrent_vector<T>: memory is aligned to 16 bytes at most");

    static constexpr std::size_t words = (sizeof(T) + sizeof(word) - 1) / sizeof(word);
    static constexpr std::size_t bytes = words * sizeof(word);
    static constexpr std::size_t most_in_growth = most_bytes / (words * kept::width);

    // Copies, since a T may be aligned to less than a word, or be no row of words to the compiler. Behind T there are zeros: no
    // bytes of this process, and equal ones for equal rows.
    static void store(const T &value, word *out) noexcept {
        out[words - 1] = word{};
        std::memcpy(out, std::addressof(value), sizeof(T));
    }

    // A copy. What stands behind T isn't looked at.
    static T load(const word *from) noexcept {
        alignas(T) unsigned char copy[sizeof(T)];
        std::memcpy(copy, from, sizeof(T));
        return *std::launder(reinterpret_cast<T *>(copy));
    }

    // A row where it stands in the vector.
    static const T &at(const unsigned char *from) noexcept { return *reinterpret_cast<const T *>(from); }

    static void add(std::vector<word> &out, const T &value) {
        const std::size_t end = out.size();
        out.resize(end + words);
        store(value, out.data() + end);
    }

    // Whether what such an iterator walks over lies in memory as a row of words.
    template <class Iterator>
    static constexpr bool is_in_a_row = sizeof(T) == bytes && alignof(T) % alignof(word) == 0 &&
                                        (std::is_same_v<Iterator, T *> || std::is_same_v<Iterator, const T *> ||
                                         std::is_same_v<Iterator, typename std::vector<T>::iterator> ||
                                         std::is_same_v<Iterator, typename std::vector<T>::const_iterator>);

    // The rows of a range. No seat is lent meanwhile, so the range may be one of the same vector.
    template <class Iterator> static std::vector<word> words_of(Iterator first, Iterator last) {
        std::vector<word> found;
        for (; first != last; ++first) add(found, *first);
        return found;
    }

    static std::vector<word> copies_of(const T &value, std::size_t count) {
        std::vector<word> found(count * words);
        for (std::size_t k = 0; k < count; ++k) store(value, found.data() + k * words);
        return found;
    }

    static void refuse_too_many(const word_file &file, std::size_t rows) {
        if (rows > most_in_growth) file.refuse(CVEC_TOO_LARGE);
    }

    static growth grow(word_file &file, const word *from, std::size_t rows) {
        refuse_too_many(file, rows);
        return growth_of(file.grow(from, rows * words), rows);
    }

    static growth growth_of(const cvec_receipt &made, std::size_t rows) noexcept {
        return {made.number, static_cast<std::size_t>(made.start / words), rows};
    }

    static growth grow(word_file &file, const std::vector<word> &all) {
        return grow(file, all.data(), all.size() / words);
    }

    // Any number of rows, by as many growths as they take.
    template <class Iterator> static void grow_all(word_file &file, Iterator first, Iterator last) {
        for (std::vector<word> some; first != last; some.clear()) {
            for (; first != last && some.size() < most_in_growth * words; ++first) add(some, *first);
            grow(file, some);
        }
    }

    // Of rows that lie in memory as they will in the file, without a copy on the way.
    template <class Iterator> static growth grow_range(word_file &file, Iterator first, Iterator last) {
        if constexpr (is_in_a_row<Iterator>)
            if (first != last)
                return grow(file, reinterpret_cast<const word *>(std::addressof(*first)), static_cast<std::size_t>(last - first));
        return grow(file, words_of(first, last));
    }

    // Over the rows from a position on.
    static void change(word_file &file, std::size_t first, const word *from, std::size_t rows) {
        if (first > most_records / words) refuse_position(first);
        if (file.change(std::uint64_t{first} * words, from, rows * words)) return;
        refuse_position(rows == 0 ? first : first + rows - 1);
    }

    // By a copy, since the range may be one of the same vector, whose rows are moved before the change is written.
    template <class Iterator> static void change_range(word_file &file, std::size_t at, Iterator first, Iterator last) {
        const std::vector<word> all = words_of(first, last);
        change(file, at, all.data(), all.size() / words);
    }

    // The row at a position, or nothing where the vector isn't as long.
    static std::optional<T> read(word_file &file, std::size_t position) {
        std::array<word, words> found;
        if (position >= most_records / words) return std::nullopt;
        if (file.read(std::uint64_t{position} * words, found.data(), words) < words) return std::nullopt;
        return load(found.data());
    }
};

// Whether these are the fields of a struct, and none of them is narrowed: of that a compiler may only warn, and not in any header.
template <class Void, class T, class... Args> struct are_fields : std::false_type {};
template <class T, class... Args>
struct are_fields<std::void_t<decltype(T{std::declval<Args>()...})>, T, Args...> : std::true_type {};

// Whether it is one value that becomes a T. From C++20 on a struct is constructible of its fields too.
template <class T, class... Args> struct is_a_value : std::false_type {};
template <class T, class Arg> struct is_a_value<T, Arg> : std::is_convertible<Arg, T> {};

// Structs without a constructor are made of their fields.
template <class T, class... Args> T made_of(Args &&...args) {
    if constexpr (std::is_aggregate_v<T> && !is_a_value<T, Args &&...>::value) {
        static_assert(are_fields<void, T, Args &&...>::value, "cvec: these are no fields of T, or one of them would be narrowed");
        return T{std::forward<Args>(args)...};
    } else {
        return T(std::forward<Args>(args)...);
    }
}

} // namespace detail
} // namespace cvec

#endif
