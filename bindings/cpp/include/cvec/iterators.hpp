// Iterators over the rows of a vector where they stand, and ranges of positions.
#ifndef CVEC_ITERATORS_HPP
#define CVEC_ITERATORS_HPP

#include "row.hpp"

#include <algorithm>
#include <cstddef>
#include <cstdint>
#include <cstdio>
#include <cstdlib>
#include <iterator>
#include <memory>
#include <type_traits>

namespace cvec {
namespace detail {

// A file that who has this doesn't keep open. To use it behind its end is undefined; where that is checked, the program aborts.
class borrowed_file {
  public:
    borrowed_file() = default;
    explicit borrowed_file(const std::shared_ptr<word_file> &file) noexcept : file_(file.get()), life_(file) {}
    explicit borrowed_file(word_file *file) noexcept : file_(file) {
        if (file != nullptr) life_ = file->weak_from_this();
    }

    [[nodiscard]] word_file *get() const noexcept { return file_; }
    // Writes nothing: threads that append to one file have it together.
    [[nodiscard]] bool is_gone() const noexcept { return file_ != nullptr && life_.expired(); }

    void check() const noexcept {
#if defined(CVEC_CHECKED)
        if (is_gone()) abort_gone();
#endif
    }

  private:
    [[noreturn]] CVEC_APART static void abort_gone() noexcept {
        std::fputs("cvec: an iterator, a range or rows of an appender are used behind the end of their vector\n", stderr);
        std::abort();
    }

    word_file *file_ = nullptr;
    std::weak_ptr<const word_file> life_;
};

// Iterators are as small as they can be where nothing is checked.
#if defined(CVEC_CHECKED)
class file_of_iterator {
  public:
    file_of_iterator(word_file *file = nullptr) noexcept : file_(file) {}
    operator word_file *() const noexcept {
        file_.check();
        return file_.get();
    }
    word_file *operator->() const noexcept { return *this; }

  private:
    borrowed_file file_;
};
#else
using file_of_iterator = word_file *;
#endif

// Goes through the rows of a vector where they stand. Within what it knows of them it makes no call and takes no lock, and it
// goes from piece to piece by itself where these are of one length, and else by the vector's index. The two types of a vector do
// the same: rows are written by neither.
template <class T, class Layout = one_record, bool IsConst = true> class iterator {
    using row = detail::row<T, Layout>;

  public:
    using iterator_category = std::random_access_iterator_tag;
    using value_type = T;
    using difference_type = std::ptrdiff_t;
    using pointer = const T *;
    using reference = const T &;

    iterator() = default;
    iterator(word_file *file, std::size_t position) noexcept : file_(file), position_(position) { locate(); }

    // An iterator becomes a const_iterator.
    template <bool IsOther, class = std::enable_if_t<IsConst && !IsOther>>
    iterator(const iterator<T, Layout, IsOther> &from) noexcept
        : file_(from.file_), position_(from.position_), at_(from.at_), last_(from.last_), each_(from.each_), end_(from.end_),
          gap_(from.gap_) {}

    // What it didn't know of when it was moved is looked for.
    [[nodiscard]] reference operator*() const {
        word_file *const file = file_;
        return CVEC_MOSTLY(at_ != nullptr) ? row::at(at_) : look(file, position_);
    }
    [[nodiscard]] pointer operator->() const { return std::addressof(**this); }
    [[nodiscard]] reference operator[](difference_type k) const { return *(*this + k); }

    // The position in the vector.
    [[nodiscard]] std::size_t position() const noexcept { return position_; }

    iterator &operator++() noexcept {
        ++position_;
        if (CVEC_MOSTLY(at_ != last_)) {
            at_ += row::bytes;
        } else if (position_ < end_) {
            at_ += row::bytes + gap_;
            last_ = at_ + (std::min(each_, end_ - position_) - 1) * row::bytes;
        } else {
            locate();
        }
        return *this;
    }

    iterator &operator+=(difference_type k) noexcept {
        position_ += static_cast<std::size_t>(k);
        if (k >= 0 && static_cast<std::size_t>(k) <= static_cast<std::size_t>(last_ - at_) / row::bytes)
            at_ += static_cast<std::size_t>(k) * row::bytes;
        else
            locate();
        return *this;
    }
    iterator &operator-=(difference_type k) noexcept { return *this += -k; }
    iterator &operator--() noexcept { return *this += -1; }
    iterator operator++(int) noexcept {
        const iterator before = *this;
        ++*this;
        return before;
    }
    iterator operator--(int) noexcept {
        const iterator before = *this;
        --*this;
        return before;
    }

    friend iterator operator+(iterator from, difference_type k) noexcept { return from += k; }
    friend iterator operator+(difference_type k, iterator from) noexcept { return from += k; }
    friend iterator operator-(iterator from, difference_type k) noexcept { return from -= k; }
    friend difference_type operator-(const iterator &a, const iterator &b) noexcept {
        return static_cast<difference_type>(a.position_) - static_cast<difference_type>(b.position_);
    }

    // Those of two vectors are never equal.
    friend bool operator==(const iterator &a, const iterator &b) noexcept {
        return a.position_ == b.position_ && a.file_ == b.file_;
    }
    friend bool operator!=(const iterator &a, const iterator &b) noexcept { return !(a == b); }
    friend bool operator<(const iterator &a, const iterator &b) noexcept { return a.position_ < b.position_; }
    friend bool operator>(const iterator &a, const iterator &b) noexcept { return a.position_ > b.position_; }
    friend bool operator<=(const iterator &a, const iterator &b) noexcept { return a.position_ <= b.position_; }
    friend bool operator>=(const iterator &a, const iterator &b) noexcept { return a.position_ >= b.position_; }
#if defined(CVEC_THREE_WAY)
    friend std::strong_ordering operator<=>(const iterator &a, const iterator &b) noexcept { return a.position_ <=> b.position_; }
#endif

    // The row at a position, which is looked for where the index doesn't cover it yet.
    CVEC_APART static reference look(word_file *file, std::size_t position) {
        if (file == nullptr) refuse_position(position);
        if (position >= file->index().size()) {
            file->learn();
            if (position >= file->index().size()) refuse_position(position);
        }
        return row::at(file->index().template find<row::bytes>(position));
    }

  private:
    template <class, class, bool> friend class iterator;
    template <class, class, bool> friend class range;

    // By a value: an iterator whose address is taken is kept in memory, where a loop would write to it at each step.
    static stretch stretch_at(const word_file *file, std::size_t position) noexcept {
        return file != nullptr && position < file->index().size() ? file->index().piece(position) : stretch();
    }

    void locate() noexcept {
        const stretch found = stretch_at(file_, position_);
        at_ = found.at;
        last_ = found.rows != 0 ? found.at + (found.rows - 1) * row::bytes : nullptr;
        each_ = found.each;
        end_ = found.each != 0 ? found.end : 0;
        gap_ = found.gap;
    }

    file_of_iterator file_ = nullptr;
    std::size_t position_ = 0;
    const unsigned char *at_ = nullptr;   // of its row, where it knows that
    const unsigned char *last_ = nullptr; // of the last row of its piece
    std::size_t each_ = 0, end_ = 0;      // those behind it, up to a position: in pieces of so many rows
    std::uint64_t gap_ = 0;               // from the end of one piece to the next
};

// Positions from one to another, which can be split in two: what oneTBB calls a Range, without its headers.
template <class T, class Layout = one_record, bool IsConst = true> class range {
  public:
    using iterator = detail::iterator<T, Layout, IsConst>;
    using const_iterator = detail::iterator<T, Layout>;
    using value_type = T;
    using reference = const T &;
    using const_reference = reference;
    using size_type = std::size_t;
    using difference_type = std::ptrdiff_t;

    range(word_file *file, size_type first, size_type last, size_type grainsize) noexcept
        : file_(file), first_(first), last_(last), grainsize_(std::max<size_type>(grainsize, 1)) {}

    range(const iterator &first, const iterator &last, size_type grainsize = 1) noexcept
        : range(first.file_, first.position_, last.position_, grainsize) {}

    // A range becomes a range of const_iterators.
    template <bool IsOther, class = std::enable_if_t<IsConst && !IsOther>>
    range(const range<T, Layout, IsOther> &from) noexcept : range(from.file_, from.first_, from.last_, from.grainsize_) {}

    // Takes the second half of the other one. A tag is oneTBB's split or proportional_split, or any class.
    template <class Tag, class = std::enable_if_t<std::is_class_v<Tag>>>
    range(range &other, const Tag &) noexcept : range(other.file_, other.middle(), other.last_, other.grainsize_) {
        other.last_ = first_;
    }

    [[nodiscard]] bool empty() const noexcept { return first_ == last_; }
    [[nodiscard]] size_type size() const noexcept { return last_ - first_; }
    [[nodiscard]] size_type grainsize() const noexcept { return grainsize_; }
    [[nodiscard]] bool is_divisible() const noexcept { return size() > grainsize_; }
    [[nodiscard]] iterator begin() const noexcept { return iterator(file_, first_); }
    [[nodiscard]] iterator end() const noexcept { return iterator(file_, last_); }

  private:
    template <class, class, bool> friend class range;

    [[nodiscard]] size_type middle() const noexcept { return first_ + (last_ - first_) / 2; }

    file_of_iterator file_;
    size_type first_, last_, grainsize_;
};

} // namespace detail
} // namespace cvec

#endif
