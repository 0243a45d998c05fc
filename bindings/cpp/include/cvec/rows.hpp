// Rows that stand in memory one behind the other: of a vector, or to be written as a growth.
#ifndef CVEC_ROWS_HPP
#define CVEC_ROWS_HPP

#include "row.hpp"

#include <cstddef>
#include <iterator>
#include <memory>
#include <type_traits>

#if __has_include(<version>)
#include <version>
#endif
#if defined(__cpp_lib_span)
#include <span>
#endif

namespace cvec {
namespace detail {

// Goes over elements that stand so many bytes apart.
template <class Element, std::size_t Stride> class strided {
    using byte = std::conditional_t<std::is_const_v<Element>, const unsigned char, unsigned char>;

  public:
    using iterator_category = std::random_access_iterator_tag;
    using value_type = std::remove_const_t<Element>;
    using difference_type = std::ptrdiff_t;
    using pointer = Element *;
    using reference = Element &;

    strided() = default;
    explicit strided(byte *at) noexcept : at_(at) {}

    [[nodiscard]] reference operator*() const noexcept { return *reinterpret_cast<Element *>(at_); }
    [[nodiscard]] pointer operator->() const noexcept { return reinterpret_cast<Element *>(at_); }
    [[nodiscard]] reference operator[](difference_type k) const noexcept { return *(*this + k); }

    strided &operator+=(difference_type k) noexcept {
        at_ += k * static_cast<difference_type>(Stride);
        return *this;
    }
    strided &operator-=(difference_type k) noexcept { return *this += -k; }
    strided &operator++() noexcept { return *this += 1; }
    strided &operator--() noexcept { return *this -= 1; }
    strided operator++(int) noexcept { return std::exchange(*this, *this + 1); }
    strided operator--(int) noexcept { return std::exchange(*this, *this - 1); }

    friend strided operator+(strided from, difference_type k) noexcept { return from += k; }
    friend strided operator+(difference_type k, strided from) noexcept { return from += k; }
    friend strided operator-(strided from, difference_type k) noexcept { return from -= k; }
    friend difference_type operator-(const strided &a, const strided &b) noexcept {
        return (a.at_ - b.at_) / static_cast<difference_type>(Stride);
    }
    friend bool operator==(const strided &a, const strided &b) noexcept { return a.at_ == b.at_; }
    friend bool operator!=(const strided &a, const strided &b) noexcept { return a.at_ != b.at_; }
    friend bool operator<(const strided &a, const strided &b) noexcept { return a.at_ < b.at_; }
    friend bool operator>(const strided &a, const strided &b) noexcept { return a.at_ > b.at_; }
    friend bool operator<=(const strided &a, const strided &b) noexcept { return a.at_ <= b.at_; }
    friend bool operator>=(const strided &a, const strided &b) noexcept { return a.at_ >= b.at_; }

  private:
    byte *at_ = nullptr;
};

// A span of elements, which std::span takes where there is one. Where other bytes stand behind each of them they are no array:
// there is no data() then, and they are gone through by position or by iterators alone.
template <class Element, std::size_t Stride> class span_of_rows {
  public:
    static constexpr bool is_array = sizeof(Element) == Stride;

    using element_type = Element;
    using value_type = std::remove_const_t<Element>;
    using size_type = std::size_t;
    using difference_type = std::ptrdiff_t;
    using pointer = Element *;
    using reference = Element &;
    using iterator = std::conditional_t<is_array, Element *, strided<Element, Stride>>;

    [[nodiscard]] size_type size() const noexcept { return count_; }
    [[nodiscard]] bool empty() const noexcept { return count_ == 0; }
    [[nodiscard]] reference operator[](size_type k) const noexcept { return *reinterpret_cast<Element *>(at_ + k * Stride); }
    [[nodiscard]] iterator begin() const noexcept {
        if constexpr (is_array)
            return reinterpret_cast<Element *>(at_);
        else
            return iterator(at_);
    }
    [[nodiscard]] iterator end() const noexcept { return begin() + static_cast<difference_type>(count_); }

    [[nodiscard]] pointer data() const noexcept {
        static_assert(is_array, "other bytes stand behind each T: these rows are no array");
        return reinterpret_cast<Element *>(at_);
    }

  protected:
    using byte = std::conditional_t<std::is_const_v<Element>, const unsigned char, unsigned char>;

    span_of_rows(byte *at, size_type count) noexcept : at_(at), count_(count) {}

  private:
    byte *at_;
    size_type count_;
};

} // namespace detail

// Rows of a vector, which stay good as a reference does.
template <class T, class Layout = one_record> class rows : public detail::span_of_rows<const T, detail::row<T, Layout>::bytes> {
  public:
    rows(const unsigned char *at, std::size_t first, std::size_t count) noexcept : rows::span_of_rows(at, count), first_(first) {}

    // The position of the first of them in the vector.
    [[nodiscard]] std::size_t first() const noexcept { return first_; }

  private:
    std::size_t first_;
};

// Rows that may be written.
template <class T, class Layout = one_record> class mutable_rows : public detail::span_of_rows<T, detail::row<T, Layout>::bytes> {
  public:
    mutable_rows(void *at, std::size_t count) noexcept : mutable_rows::span_of_rows(static_cast<unsigned char *>(at), count) {}
};

// Rows that are to be written, of bytes that are 0.
template <class T, class Layout = one_record> class new_rows : public mutable_rows<T, Layout> {
  public:
    using mutable_rows<T, Layout>::mutable_rows;
};

} // namespace cvec

#if defined(__cpp_lib_span)
// What is lent doesn't go with the object that tells of it.
template <class T, class Layout> inline constexpr bool std::ranges::enable_borrowed_range<cvec::rows<T, Layout>> = true;
template <class T, class Layout> inline constexpr bool std::ranges::enable_borrowed_range<cvec::mutable_rows<T, Layout>> = true;
template <class T, class Layout> inline constexpr bool std::ranges::enable_borrowed_range<cvec::new_rows<T, Layout>> = true;
#endif

#endif
