// The rows that a vector had at a moment, which stay as long as somebody looks.
#ifndef CVEC_VIEW_HPP
#define CVEC_VIEW_HPP

#include "iterators.hpp"
#include "rows.hpp"

#include <algorithm>
#include <array>
#include <cstddef>
#include <memory>
#include <utility>

namespace cvec {
namespace detail {

// Keeps the rows of a file where they are. A file that its vector has let go of is closed once nobody holds it.
class hold {
  public:
    explicit hold(std::shared_ptr<word_file> file) : file_(std::move(file)) { file_->begin_view(); }
    hold(const hold &other) noexcept : file_(other.file_) {
        if (file_) file_->share_view();
    }
    hold(hold &&other) noexcept = default;
    hold &operator=(hold other) noexcept {
        file_.swap(other.file_);
        return *this;
    }
    ~hold() {
        if (file_) file_->end_view();
    }

    [[nodiscard]] word_file *file() const noexcept { return file_.get(); }

  private:
    std::shared_ptr<word_file> file_;
};

// Calls use(rows<T>) for the pieces in which the rows from one position to another stand, in order. The index covers them.
template <class T, class Layout, class Use>
void for_each_piece(const piece_index &index, std::size_t first, std::size_t last, const Use &use) {
    constexpr std::size_t bytes = row<T, Layout>::bytes;
    while (first < last) {
        stretch found = index.piece(first);
        const std::size_t end = std::min(found.end, last);
        for (std::size_t count = std::min(found.rows, end - first);; count = std::min(found.each, end - first)) {
            use(rows<T, Layout>(found.at, first, count));
            first += count;
            if (first == end) break;
            found.at += count * bytes + found.gap;
        }
    }
}

} // namespace detail

// The rows that there were when it was made. As long as it lives, and each copy of it, nobody has the vector alone: they stay where
// they are, as they are, and so does all else that is lent. Reads at random are not checked, as those of oneTBB aren't: a position
// past its end is undefined.
template <class T, class Layout = one_record> class view {
    using row = detail::row<T, Layout>;

  public:
    using value_type = T;
    using size_type = std::size_t;
    using reference = const T &;
    using const_reference = const T &;
    using const_iterator = detail::iterator<T, Layout>;
    using iterator = const_iterator;

    // One that is moved from has no rows, and holds nothing.
    view(const view &) = default;
    view(view &&other) noexcept : held_(std::move(other.held_)), index_(other.index_), size_(std::exchange(other.size_, 0)) {}
    view &operator=(const view &) = default;
    view &operator=(view &&other) noexcept {
        held_ = std::move(other.held_);
        index_ = other.index_;
        size_ = std::exchange(other.size_, 0);
        return *this;
    }
    ~view() = default;

    [[nodiscard]] size_type size() const noexcept { return size_; }
    [[nodiscard]] bool empty() const noexcept { return size_ == 0; }
    [[nodiscard]] const T &operator[](size_type position) const noexcept {
        return row::at(index_->template find<row::bytes>(position));
    }
    [[nodiscard]] iterator begin() const noexcept { return iterator(held_.file(), 0); }
    [[nodiscard]] iterator end() const noexcept { return iterator(held_.file(), size_); }

    // Calls use(rows<T>) for the pieces in which its rows stand, in order.
    template <class Use> void for_each_piece(const Use &use) const { detail::for_each_piece<T, Layout>(*index_, 0, size_, use); }

    // Calls use(row) for the row at each of these positions, in order. The places of some are found before the first of them is
    // read, so that memory is asked for all of these at once.
    template <class Position, class Use> void visit(const Position *positions, std::size_t count, const Use &use) const {
        std::array<const T *, 32> found;
        while (count != 0) {
            const std::size_t some = std::min(count, found.size());
            for (std::size_t k = 0; k < some; ++k) {
                found[k] = std::addressof((*this)[static_cast<size_type>(positions[k])]);
                CVEC_ASK(found[k]);
            }
            for (std::size_t k = 0; k < some; ++k) use(*found[k]);
            positions += some;
            count -= some;
        }
    }

  private:
    template <class, class> friend class concurrent_vector;

    explicit view(detail::hold held)
        : held_(std::move(held)), index_(std::addressof(held_.file()->index())), size_(held_.file()->learned()) {}

    detail::hold held_;
    const detail::piece_index *index_;
    size_type size_;
};

} // namespace cvec

#endif
