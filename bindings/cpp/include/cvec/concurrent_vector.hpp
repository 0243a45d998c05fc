// cvec::concurrent_vector<T>: a durable vector that the threads of one process grow, in the manner of oneTBB's, for C++17. This is
// the header to include; those beside it are parts of it.
//
// It stands on cvec.h, which is C, and is not proved; docs/use/cpp.md has its rules. In the file a row, which is one T,
// is one record: of u32 where T has 4 bytes, of u64 where it has 8, a pair where it has 16, and a flagged where T is
// cvec_flagged. Any other T is as many records of u64 as it needs, one behind the other; behind T the last of them has zeros.
#ifndef CVEC_CONCURRENT_VECTOR_HPP
#define CVEC_CONCURRENT_VECTOR_HPP

#include "error.hpp"
#include "iterators.hpp"
#include "options.hpp"
#include "row.hpp"
#include "rows.hpp"
#include "view.hpp"
#include "word_file.hpp"

#include <algorithm>
#include <array>
#include <chrono>
#include <cstddef>
#include <cstdint>
#include <cstring>
#include <initializer_list>
#include <iterator>
#include <memory>
#include <mutex>
#include <optional>
#include <string>
#include <type_traits>
#include <utility>
#include <vector>

namespace cvec {

// Any number of threads may call its const members, and those that grow it, at once. A reference, a pointer, an iterator or rows of
// it stay good, and show the same, while threads grow it and wait: until one of change, fold, clear, resize to fewer rows, compact,
// close and the destructor begins. Nobody may use them from then on: what was lent may be gone. While a view lives none begins.
template <class T, class Layout = one_record> class concurrent_vector {
    using row = detail::row<T, Layout>;

  public:
    using value_type = T;
    using size_type = std::size_t;
    using difference_type = std::ptrdiff_t;
    using reference = const T &; // rows are written by growing and by `change` alone
    using const_reference = const T &;
    using pointer = const T *;
    using const_pointer = const T *;
    using const_iterator = detail::iterator<T, Layout>;
    using iterator = detail::iterator<T, Layout, false>; // as that one: it becomes it
    using const_reverse_iterator = std::reverse_iterator<const_iterator>;
    using reverse_iterator = std::reverse_iterator<iterator>;
    using const_range_type = detail::range<T, Layout>;
    using range_type = detail::range<T, Layout, false>;

    // Opens the file, and makes it where there is none; or as wanted.how asks.
    explicit concurrent_vector(const std::string &path, const options &wanted = {})
        : file_(std::make_shared<detail::word_file>(path, row::kept::type, row::words, row::bytes, wanted)) {
        if (file_->size() % row::words != 0) refuse_length();
    }

    // In memory alone: nothing stands on a disk before `save`, and what waits for growths to be durable is refused (CVEC_NOT_SO). Each
    // seat takes 5 KB: where nothing is said there are twice as many as processors. What options say of a file means nothing.
    concurrent_vector() : concurrent_vector(detail::options_in_memory()) {}
    explicit concurrent_vector(const options &wanted)
        : file_(std::make_shared<detail::word_file>(std::nullopt, row::kept::type, row::words, row::bytes, wanted)) {}

    // The same, of these rows: by as many growths as they take.
    explicit concurrent_vector(size_type count) : concurrent_vector() { grow_to_at_least(count); }
    concurrent_vector(size_type count, const T &value) : concurrent_vector() { grow_to_at_least(count, value); }
    template <class Iterator, class = detail::value_of_iterator<Iterator>>
    concurrent_vector(Iterator first, Iterator last) : concurrent_vector() {
        row::grow_all(file(), first, last);
    }
    concurrent_vector(std::initializer_list<T> rows) : concurrent_vector() { row::grow_all(file(), rows.begin(), rows.end()); }

    // A copy is in memory alone, also of a vector that has a file. So none is made by passing it.
    explicit concurrent_vector(const concurrent_vector &other) : concurrent_vector() {
        const cvec::view<T, Layout> rows = other.view();
        row::grow_all(file(), rows.begin(), rows.end());
    }

    // One that was moved from refuses each member (CVEC_NOT_SO) but the destructor, assignment, swap, max_size and max_growth.
    concurrent_vector(concurrent_vector &&) noexcept = default;
    concurrent_vector &operator=(concurrent_vector &&) noexcept = default;

    // Its own file keeps the rows that are assigned, as by `assign`.
    concurrent_vector &operator=(const concurrent_vector &other) {
        if (this != std::addressof(other)) assign(other.begin(), other.end());
        return *this;
    }
    concurrent_vector &operator=(std::initializer_list<T> rows) {
        assign(rows);
        return *this;
    }

    // Makes a file of a vector in memory, which has it from then on: by growths of max_growth() rows, the last of which is durable when
    // it returns, and its receipts count from there. CVEC_EXISTS: there is a file; CVEC_NOT_SO: it has one. What is refused leaves it in
    // memory, and the first of these growths in the file. What was lent is lost, as by an assignment, and as there no other call of
    // the vector may be under way.
    void save(const std::string &path, options wanted = {}) {
        if (!file().is_in_memory()) file().refuse(CVEC_NOT_SO, "it has a file");
        wanted.how = opening::create;
        concurrent_vector saved(path, wanted);
        row::grow_all(saved.file(), begin(), end());
        saved.settle();
        swap(saved);
    }

    // Commits what was grown, and closes the file. After it all calls are refused. The destructor does so too, but can't report
    // what fails; nor can an assignment, of the file that the vector had. Where a view lives both leave the file to the last one. In a
    // forked process each gives up what that has of the file, which stays open and locked in the other one, and commits nothing.
    void close() { file().close(); }

    // -- growing: each call is one growth, whose rows stand in a row, and none of which a crash can take alone

    iterator push_back(const T &value) { return iterator_to(append(value)); }

    template <class... Args> iterator emplace_back(Args &&...args) {
        return push_back(detail::made_of<T>(std::forward<Args>(args)...));
    }

    iterator grow_by(size_type count) { return grow_by(count, T()); }

    iterator grow_by(size_type count, const T &value) {
        row::refuse_too_many(file(), count);
        return grow_or_end(row::copies_of(value, count));
    }

    template <class Iterator, class = detail::category_of<Iterator>> iterator grow_by(Iterator first, Iterator last) {
        return first == last ? end() : iterator_to(row::grow_range(file(), first, last));
    }

    iterator grow_by(std::initializer_list<T> rows) { return grow_by(rows.begin(), rows.end()); }

    // Grows until there are so many rows. Calls of it take turns; beside other growths there may come to be more. Where a growth
    // is refused those before it stand, but more than max_size() is refused (CVEC_OUT_OF_RANGE) before the first.
    iterator grow_to_at_least(size_type count) { return grow_to_at_least(count, T()); }

    iterator grow_to_at_least(size_type count, const T &value) {
        const std::unique_lock<std::mutex> turn = file().take_turn();
        if (count > max_size()) file().refuse(CVEC_OUT_OF_RANGE);
        std::optional<iterator> first;
        for (size_type length = size(); length < count; length = size()) {
            const iterator grown = grow_by(std::min(count - length, max_growth()), value);
            if (!first) first = grown;
        }
        return first ? *first : end();
    }

    // Grows by so many rows, each 0 byte by byte, that fill(rows) writes where they will stand, without a copy. `rows` is a
    // new_rows<T>. They are in the vector behind it; what it throws leaves none of them. Calls of the vector within it are as any,
    // but those that want the vector alone: they wait for it, or are CVEC_BUSY in its own thread.
    template <class Fill> growth grow_with(size_type count, Fill &&fill) {
        row::refuse_too_many(file(), count);
        detail::word_file::block made(file(), count * row::words);
        new_rows<T, Layout> rows(made.words(), count);
        std::forward<Fill>(fill)(rows);
        return row::growth_of(made.publish(), count);
    }

    // Nothing: rows aren't moved to make room for more, however many come. More than max_size() are refused (CVEC_OUT_OF_RANGE).
    void reserve(size_type count) const {
        const detail::word_file &all = file();
        if (count > max_size()) all.refuse(CVEC_OUT_OF_RANGE);
    }

    // -- having the vector alone, also close: each waits until the calls under way have ended, and later ones wait for it. It is
    // durable when it returns. What was lent before, references and iterators, is lost. While a view lives it is CVEC_BUSY, at once
    // or behind options::wait_for_views, and nothing is done. After CVEC_MEMORY nothing has changed. After a write or a sync that
    // failed all calls are refused.

    // Writes rows over those from this position on: behind a crash all of them are there or none. With none it does nothing. A
    // position past the end is std::out_of_range, and nothing has changed then.
    void change(size_type first, const T &value) {
        std::array<typename row::word, row::words> words;
        row::store(value, words.data());
        row::change(file(), first, words.data(), 1);
    }

    template <class Iterator, class = detail::category_of<Iterator>> void change(size_type first, Iterator begin, Iterator end) {
        row::change_range(file(), first, begin, end);
    }

    // Neither of the two takes `{}`, which is one value.
    template <std::size_t N> void change(size_type first, const T (&rows)[N]) { change(first, rows, rows + N); }

    template <class U, class = std::enable_if_t<std::is_same_v<U, T>>>
    void change(size_type first, std::initializer_list<U> rows) {
        change(first, rows.begin(), rows.end());
    }

    // Calls use(rows) with a mutable_rows<T>, a copy of all rows that there are, and then writes it over them, from the first row that
    // differs to the last: by changes of max_growth() rows, each of which is whole or not at all after a crash. Meanwhile other calls
    // that want the vector alone wait, or are CVEC_BUSY in its own thread; all others go on, and what they grow stands behind. What
    // `use` throws changes nothing.
    template <class Use> void exclusive(Use &&use) {
        detail::word_file::exclusion others(file());
        const size_type count = size();
        const std::unique_ptr<unsigned char[]> copy(new unsigned char[count * row::bytes]);
        for_each_piece(0, count, [&](const cvec::rows<T, Layout> &piece) {
            std::memcpy(copy.get() + piece.first() * row::bytes, std::addressof(piece[0]), piece.size() * row::bytes);
        });
        std::forward<Use>(use)(mutable_rows<T, Layout>(copy.get(), count));
        const auto differs = [&](size_type at) {
            return std::memcmp(copy.get() + at * row::bytes, std::addressof((*this)[at]), row::bytes) != 0;
        };
        size_type first = 0, last = count;
        while (first < last && !differs(first)) ++first;
        while (first < last && !differs(last - 1)) --last;
        for (size_type some = 0; first < last; first += some) {
            some = std::min(last - first, max_growth());
            others.write(std::uint64_t{first} * row::words, copy.get() + first * row::bytes, some * row::words);
        }
    }

    // Writes what was changed to its place in the file, which costs a write for each changed record. Without it the file
    // keeps each change besides.
    void fold() { file().fold(); }

    // Puts the rows of the growths since the last such call, or one of change and the like, behind one another: they take no more
    // memory than themselves then, and as many growths as ever may follow.
    void compact() { file().compact(); }
    void shrink_to_fit() { compact(); }

    void clear() { file().cut(0); }

    // In place of all rows these: by a `clear`, and growths behind it, of which a crash may leave the first ones or none.
    void assign(size_type count, const T &value) {
        const T kept = value; // which may be a row of its own
        clear();
        grow_to_at_least(count, kept);
    }
    template <class Iterator, class = detail::category_of<Iterator>> void assign(Iterator first, Iterator last) {
        const std::vector<T> all(first, last); // which may be its own
        clear();
        row::grow_all(file(), all.begin(), all.end());
    }
    void assign(std::initializer_list<T> rows) { assign(rows.begin(), rows.end()); }

    // Rows that are missing are grown, as by grow_to_at_least.
    void resize(size_type count, const T &value = T()) {
        if (size() < count) {
            grow_to_at_least(count, value);
            return;
        }
        file().cut(std::uint64_t{count} * row::words);
    }

    // -- growing with a receipt, by which a growth is awaited

    growth append(const T &value) {
        std::array<typename row::word, row::words> words;
        row::store(value, words.data());
        return row::grow(file(), words.data(), 1);
    }

    template <class Iterator, class = detail::category_of<Iterator>> growth append(Iterator first, Iterator last) {
        return row::grow_range(file(), first, last);
    }

    growth append(std::initializer_list<T> rows) { return append(rows.begin(), rows.end()); }

    // Waits until each growth that has returned before, of whichever thread, is durable.
    void settle() { file().await_all(); }

    // Waits until this growth, and each before it, is durable.
    void settle(const growth &made) { file().await(made.number); }

    // The same two, but they wait for others no longer than this: for their commits, while one has the vector alone, and the
    // second for a seat. False: the time has passed, and what was grown may yet become durable.
    template <class Rep, class Period> [[nodiscard]] bool settle_for(const std::chrono::duration<Rep, Period> &longest) {
        return file().await_all_for(detail::milliseconds_of(longest));
    }

    template <class Rep, class Period>
    [[nodiscard]] bool settle_for(const growth &made, const std::chrono::duration<Rep, Period> &longest) {
        return file().await_for(made.number, detail::milliseconds_of(longest));
    }

    // For a thread of the caller's: settles, and so again and again, this long (at least a millisecond) behind the last time, until
    // stop_flusher or close is called. It throws where a commit is refused.
    template <class Rep, class Period> void run_flusher(const std::chrono::duration<Rep, Period> &every) {
        file().run_flusher(detail::milliseconds_of(every));
    }

    // The same by a thread of the library's own, which stop_flusher or close ends, or a commit that is refused for good: nobody is told.
    template <class Rep, class Period> void start_flusher(const std::chrono::duration<Rep, Period> &every) {
        file().start_flusher(detail::milliseconds_of(every));
    }

    // Ends the loops of flushers, each that is begun later too. It doesn't wait for them.
    void stop_flusher() { file().stop_flusher(); }

    // How many growths are durable: the first ones are. It waits for no commit, and for no seat.
    [[nodiscard]] std::uint64_t settled() const { return file().settled(); }

    [[nodiscard]] bool is_settled(const growth &made) const { return made.number < settled(); }

    // -- reading, what is durable and what isn't yet

    // A position past the end is std::out_of_range. Of a row that another thread has just grown the first look makes a call; of
    // others none does.
    [[nodiscard]] reference operator[](size_type position) const {
        const detail::piece_index &index = file().index();
        return position < index.size() ? row::at(index.template find<row::bytes>(position))
                                       : const_iterator::look(file_.get(), position);
    }

    [[nodiscard]] reference at(size_type position) const { return (*this)[position]; }
    [[nodiscard]] reference front() const { return (*this)[0]; }
    [[nodiscard]] reference back() const { return (*this)[size() - 1]; }

    // A copy, also beside change and the like: those wait for this call.
    [[nodiscard]] T copy(size_type position) const {
        const std::optional<T> found = row::read(file(), position);
        if (!found) detail::refuse_position(position);
        return *found;
    }

    // Calls use(rows<T>) for the pieces in which the rows from one position to another stand, in order.
    template <class Use> void for_each_piece(size_type first, size_type last, const Use &use) const {
        detail::word_file &all = file();
        if (last > all.index().size()) all.learn();
        if (last > all.index().size()) detail::refuse_position(last - 1);
        detail::for_each_piece<T, Layout>(all.index(), first, last, use);
    }
    template <class Use> void for_each_piece(const Use &use) const { for_each_piece(0, size(), use); }

    // All rows that there are, which stay where they are as long as it lives.
    [[nodiscard]] cvec::view<T, Layout> view() const { return cvec::view<T, Layout>(detail::hold(owned())); }

    // The rows from this position on, to the end of the piece in which they stand; none past the end.
    [[nodiscard]] rows<T, Layout> piece(size_type first) const {
        detail::word_file &all = file();
        if (first >= all.index().size()) all.learn();
        if (first >= all.index().size()) return rows<T, Layout>(nullptr, first, 0);
        const detail::stretch found = all.index().piece(first);
        return rows<T, Layout>(found.at, first, found.rows);
    }

    [[nodiscard]] size_type size() const { return static_cast<size_type>(file().size()) / row::words; }
    [[nodiscard]] bool empty() const { return size() == 0; }
    [[nodiscard]] static constexpr size_type max_size() noexcept {
        return static_cast<size_type>(detail::most_records / row::words);
    }

    // So many rows come without one being moved.
    [[nodiscard]] static constexpr size_type capacity() noexcept { return max_size(); }

    // So many rows one growth may have.
    [[nodiscard]] static constexpr size_type max_growth() noexcept { return row::most_in_growth; }

    [[nodiscard]] iterator begin() { return iterator(std::addressof(file()), 0); }
    [[nodiscard]] const_iterator begin() const { return const_iterator(std::addressof(file()), 0); }
    // What stands before it an iterator finds without a call.
    [[nodiscard]] iterator end() { return iterator(file_.get(), file().learned()); }
    [[nodiscard]] const_iterator end() const { return const_iterator(file_.get(), file().learned()); }
    [[nodiscard]] const_iterator cbegin() const { return begin(); }
    [[nodiscard]] const_iterator cend() const { return end(); }
    [[nodiscard]] reverse_iterator rbegin() { return reverse_iterator(end()); }
    [[nodiscard]] const_reverse_iterator rbegin() const { return const_reverse_iterator(end()); }
    [[nodiscard]] reverse_iterator rend() { return reverse_iterator(begin()); }
    [[nodiscard]] const_reverse_iterator rend() const { return const_reverse_iterator(begin()); }
    [[nodiscard]] const_reverse_iterator crbegin() const { return rbegin(); }
    [[nodiscard]] const_reverse_iterator crend() const { return rend(); }

    [[nodiscard]] range_type range(size_type grainsize = 1) { return range_type(file_.get(), 0, file().learned(), grainsize); }
    [[nodiscard]] const_range_type range(size_type grainsize = 1) const {
        return const_range_type(file_.get(), 0, file().learned(), grainsize);
    }

    void swap(concurrent_vector &other) noexcept { file_.swap(other.file_); }
    friend void swap(concurrent_vector &a, concurrent_vector &b) noexcept { a.swap(b); }

  private:
    template <class, class> friend class appender;

    // One that was moved from has none.
    detail::word_file &file() const { return *owned(); }
    const std::shared_ptr<detail::word_file> &owned() const {
        if (!file_) refuse_moved();
        return file_;
    }

    [[noreturn]] CVEC_APART static void refuse_moved() {
        throw error(CVEC_NOT_SO, "a vector without a file", "it was moved from", 0);
    }

    [[noreturn]] void refuse_length() const {
        file().refuse(CVEC_WIDTH, "its records are no whole rows of " + std::to_string(row::bytes) + " bytes");
    }

    // No rows are no growth.
    iterator grow_or_end(const std::vector<typename row::word> &words) {
        return words.empty() ? end() : iterator_to(row::grow(file(), words));
    }

    iterator iterator_to(const growth &made) const noexcept { return iterator(file_.get(), made.first); }

    std::shared_ptr<detail::word_file> file_; // with its views
};

template <class Iterator> concurrent_vector(Iterator, Iterator) -> concurrent_vector<detail::value_of_iterator<Iterator>>;

// ---- comparing, row by row, as T's operators do

template <class T, class One, class Other>
[[nodiscard]] bool operator==(const concurrent_vector<T, One> &a, const concurrent_vector<T, Other> &b) {
    return std::equal(a.begin(), a.end(), b.begin(), b.end());
}

#if defined(CVEC_THREE_WAY)
namespace detail {

// As the standard library's containers compare what they hold: a T that has no <=> by its <.
template <class T> [[nodiscard]] auto compared(const T &a, const T &b) {
    if constexpr (std::three_way_comparable<T>)
        return a <=> b;
    else
        return a < b ? std::weak_ordering::less : b < a ? std::weak_ordering::greater : std::weak_ordering::equivalent;
}

} // namespace detail

template <class T, class One, class Other>
[[nodiscard]] auto operator<=>(const concurrent_vector<T, One> &a, const concurrent_vector<T, Other> &b) {
    return std::lexicographical_compare_three_way(a.begin(), a.end(), b.begin(), b.end(), detail::compared<T>);
}
#else
template <class T, class One, class Other>
[[nodiscard]] bool operator<(const concurrent_vector<T, One> &a, const concurrent_vector<T, Other> &b) {
    return std::lexicographical_compare(a.begin(), a.end(), b.begin(), b.end());
}

template <class T, class One, class Other>
[[nodiscard]] bool operator!=(const concurrent_vector<T, One> &a, const concurrent_vector<T, Other> &b) {
    return !(a == b);
}

template <class T, class One, class Other>
[[nodiscard]] bool operator>(const concurrent_vector<T, One> &a, const concurrent_vector<T, Other> &b) {
    return b < a;
}

template <class T, class One, class Other>
[[nodiscard]] bool operator<=(const concurrent_vector<T, One> &a, const concurrent_vector<T, Other> &b) {
    return !(b < a);
}

template <class T, class One, class Other>
[[nodiscard]] bool operator>=(const concurrent_vector<T, One> &a, const concurrent_vector<T, Other> &b) {
    return !(a < b);
}
#endif

// ---- rows gathered into blocks

// Gathers the rows that one thread pushes, and grows by many at once. Others see them once they are flushed. The destructor
// flushes too, but can't report what fails: who wants to know calls flush or settle before. Once the file of its vector has gone it
// is refused (CVEC_NOT_SO), and what it has gathered is lost: with CVEC_CHECKED its destructor aborts then.
template <class T, class Layout = one_record> class appender {
    using row = detail::row<T, Layout>;

  public:
    using value_type = T;
    using size_type = std::size_t;

    explicit appender(concurrent_vector<T, Layout> &vector, size_type rows = 1024)
        : file_(vector.owned()), rows_(std::clamp<size_type>(rows, 1, row::most_in_growth)) {}

    appender(appender &&other) noexcept
        : file_(other.file_), rows_(other.rows_), words_(std::move(other.words_)), buffered_(std::exchange(other.buffered_, 0)),
          last_(other.last_) {}
    appender &operator=(appender &&) = delete;

    ~appender() {
        if (buffered_ != 0) file_.check();
        try {
            flush();
        } catch (...) {
        }
    }

    // Where it throws, this row isn't taken, and those from before are kept.
    void push_back(const T &value) {
        if (buffered_ * row::words == words_.size()) make_room();
        row::store(value, words_.data() + buffered_ * row::words);
        ++buffered_;
    }

    template <class... Args> void emplace_back(Args &&...args) { push_back(detail::made_of<T>(std::forward<Args>(args)...)); }

    // Grows by what was gathered, if anything was.
    std::optional<growth> flush() {
        if (buffered_ == 0) return std::nullopt;
        last_ = row::grow(file(), words_.data(), buffered_);
        buffered_ = 0;
        return last_;
    }

    // Flushes, and waits until all that this appender grew is durable.
    void settle() {
        flush();
        if (last_) file().await(last_->number);
    }

    // How many rows are gathered, which are not in the vector yet.
    [[nodiscard]] size_type buffered() const noexcept { return buffered_; }

  private:
    // Also one that was moved from has none.
    void make_room() {
        if (words_.empty()) words_.resize(rows_ * row::words);
        flush();
    }

    detail::word_file &file() const {
        if (file_.is_gone()) throw error(CVEC_NOT_SO, "an appender", "its vector has gone", 0);
        return *file_.get();
    }

    detail::borrowed_file file_;
    size_type rows_;
    std::vector<typename row::word> words_; // room for so many rows, or for none yet
    size_type buffered_ = 0;
    std::optional<growth> last_;
};

} // namespace cvec

#endif
