// Where the rows of a vector stand in memory, for reads at any position without a lock and without a call: for C++17.
//
// Rows stand in pieces, which are lent (cvec_seat_pieces). Pieces of one length that stand in memory at one distance are a run,
// as the growths of one thread mostly do; any other piece is a run of its own. A table says of each few rows where they stand, by
// one entry: so a look takes one line of memory beside the row's own. Where its rows are of too many runs, the runs are searched.
//
// One thread at a time adds pieces, and publishes the length last; any number of threads read what it covers meanwhile. So an entry
// isn't changed but for what is behind that length, and nothing is moved: a table that gets too small is kept beside the next one.
#ifndef CVEC_PIECE_INDEX_HPP
#define CVEC_PIECE_INDEX_HPP

#include "compiler.hpp"

#include <algorithm>
#include <array>
#include <atomic>
#include <cstddef>
#include <cstdint>
#include <cstdlib>
#include <memory>
#include <new>
#include <vector>

namespace cvec {
namespace detail {

__extension__ using wide = unsigned __int128;

inline unsigned bits_of(std::uint64_t number) noexcept { // 0 of 0
    return number == 0 ? 0 : 64 - static_cast<unsigned>(__builtin_clzll(number));
}

inline std::uint64_t number_of(const void *at) noexcept { return reinterpret_cast<std::uintptr_t>(at); }
inline const unsigned char *place_of(std::uint64_t number) noexcept {
    return reinterpret_cast<const unsigned char *>(static_cast<std::uintptr_t>(number));
}

// Rows that lie one behind the other, and what is known of those behind them: pieces of `each` rows, `gap` bytes from the end of
// one to the next, up to position `end`.
struct stretch {
    const unsigned char *at = nullptr; // of the first row
    std::size_t rows = 0;              // so many lie there
    std::size_t each = 0, end = 0;
    std::uint64_t gap = 0;
};

class piece_index {
  public:
    // The bytes from one row to the next.
    explicit piece_index(std::size_t bytes) noexcept : bytes_(bytes) {}
    piece_index(const piece_index &) = delete;
    piece_index &operator=(const piece_index &) = delete;

    // So many rows it covers.
    [[nodiscard]] std::size_t size() const noexcept { return size_.load(std::memory_order_acquire); }

    // Where the row at this position stands, which it covers.
    template <std::size_t Bytes> [[nodiscard]] const unsigned char *find(std::size_t position) const noexcept {
        const std::uint64_t word = long_table_.load(std::memory_order_acquire);
        if (CVEC_MOSTLY(word != 0)) {
            const std::uint64_t base = entry_in<base_of_rows>(word, position).load(std::memory_order_relaxed);
            if (CVEC_MOSTLY(base != 0)) return place_of(base + position * Bytes);
        }
        const entry &its = entry_of(position);
        const std::uint32_t kind = its.kind.load(std::memory_order_acquire);
        if (CVEC_MOSTLY((kind & kind_mask) == of_a_run)) {
            const std::uint64_t behind = position - its.first.load(std::memory_order_relaxed);
            return place_of(its.one + behind * Bytes + piece_of(behind, its.magic) * its.other.load(std::memory_order_relaxed));
        }
        if (CVEC_MOSTLY((kind & kind_mask) == of_two_pieces)) {
            const std::uint64_t other = its.other.load(std::memory_order_relaxed);
            return place_of((position < its.first.load(std::memory_order_acquire) ? its.one : other) + position * Bytes);
        }
        return found_among(position);
    }

    // The rows from this position on, which it covers, to the end of their piece.
    [[nodiscard]] stretch piece(std::size_t position) const noexcept {
        const std::size_t size = this->size();
        const std::uint32_t number = search(entry_of(position).kind.load(std::memory_order_acquire) >> kind_bits, position);
        const run &found = at(number);
        const std::uint64_t behind = position - found.first;
        const shape &is = shapes_[found.shape.load(std::memory_order_acquire)];
        const std::uint64_t pieces = piece_of(behind, is.magic);
        stretch answer;
        answer.end = size;
        if (number + 1 < count_.load(std::memory_order_acquire)) answer.end = std::min<std::size_t>(size, at(number + 1).first);
        answer.at = found.at + behind * bytes_ + pieces * is.gap;
        answer.gap = is.gap;
        answer.each = is.rows;
        answer.rows = answer.end - position;
        if (is.rows != 0) answer.rows = std::min<std::size_t>(answer.rows, is.rows - (behind - pieces * is.rows));
        return answer;
    }

    // -- for one thread at a time: pieces behind those that it covers, which `publish` shows to others. A std::bad_alloc leaves
    // what it covers as it was.

    void add(const void *rows, std::size_t count) {
        const auto *at = static_cast<const unsigned char *>(rows);
        make_room(covered_ + count);
        if (!goes_on(at, count)) begin(at);
        if (longs_) note_long(*longs_, covered_, covered_ + count, at);
        cover(count);
        ++pieces_;
        last_at_ = at;
        last_count_ = count;
    }

    void publish() noexcept { size_.store(covered_, std::memory_order_release); }
    [[nodiscard]] std::size_t covered() const noexcept { return covered_; }
    [[nodiscard]] std::size_t runs() const noexcept { return count_.load(std::memory_order_relaxed); }

    // -- while nobody reads: covers nothing

    void clear() noexcept {
        size_.store(0, std::memory_order_relaxed);
        table_.store(0, std::memory_order_relaxed);
        long_table_.store(0, std::memory_order_relaxed);
        tables_.clear();
        long_tables_.clear();
        longs_ = nullptr;
        pieces_ = 0;
        for (auto &it : owned_runs_) it.reset();
        runs_.fill(0);
        count_.store(0, std::memory_order_relaxed);
        covered_ = 0;
        shape_count_ = 1;
        last_at_ = nullptr;
        last_count_ = 0;
    }

  private:
    // Pieces of so many rows. In a run of one piece, whose shape is the first one, any number of rows is none of these.
    struct shape {
        std::uint64_t magic = 0; // twice a number below 2^32, times this, by 2^64 is that number by `rows`
        std::uint64_t gap = 0;   // from the end of a piece to the next, in bytes
        std::uint32_t rows = 0;
    };

    struct run {
        std::uint32_t first = 0;
        std::atomic<std::uint32_t> shape{0}; // of the first piece any shape says the same
        const unsigned char *at = nullptr;
    };

    // What an entry says of its rows.
    static constexpr unsigned kind_bits = 2;
    static constexpr std::uint32_t kind_mask = 3, of_a_run = 0, of_two_pieces = 1, of_many = 2;

    struct entry {
        std::uint64_t one = 0;               // of a run: where its first row stands; of pieces: where row 0 would
        std::atomic<std::uint64_t> other{0}; // of a run: its gap; of pieces: where row 0 of the second one would stand
        std::uint64_t magic = 0;             // of a run
        std::atomic<std::uint32_t> first{0}; // position: of the run's first row; of the second piece's
        std::atomic<std::uint32_t> kind{0};  // and the number of the run that has the first of its rows
    };

    static_assert(sizeof(entry) == 32, "two entries are a line of the cache");

    // Entries of 2^shift rows each.
    template <class Entry> struct table {
        table(std::size_t rows, unsigned bits) : shift(bits), room(rows) {
            memory = std::calloc(((room >> shift) + 1) * sizeof(Entry) + 64, 1); // which takes none before it is used
            if (memory == nullptr) throw std::bad_alloc();
            // At a line of the cache, so that no entry lies in two.
            entries = reinterpret_cast<Entry *>((reinterpret_cast<std::uintptr_t>(memory) + 63) & ~std::uintptr_t{63});
        }
        table(const table &) = delete;
        table &operator=(const table &) = delete;
        ~table() { std::free(memory); }

        [[nodiscard]] std::uint64_t word() const noexcept { return number_of(entries) | shift; }

        const unsigned shift;
        Entry *entries;
        const std::size_t room; // for so many rows
        void *memory;
    };

    static constexpr unsigned first_runs = 10, run_parts = 32 - first_runs;
    static constexpr std::size_t most_shapes = 256, least_room = 4096, least_entries = 1024;
    static constexpr unsigned least_shift = 2;
    static constexpr std::size_t long_piece = 1024, parts_of_a_piece = 32; // in rows
    static constexpr std::uint32_t none = ~std::uint32_t{0}, steps_by_one = 6;

    static std::uint64_t piece_of(std::uint64_t behind, std::uint64_t magic) noexcept {
        return static_cast<std::uint64_t>(wide(2 * behind) * magic >> 64);
    }

    // Runs stand in parts of 1,024, 1,024, 2,048, .. of them, each kept as the place where run 0 would stand before it.
    static unsigned run_part_of(std::uint32_t number) noexcept { return bits_of(number | ((1u << first_runs) - 1)) - first_runs; }
    [[nodiscard]] run &at(std::uint32_t number) const noexcept {
        return *reinterpret_cast<run *>(runs_[run_part_of(number)] + std::uintptr_t{number} * sizeof(run));
    }

    [[nodiscard]] const unsigned char *found_in(const run &its, std::size_t position) const noexcept {
        const std::uint64_t behind = position - its.first;
        const shape &is = shapes_[its.shape.load(std::memory_order_acquire)];
        return its.at + behind * bytes_ + piece_of(behind, is.magic) * is.gap;
    }

    // The last run that begins at the position or before it, from that one on. By itself, since a loop that seldom comes here is
    // faster without it.
    [[nodiscard]] CVEC_APART std::uint32_t search(std::uint32_t low, std::size_t position) const noexcept {
        const std::uint32_t count = count_.load(std::memory_order_acquire);
        for (std::uint32_t k = 0; k < steps_by_one; ++k) {
            if (low + 1 >= count || at(low + 1).first > position) return low;
            ++low;
        }
        std::uint32_t high = count;
        for (std::uint32_t step = 8; low + step < count; step *= 2) {
            if (at(low + step).first > position) {
                high = low + step;
                break;
            }
            low += step;
        }
        while (high - low > 1) {
            const std::uint32_t middle = low + (high - low) / 2;
            (at(middle).first <= position ? low : high) = middle;
        }
        return low;
    }

    [[nodiscard]] CVEC_APART const unsigned char *found_among(std::size_t position) const noexcept {
        return found_in(at(search(entry_of(position).kind.load(std::memory_order_acquire) >> kind_bits, position)), position);
    }

    using base_of_rows = std::atomic<std::uint64_t>;

    // Where a table stands, and the 6 bits of its shift, are one word: so a look takes them by one load.
    template <class Entry> static Entry &entry_in(std::uint64_t word, std::size_t position) noexcept {
        const std::uint64_t first = word & ~std::uint64_t{63}, shift = word & 63;
        return *reinterpret_cast<Entry *>(static_cast<std::uintptr_t>(first + (position >> shift) * sizeof(Entry)));
    }

    [[nodiscard]] const entry &entry_of(std::size_t position) const noexcept {
        return entry_in<entry>(table_.load(std::memory_order_acquire), position);
    }

    // -- the runs

    // Whether the piece is one more of the last run, which is noted then. The third piece at one distance makes a run: the second
    // begins it.
    bool goes_on(const unsigned char *at, std::size_t count) {
        if (last_at_ == nullptr) return false;
        const auto distance = number_of(at) - number_of(last_at_);
        if (pieces_in_run_ > 1) { // of one shape
            if (last_count_ != run_rows_ || count > run_rows_ || distance != distance_) return false;
            ++pieces_in_run_;
            return true;
        }
        if (distance == last_count_ * bytes_) { // the piece goes on
            lengthened_ = true;
            return true;
        }
        std::uint32_t number = 0;
        if (!lengthened_ && rows_before_ == last_count_ && count <= last_count_ && distance == distance_)
            number = shape_for(last_count_, distance - last_count_ * bytes_);
        distance_ = distance;
        rows_before_ = lengthened_ ? 0 : last_count_;
        if (number == 0) return false;
        this->at(count_.load(std::memory_order_relaxed) - 1).shape.store(number, std::memory_order_release);
        run_rows_ = last_count_;
        pieces_in_run_ = 2;
        return true;
    }

    // Its number; 0 where there are too many others.
    std::uint32_t shape_for(std::size_t rows, std::uint64_t gap) noexcept {
        for (std::uint32_t k = 1; k < shape_count_; ++k)
            if (shapes_[k].rows == rows && shapes_[k].gap == gap) return k;
        if (shape_count_ == most_shapes) return 0;
        shape &made = shapes_[shape_count_];
        made.rows = static_cast<std::uint32_t>(rows);
        made.gap = gap;
        made.magic = (~std::uint64_t{0} / 2) / rows + 1; // 2^63 / rows, rounded up
        return shape_count_++;
    }

    void begin(const unsigned char *at) {
        const std::uint32_t number = count_.load(std::memory_order_relaxed);
        const unsigned part = run_part_of(number);
        if (!owned_runs_[part]) {
            const std::size_t from = part == 0 ? 0 : std::size_t{1} << (first_runs - 1 + part);
            owned_runs_[part].reset(new run[part == 0 ? std::size_t{1} << first_runs : from]);
            runs_[part] = reinterpret_cast<std::uintptr_t>(owned_runs_[part].get()) - from * sizeof(run);
        }
        run &made = this->at(number);
        made.first = static_cast<std::uint32_t>(covered_);
        made.at = at;
        made.shape.store(0, std::memory_order_relaxed);
        count_.store(number + 1, std::memory_order_release);
        const table<entry> &all = *tables_.back();
        if ((covered_ & ((std::size_t{1} << all.shift) - 1)) != 0) one_more(all.entries[covered_ >> all.shift], covered_, at);
        pieces_in_run_ = 1;
        lengthened_ = false;
        if (number == 0) distance_ = rows_before_ = 0;
    }

    // -- the table

    // Where row 0 would stand.
    [[nodiscard]] std::uint64_t base_of(std::size_t position, const unsigned char *at) const noexcept {
        return number_of(at) - std::uint64_t{position} * bytes_;
    }

    // A piece, or a run, begins among the entry's rows behind those that it has.
    void one_more(entry &its, std::size_t position, const unsigned char *at) const noexcept {
        const std::uint32_t kind = its.kind.load(std::memory_order_relaxed);
        if ((kind & kind_mask) == of_two_pieces && its.first.load(std::memory_order_relaxed) == none) {
            its.other.store(base_of(position, at), std::memory_order_relaxed);
            its.first.store(static_cast<std::uint32_t>(position), std::memory_order_release);
        } else {
            its.kind.store((kind & ~kind_mask) | of_many, std::memory_order_release);
        }
    }

    // An entry whose first row is in that run, and its other rows, as far as they are there.
    void set(entry &its, std::uint32_t number, const run &of) const noexcept {
        const shape &is = shapes_[of.shape.load(std::memory_order_relaxed)];
        if (is.rows == 0) {
            its.one = base_of(of.first, of.at);
            its.other.store(its.one, std::memory_order_relaxed);
            its.first.store(none, std::memory_order_relaxed);
            its.kind.store(number << kind_bits | of_two_pieces, std::memory_order_release);
        } else {
            its.one = number_of(of.at);
            its.other.store(is.gap, std::memory_order_relaxed);
            its.magic = is.magic;
            its.first.store(of.first, std::memory_order_relaxed);
            its.kind.store(number << kind_bits | of_a_run, std::memory_order_release);
        }
    }

    // The last run has so many rows more. Where it has got a shape the entry of its first rows doesn't know that: the piece behind
    // these is one more to it.
    void cover(std::size_t count) noexcept {
        const std::size_t end = covered_ + count;
        const table<entry> &all = *tables_.back();
        const std::uint32_t number = count_.load(std::memory_order_relaxed) - 1;
        const run &last = at(number);
        const std::size_t one = std::size_t{1} << all.shift;
        if (pieces_in_run_ == 2 && (covered_ & (one - 1)) != 0) {
            entry &its = all.entries[covered_ >> all.shift];
            const std::size_t behind = covered_ - last.first;
            one_more(its, covered_, last.at + behind * bytes_ + shapes_[last.shape.load(std::memory_order_relaxed)].gap);
        } else if (pieces_in_run_ > 2 && (covered_ & (one - 1)) != 0) {
            entry &its = all.entries[covered_ >> all.shift];
            if ((its.kind.load(std::memory_order_relaxed) & kind_mask) == of_two_pieces) one_more_of_run(its, last);
        }
        for (std::size_t from = (covered_ + one - 1) & ~(one - 1); from < end; from += one)
            set(all.entries[from >> all.shift], number, last);
        covered_ = end;
    }

    // The piece from `covered_` on of a run that began among the entry's rows.
    void one_more_of_run(entry &its, const run &last) const noexcept {
        one_more(its, covered_, found_in(last, covered_));
    }

    // Room for entries up to this row. The next table has room for four times as many rows, and an entry for about as many as a run
    // has.
    void make_room(std::size_t end) {
        if (!tables_.empty() && end <= tables_.back()->room) return;
        const std::size_t room = std::max(least_room, std::size_t{1} << (bits_of(end - 1) + 1) / 2 * 2);
        const std::size_t a_run = end / (count_.load(std::memory_order_relaxed) + std::size_t{1});
        const unsigned most = bits_of(room / least_entries);
        auto made = std::make_unique<table<entry>>(room, std::max(least_shift, std::min(bits_of(a_run | 1), most) - 1));
        fill(*made);
        tables_.reserve(tables_.size() + 1);
        make_long_table(room, end / (pieces_ + 1));
        tables_.push_back(std::move(made));
        table_.store(tables_.back()->word(), std::memory_order_release);
    }

    // Where pieces are long, another table says of most rows where row 0 would stand before them: of those that are all of one
    // piece. That is the shortest look. Where it says nothing the first table is asked.
    void make_long_table(std::size_t room, std::size_t a_piece) {
        if (a_piece < long_piece) {
            longs_ = nullptr;
            long_table_.store(0, std::memory_order_release);
            return;
        }
        const unsigned most = bits_of(room / least_entries);
        auto made = std::make_unique<table<base_of_rows>>(room, std::min(bits_of(a_piece / parts_of_a_piece), most) - 1);
        const std::uint32_t count = count_.load(std::memory_order_relaxed);
        for (std::size_t from = 0, number = 0; number < count; ++number) {
            const run &its = at(static_cast<std::uint32_t>(number));
            const std::size_t each = shapes_[its.shape.load(std::memory_order_relaxed)].rows;
            const std::size_t end = number + 1 < count ? at(static_cast<std::uint32_t>(number) + 1).first : covered_;
            for (std::size_t until; from < end; from = until) {
                until = each == 0 ? end : std::min(end, from + each);
                note_long(*made, from, until, found_in(its, from));
            }
        }
        long_tables_.push_back(std::move(made));
        longs_ = long_tables_.back().get();
        long_table_.store(longs_->word(), std::memory_order_release);
    }

    // These rows lie behind one another.
    void note_long(const table<base_of_rows> &all, std::size_t from, std::size_t end, const unsigned char *at) const noexcept {
        const std::size_t one = std::size_t{1} << all.shift;
        const std::uint64_t base = base_of(from, at);
        for (std::size_t next = (from + one - 1) & ~(one - 1); next + one <= end; next += one)
            all.entries[next >> all.shift].store(base, std::memory_order_relaxed);
    }

    // What is covered, run by run.
    void fill(const table<entry> &all) const noexcept {
        const std::uint32_t count = count_.load(std::memory_order_relaxed);
        const std::size_t one = std::size_t{1} << all.shift;
        for (std::uint32_t number = 0; number < count; ++number) {
            const run &its = at(number);
            const std::size_t end = number + 1 < count ? at(number + 1).first : covered_;
            if ((its.first & (one - 1)) != 0) {
                entry &shared = all.entries[its.first >> all.shift];
                one_more(shared, its.first, its.at);
                // Of a run that has more than one piece there.
                const std::uint32_t each = shapes_[its.shape.load(std::memory_order_relaxed)].rows;
                if (each != 0 && its.first + each < std::min<std::size_t>(end, (its.first | (one - 1)) + 1)) {
                    const std::uint32_t kind = shared.kind.load(std::memory_order_relaxed);
                    shared.kind.store((kind & ~kind_mask) | of_many, std::memory_order_relaxed);
                }
            }
            for (std::size_t from = (its.first + one - 1) & ~(one - 1); from < end; from += one)
                set(all.entries[from >> all.shift], number, its);
        }
    }

    const std::size_t bytes_;
    std::atomic<std::size_t> size_{0};
    std::atomic<std::uint64_t> long_table_{0}, table_{0};
    std::atomic<std::uint32_t> count_{0}; // of runs
    std::array<std::uintptr_t, run_parts> runs_{};
    std::array<shape, most_shapes> shapes_{};
    std::array<std::unique_ptr<run[]>, run_parts> owned_runs_;
    // Of who adds:
    std::vector<std::unique_ptr<table<entry>>> tables_;
    std::vector<std::unique_ptr<table<base_of_rows>>> long_tables_;
    table<base_of_rows> *longs_ = nullptr; // or there is none now
    std::size_t pieces_ = 0;
    std::uint32_t shape_count_ = 1;
    std::size_t covered_ = 0;
    const unsigned char *last_at_ = nullptr; // of the last piece, and how many rows it has
    std::size_t last_count_ = 0;
    std::uint64_t distance_ = 0;    // from the piece before that one to it
    std::size_t rows_before_ = 0;   // of the piece before it
    std::size_t run_rows_ = 0;      // of each piece of the last run
    std::size_t pieces_in_run_ = 0; // of the last run
    bool lengthened_ = false;       // the last run is one piece that was added as several
};

} // namespace detail
} // namespace cvec

#endif
