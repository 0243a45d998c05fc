// A file of words, which are its records, that any thread may use: the calls of cvec.h, by seats that are borrowed.
#ifndef CVEC_WORD_FILE_HPP
#define CVEC_WORD_FILE_HPP

#include "holds.hpp"
#include "open_file.hpp"
#include "piece_index.hpp"

#include <algorithm>
#include <array>
#include <cerrno>
#include <chrono>
#include <cstddef>
#include <cstdint>
#include <memory>
#include <mutex>
#include <optional>
#include <string>
#include <utility>

namespace cvec {
namespace detail {

inline constexpr std::uint64_t most_records = std::uint64_t{1} << 32;

// A seat for one call. No code of the user runs while it is borrowed, so no call waits for a seat that its own thread has.
class lease {
  public:
    explicit lease(const open_file &file) { file.require(file.borrow(CVEC_NO_LIMIT, &seat_)); }
    explicit lease(cvec_seat *borrowed) noexcept : seat_(borrowed) {}
    lease(const lease &) = delete;
    lease &operator=(const lease &) = delete;
    ~lease() {
        if (seat_ != nullptr) cvec_seat_return(&seat_);
    }
    [[nodiscard]] cvec_seat *seat() const noexcept { return seat_; }

  private:
    cvec_seat *seat_ = nullptr;
};

class word_file final : public open_file, public std::enable_shared_from_this<word_file> {
  public:
    // A row is so many words, which have so many bytes together.
    word_file(const std::optional<std::string> &path, cvec_type type, std::size_t words, std::size_t bytes, const options &wanted)
        : open_file(path, type, wanted), row_words_(words), index_(bytes), wait_for_views_(wanted.wait_for_views) {}

    // A destructor reports nothing: who wants to know calls close.
    ~word_file() { give_up(); }

    // Waits until each call under way has ended. Later ones are refused, and to close again does nothing. A forked process waits for
    // nobody: it gives up what it has of the file, and commits nothing.
    void close() {
        const std::uint32_t status = give_up();
        if (status == CVEC_BUSY) refuse_held();
        require(status);
    }

    // Some words as one growth.
    cvec_receipt grow(const void *words, std::size_t count) {
        const lease lent(*this);
        cvec_receipt receipt{};
        const unseen writes;
        require(cvec_seat_grow(lent.seat(), type_, words, count, &receipt));
        return receipt;
    }

    // Waits until the growth of this number, and each before it, is durable.
    void await(std::uint64_t number) {
        refuse_in_memory();
        const lease lent(*this);
        require(cvec_seat_settle(lent.seat(), number, CVEC_NO_LIMIT));
    }

    // The same, for others, also for a seat, so many milliseconds at most: then false.
    bool await_for(std::uint64_t number, std::uint64_t milliseconds) {
        refuse_in_memory();
        const auto begun = waiting_clock::now();
        cvec_seat *borrowed = nullptr;
        if (!is_in_time(borrow(milliseconds, &borrowed))) return false;
        const lease lent(borrowed);
        const auto waited = std::chrono::duration_cast<std::chrono::milliseconds>(waiting_clock::now() - begun).count();
        const std::uint64_t rest = milliseconds - std::min(milliseconds, static_cast<std::uint64_t>(waited));
        return is_in_time(cvec_seat_settle(lent.seat(), number, rest));
    }

    // Waits for all growths that have returned.
    void await_all() { require(settle(CVEC_NO_LIMIT)); }
    bool await_all_for(std::uint64_t milliseconds) { return is_in_time(settle(milliseconds)); }

    // Commits what was grown, and so again and again behind such a pause, until stop_flusher or the close.
    void run_flusher(std::uint64_t milliseconds) {
        refuse_forked();
        refuse_in_memory();
        require_unless_closed(cvec_vector_run_flusher(vector_, milliseconds));
    }

    // The same by a thread of the library's.
    void start_flusher(std::uint64_t milliseconds) {
        refuse_ended();
        refuse_in_memory();
        require(cvec_vector_start_flusher(vector_, milliseconds));
    }

    void stop_flusher() {
        refuse_forked();
        refuse_in_memory();
        require_unless_closed(cvec_vector_stop_flusher(vector_));
    }

    std::uint64_t settled() const {
        refuse_ended();
        std::uint64_t count = 0;
        require(cvec_vector_settled(vector_, &count));
        return count;
    }

    std::uint64_t size() const {
        const lease lent(*this);
        std::uint64_t count = 0;
        require(cvec_seat_size(lent.seat(), &count));
        return count;
    }

    // Copies words from this place on, and answers how many there were.
    std::size_t read(std::uint64_t from, void *out, std::size_t room) const {
        const lease lent(*this);
        std::uint64_t count = 0;
        require(cvec_seat_read(lent.seat(), type_, from, out, room, &count));
        return static_cast<std::size_t>(count);
    }

    // ---- rows that are lent

    // Where they stand, as far as one of the calls below has learned of them.
    [[nodiscard]] const piece_index &index() const noexcept { return index_; }

    // Learns of all rows that there are. Threads that come at once wait for one of them.
    void learn() {
        const std::lock_guard<std::mutex> lock(learning_);
        const lease lent(*this);
        std::array<cvec_piece, 256> pieces;
        std::size_t count = 0;
        do {
            const std::uint64_t from = std::uint64_t{index_.covered()} * row_words_;
            require(cvec_seat_pieces(lent.seat(), from, pieces.data(), pieces.size(), &count));
            takes(this);
            for (std::size_t k = 0; k < count; ++k) add(pieces[k]);
            index_.publish();
        } while (count == pieces.size());
    }

    // So many rows there are, of which it has learned all.
    std::size_t learned() {
        const std::size_t length = static_cast<std::size_t>(size()) / row_words_;
        if (length > index_.size()) learn();
        return length;
    }

    // From now on nobody has the file alone, until end_view. Who had it before has forgotten what it lent.
    void begin_view() {
        holds_.give_way();
        refuse_ended();
        holds_.begin_view();
        const std::uint32_t status = cvec_vector_hold(vector_);
        if (status != CVEC_DONE) holds_.end_view();
        require(status);
        const std::lock_guard<std::mutex> passed(learning_);
    }
    // By who has one. A forked process has none of its own.
    void share_view() noexcept {
        holds_.begin_view();
        static_cast<void>(cvec_vector_hold(vector_));
    }
    void end_view() noexcept {
        static_cast<void>(cvec_vector_release(vector_));
        holds_.end_view();
    }

    // ---- growing in place

    // So many words that are lent to be written, and then are one growth. It takes as long as it takes: other calls have its seat
    // meanwhile, and nobody has the file alone. What isn't published is dropped.
    class block {
      public:
        block(word_file &file, std::size_t count) : file_(file), counted_(file), mine_(&file) {
            const lease lent(file);
            void *words = nullptr;
            file.require(cvec_seat_block(lent.seat(), count, &words));
            file.require(cvec_seat_detach(lent.seat(), &block_));
        }
        block(const block &) = delete;
        block &operator=(const block &) = delete;
        ~block() {
            if (!file_.is_forked()) cvec_block_drop(&block_);
        }

        [[nodiscard]] void *words() const noexcept { return block_.records; }

        cvec_receipt publish() {
            file_.refuse_forked();
            const lease lent(file_);
            cvec_receipt receipt{};
            file_.require(cvec_seat_attach(lent.seat(), &block_));
            gives(&file_);
            file_.require(cvec_seat_publish(lent.seat(), &receipt)); // refused, it goes with the seat
            return receipt;
        }

      private:
        struct counted {
            explicit counted(word_file &file) : holds_(file.holds_) {
                if (!filling::is_of(&file)) holds_.give_way();
                holds_.begin_block();
            }
            counted(const counted &) = delete;
            counted &operator=(const counted &) = delete;
            ~counted() { holds_.end_block(); }
            holds &holds_;
        };

        word_file &file_;
        const counted counted_;
        const filling mine_;
        cvec_block block_{};
    };

    // ---- having the file alone

    // As long as it lives nobody has the file alone, and what stands changes by `write` alone. Words are grown and read meanwhile. Threads
    // that begin one wait for one another, and for views as calls that want the file alone.
    class exclusion {
      public:
        explicit exclusion(word_file &file) : file_(file), turn_(file.take_exclusion()), mine_(&file) {
            file.holds_.give_way();
            const holds::want now(file.holds_, file.wait_for_views_);
            if (!now.await_none()) file.refuse_held();
            const std::lock_guard<std::mutex> lock(file.learning_); // behind a call that has the file alone
            file.holds_.begin_exclusion();
        }
        exclusion(const exclusion &) = delete;
        exclusion &operator=(const exclusion &) = delete;
        ~exclusion() { file_.holds_.end_exclusion(); }

        // Writes some words over those from this place on, which are there, as one frame.
        void write(std::uint64_t from, const void *words, std::size_t count) {
            file_.act_alone(holds::excluding, [&](bool &) {
                return cvec_vector_change(file_.vector_, file_.type_, from, words, count);
            });
        }

      private:
        word_file &file_;
        const std::unique_lock<std::mutex> turn_;
        const filling mine_;
    };

    // Takes the words behind so many away, if there are some.
    void cut(std::uint64_t length) {
        run_alone([this, length](bool &has_begun) {
            has_begun = size() > length;
            return has_begun ? cut_alone(length) : std::uint32_t{CVEC_DONE};
        });
    }

    // Writes some words over those from this place on, as one frame. False: not all of those are there, and nothing is written.
    bool change(std::uint64_t from, const void *words, std::size_t count) {
        if (count == 0) return from <= size();
        bool is_there = false;
        run_alone([&](bool &has_begun) -> std::uint32_t {
            const std::uint64_t all = size();
            is_there = has_begun = from <= all && count <= all - from;
            return is_there ? cvec_vector_change(vector_, type_, from, words, count) : CVEC_DONE;
        });
        return is_there;
    }

    // Writes what was changed to its place in the file.
    void fold() {
        run_alone([this](bool &) { return cvec_vector_fold(vector_); });
    }

    // Puts the words of all growths behind one another.
    void compact() {
        run_alone([this](bool &) { return cvec_vector_compact(vector_); });
    }

    // For who looks at a length before it grows: one at a time. At a fork another thread may have had it.
    std::unique_lock<std::mutex> take_turn() {
        refuse_forked();
        return std::unique_lock<std::mutex>(turn_);
    }

  private:
    std::unique_lock<std::mutex> take_exclusion() {
        refuse_ended();
        if (filling::is_of(this)) refuse_held();
        return std::unique_lock<std::mutex>(excluding_);
    }

    [[nodiscard]] std::uint32_t settle(std::uint64_t milliseconds) const {
        refuse_ended();
        refuse_in_memory();
        return cvec_vector_settle(vector_, milliseconds);
    }

    // The close has ended all loops of flushers, also one that comes behind it.
    void require_unless_closed(std::uint32_t status) const {
        if (status != CVEC_NOT_SO) require(status);
    }

    [[nodiscard]] bool is_in_time(std::uint32_t status) const {
        if (status != CVEC_LATE) require(status);
        return status == CVEC_DONE;
    }

    // Each growth by this header has whole rows, and what a file held is one piece.
    void add(const cvec_piece &piece) {
        if (piece.len % row_words_ != 0) refuse(CVEC_WIDTH, "a row stands in two pieces");
        index_.add(piece.records, static_cast<std::size_t>(piece.len) / row_words_);
    }

    // ---- having the file alone

    [[noreturn]] void refuse_held() const {
        refuse(CVEC_BUSY, "rows are held, by a view or by a growth in place of this thread");
    }

    // Settles, and does this while nobody holds rows, and nobody learns where they stand: behind it they may stand elsewhere. It
    // answers a status; CVEC_BUSY: a view has come between, and nothing is done. Where views live for longer than it may wait it is
    // refused.
    template <class Action> void run_alone(const Action &act) {
        refuse_ended();
        if (filling::is_of(this)) refuse_held();
        act_alone(holds::any, act);
    }

    template <class Action> void act_alone(holds::caller who, const Action &act) {
        const holds::want mine(holds_, wait_for_views_, who);
        for (;;) {
            if (!mine.await_none()) refuse_held();
            if (!is_in_memory()) await_all();
            const std::lock_guard<std::mutex> lock(learning_);
            if (mine.is_excluded()) continue;
            bool has_begun = true;
            const std::uint32_t status = act(has_begun);
            if (status == CVEC_BUSY) continue;
            const int why = errno;
            if (has_begun) index_.clear();
            errno = why;
            return require(status);
        }
    }

    // What was changed has to be folded before.
    std::uint32_t cut_alone(std::uint64_t length) {
        const cvec_pair unused{}; // as large as any record: the length doesn't rise
        std::uint32_t status = cvec_vector_resize(vector_, type_, length, &unused);
        if (status != CVEC_UNFOLDED) return status;
        status = cvec_vector_fold(vector_);
        if (status == CVEC_DONE) status = cvec_vector_resize(vector_, type_, length, &unused);
        return status;
    }

    // ---- ending

    // Where rows are held it goes on as it was, its flushers too. A forked process closes the file alone.
    std::uint32_t give_up() {
        if (is_closed()) return CVEC_DONE;
        if (is_forked()) {
            end();
            return CVEC_DONE;
        }
        if (filling::is_of(this)) return CVEC_BUSY;
        const holds::want mine(holds_, wait_for_views_);
        for (;;) {
            if (!mine.await_none()) return CVEC_BUSY;
            const std::lock_guard<std::mutex> lock(learning_);
            if (mine.is_excluded()) continue;
            const std::uint32_t status = end();
            if (status == CVEC_BUSY) continue;
            index_.clear();
            return status == CVEC_NOT_SO ? std::uint32_t{CVEC_DONE} : status; // another has closed it
        }
    }

    const std::size_t row_words_;
    piece_index index_; // with learning_
    std::mutex learning_;
    holds holds_;
    const std::chrono::milliseconds wait_for_views_;
    std::mutex turn_, excluding_;
};

} // namespace detail
} // namespace cvec

#endif
