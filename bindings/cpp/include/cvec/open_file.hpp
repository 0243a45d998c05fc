// A vector of cvec.h that is open, and by what its calls are refused.
#ifndef CVEC_OPEN_FILE_HPP
#define CVEC_OPEN_FILE_HPP

#include "error.hpp"
#include "options.hpp"

#include <atomic>
#include <cerrno>
#include <cstdint>
#include <optional>
#include <string>

namespace cvec {
namespace detail {

inline constexpr std::uint16_t most_seats = 64;

class open_file {
  public:
    open_file(const open_file &) = delete;
    open_file &operator=(const open_file &) = delete;

    void refuse_forked() const {
        if (is_forked()) refuse(CVEC_FORKED);
    }

    [[noreturn]] void refuse(std::uint32_t status) const { refuse(status, cvec_status_text(status)); }

    [[noreturn]] void refuse(std::uint32_t status, const std::string &text) const {
        const int why = is_of_the_system(status) ? errno : 0;
        throw error(status, path_ ? *path_ : "a vector in memory", text, why);
    }

    // Of the calls of a vector by this header it is that refusal alone: that it was closed.
    void require(std::uint32_t status) const {
        if (status == CVEC_NOT_SO) refuse_closed();
        if (status != CVEC_DONE) refuse(status);
    }

    [[nodiscard]] bool is_forked() const noexcept { return process_ != cvec_process(); }

    // Where it was closed another thread may be about to call it all the same: its handle stays until it has gone.
    std::uint32_t borrow(std::uint64_t milliseconds, cvec_seat **seat) const {
        return is_closed() ? CVEC_NOT_SO : cvec_seat_borrow(vector_, milliseconds, seat);
    }

    // It has no file: nothing of it is durable.
    [[nodiscard]] bool is_in_memory() const noexcept { return !path_; }

    void refuse_in_memory() const {
        if (is_in_memory()) refuse(CVEC_NOT_SO, "nothing of it is durable: `save` gives it a file");
    }

  protected:
    // By no path in memory alone.
    open_file(const std::optional<std::string> &path, cvec_type type, const options &wanted)
        : type_(type), limit_(wanted.seats), process_(cvec_process()), path_(path) {
        if (path_ && path_->find('\0') != std::string::npos) refuse_path();
        if (limit_ == 0 || limit_ > most_seats) refuse(CVEC_NOT_SO, "a vector has 1 to 64 seats");
        if (wanted.version == 0) refuse(CVEC_NOT_SO);
        begin(wanted.how, {wanted.version, limit_, 0, wanted.growths});
    }
    // What a constructor behind this one throws leaves it to close the file.
    ~open_file() {
        if (vector_ != nullptr) cvec_vector_close(&vector_);
    }

    [[nodiscard]] bool is_closed() const noexcept { return closed_.load(std::memory_order_acquire); }

    void refuse_ended() const {
        if (is_closed()) refuse_closed();
        refuse_forked();
    }

    // CVEC_BUSY: it isn't closed. A forked process gives up what it has of the file.
    std::uint32_t end() noexcept {
        const std::uint32_t status = cvec_vector_end(vector_);
        if (status != CVEC_BUSY) closed_.store(true, std::memory_order_release);
        return status;
    }

    const cvec_type type_;
    const std::uint16_t limit_;   // so many seats
    const std::uint64_t process_; // which has opened it, by the library's number
    cvec_vector *vector_ = nullptr;

  private:
    // To the system a path ends there: it would open the file of that name.
    [[noreturn]] void refuse_path() const {
        const std::string text = cvec_status_text(CVEC_DISK_OPEN);
        throw error(CVEC_DISK_OPEN, path_->c_str(), text + ": its path goes on behind a zero byte", 0);
    }

    void begin(opening how, const cvec_options &wanted) {
        const auto call = is_in_memory() || how == opening::create ? cvec_vector_create
                          : how == opening::open                   ? cvec_vector_open
                                                                   : cvec_vector_open_or_create;
        const std::uint32_t status = call(&vector_, path_ ? path_->c_str() : nullptr, type_, &wanted);
        if (status == CVEC_WIDTH && type_ != CVEC_U64)
            refuse(status, "its records have another width; one of rows_of_u64 is opened as such");
        if (status != CVEC_DONE) refuse(status);
    }

    [[noreturn]] void refuse_closed() const { refuse(CVEC_NOT_SO, "it was closed"); }

    const std::optional<std::string> path_;
    std::atomic<bool> closed_{false};
};

} // namespace detail
} // namespace cvec

#endif
