// Who has rows of a file in hand where they stand, so that nobody may have the file alone: views, growths in place, and one thread that
// rewrites rows.
#ifndef CVEC_HOLDS_HPP
#define CVEC_HOLDS_HPP

#include "waiting.hpp"

#include <atomic>
#include <chrono>
#include <cstddef>

namespace cvec {
namespace detail {

// Counts them, for who waits until there are none.
class holds {
  public:
    // Who wants the file alone: one that excludes others from that waits for none of them, nor for itself.
    enum caller { any, excluding };

    void begin_view() noexcept { ++views_; }
    void end_view() noexcept { --views_; }
    void begin_block() noexcept { ++blocks_; }
    void end_block() noexcept { --blocks_; }
    void begin_exclusion() noexcept { is_exclusive_ = true; }
    void end_exclusion() noexcept { is_exclusive_ = false; }

    // For who is about to hold: first come those that wait for all holds to end, but for no longer than this, since it may be for a
    // hold of the caller's own that they wait. Else there might always be one.
    void give_way() const {
        if (wanting_.load() == 0) return;
        const auto until = waiting_clock::now() + std::chrono::milliseconds(100);
        for (patience turn; wanting_.load() != 0 && waiting_clock::now() < until;) turn.wait();
    }

    // A call that wants the file alone.
    class want {
      public:
        want(holds &all, std::chrono::milliseconds longest, caller who = any)
            : all_(all), who_(who), until_(waiting_clock::now() + std::min<std::chrono::milliseconds>(longest, longest_wait)) {
            ++all_.wanting_;
        }
        want(const want &) = delete;
        want &operator=(const want &) = delete;
        ~want() { --all_.wanting_; }

        // Waits until nobody holds. A growth in place takes as long as it takes, as any call. Views have the time that was given:
        // false, where there are some behind it.
        [[nodiscard]] bool await_none() const {
            for (patience turn; all_.views_.load() != 0 || all_.blocks_.load() != 0 || is_excluded(); turn.wait())
                if (all_.views_.load() != 0 && waiting_clock::now() >= until_) return false;
            return true;
        }

        [[nodiscard]] bool is_excluded() const noexcept { return who_ == any && all_.is_exclusive_.load(); }

      private:
        holds &all_;
        const caller who_;
        const waiting_clock::time_point until_;
    };

  private:
    std::atomic<std::size_t> views_{0}, blocks_{0};
    std::atomic<std::size_t> wanting_{0};
    std::atomic<bool> is_exclusive_{false};
};

// A growth in place by this thread, or its exclusion of others, as long as it lives. What the caller does meanwhile mustn't wait for it.
class filling {
  public:
    explicit filling(const void *file) noexcept : file_(file), before_(last()) { last() = this; }
    filling(const filling &) = delete;
    filling &operator=(const filling &) = delete;
    ~filling() { last() = before_; }

    [[nodiscard]] static bool is_of(const void *file) noexcept {
        const filling *one = last();
        while (one != nullptr && one->file_ != file) one = one->before_;
        return one != nullptr;
    }

  private:
    static const filling *&last() noexcept {
        thread_local const filling *found = nullptr;
        return found;
    }

    const void *const file_;
    const filling *const before_;
};

} // namespace detail
} // namespace cvec

#endif
