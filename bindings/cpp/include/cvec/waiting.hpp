// How threads wait for one another, and for how long.
#ifndef CVEC_WAITING_HPP
#define CVEC_WAITING_HPP

#include <algorithm>
#include <chrono>
#include <cstdint>
#include <thread>

namespace cvec {
namespace detail {

using waiting_clock = std::chrono::steady_clock;

// A year and more is as long as a wait can be.
inline constexpr std::chrono::hours longest_wait{365 * 24};

// As cvec.h counts it, rounded up. It is compared by double, since a year of picoseconds is past 64 bits.
template <class Rep, class Period> std::uint64_t milliseconds_of(const std::chrono::duration<Rep, Period> &time) {
    if (time <= time.zero()) return 0;
    if (std::chrono::duration<double>(time) >= longest_wait) return UINT64_MAX;
    return static_cast<std::uint64_t>(std::chrono::ceil<std::chrono::milliseconds>(time).count());
}

// Sleeps between looks for what another thread has: each time longer.
class patience {
  public:
    void wait() {
        std::this_thread::sleep_for(nap_);
        nap_ = std::min(nap_ * 2, longest_nap);
    }

  private:
    static constexpr std::chrono::microseconds longest_nap{200};
    std::chrono::microseconds nap_{2};
};

} // namespace detail
} // namespace cvec

#endif
