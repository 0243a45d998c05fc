// How a cvec::concurrent_vector begins, and what a growth of it is told.
#ifndef CVEC_OPTIONS_HPP
#define CVEC_OPTIONS_HPP

#include <algorithm>
#include <chrono>
#include <cstddef>
#include <cstdint>
#include <thread>

namespace cvec {

enum class opening { open_or_create, open, create };

struct options {
    opening how = opening::open_or_create;
    std::uint8_t version = 1; // of a file that is created: 1 or 2
    std::uint16_t seats = 64; // so many threads may be inside calls at once, 1 to 64: more wait for one another
    // For so many growths a phase has room, as `growths` of cvec_options (cvec.h); 0 is the default there.
    std::uint64_t growths = 0;
    // So long calls that want the vector alone wait for views that live. Then they are refused (CVEC_BUSY): by 0 at once.
    std::chrono::milliseconds wait_for_views{0};
};

namespace detail {

// Calls in memory wait for no device: as many threads as run at once have a seat, and as many more as may be paused within one.
inline options options_in_memory() {
    options made;
    made.seats = static_cast<std::uint16_t>(std::clamp(2 * std::thread::hardware_concurrency(), 4U, 64U));
    return made;
}

} // namespace detail

// Where a growth stands.
struct growth {
    std::uint64_t number; // how many growths were made before it, since the vector was opened
    std::size_t first;    // the position of its first row
    std::size_t length;   // how many rows it has
};

// ---- how rows are kept in a file

// By one record each, where T has the width of one.
struct one_record {};

// By records of u64, whatever T is. So did versions of this header before there were others: it opens files that these made of
// a T of 4 or 16 bytes.
struct rows_of_u64 {};

} // namespace cvec

#endif
