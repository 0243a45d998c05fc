// By what a call of cvec::concurrent_vector is refused.
#ifndef CVEC_ERROR_HPP
#define CVEC_ERROR_HPP

#include "compiler.hpp"
#include "cvec.h"

#include <cstddef>
#include <cstdint>
#include <stdexcept>
#include <string>
#include <system_error>

namespace cvec {
namespace detail {

inline bool is_of_the_system(std::uint32_t status) noexcept { return status >= CVEC_DISK_OPEN && status <= CVEC_DISK_SYNC; }

inline std::string sentence(const std::string &path, const std::string &text, int system) {
    return "cvec: " + path + ": " + text + (system == 0 ? "" : ": " + std::generic_category().message(system));
}

[[noreturn]] CVEC_APART inline void refuse_position(std::size_t position) {
    throw std::out_of_range("cvec: no row at position " + std::to_string(position));
}

} // namespace detail

// A call that was refused: why, as a status of cvec.h, and in words.
class error : public std::runtime_error {
  public:
    error(std::uint32_t status, const std::string &path, const std::string &text, int system)
        : std::runtime_error(detail::sentence(path, text, system)), status_(status), system_(system) {}

    [[nodiscard]] std::uint32_t status() const noexcept { return status_; }

    // What errno was, where a call of the system failed; else 0.
    [[nodiscard]] int system_error() const noexcept { return system_; }

  private:
    std::uint32_t status_;
    int system_;
};

} // namespace cvec

#endif
