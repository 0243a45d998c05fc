// What the programs of this folder say of a claim that isn't so.
#ifndef TOLD_HPP
#define TOLD_HPP

#include "cvec/concurrent_vector.hpp"

#include <cstdio>
#include <functional>
#include <map>
#include <string>
#include <thread>
#include <vector>

inline int wrong = 0;

#define HOLDS(claim)                                                                                                               \
    do                                                                                                                             \
        if (!(claim)) {                                                                                                            \
            std::printf("line %d: not so: %s\n", __LINE__, #claim);                                                                \
            wrong = 1;                                                                                                             \
        }                                                                                                                          \
    while (0)

// The status by which this is refused, or CVEC_DONE.
inline std::uint32_t status_of(const std::function<void()> &call) {
    try {
        call();
        return CVEC_DONE;
    } catch (const cvec::error &refusal) {
        return refusal.status();
    }
}

inline bool is_out_of_range(const std::function<void()> &call) {
    try {
        call();
        return false;
    } catch (const std::out_of_range &) {
        return true;
    }
}

// So that a fork is granted whatever memory there is: it is asked for all addresses that a vector has reserved.
inline cvec::options for_a_fork(std::uint16_t seats) { return {cvec::opening::open_or_create, 1, seats, 100000}; }

// Does this in so many threads at once, each with its number.
inline void in_threads(std::uint64_t count, const std::function<void(std::uint64_t)> &work) {
    std::vector<std::thread> all;
    for (std::uint64_t k = 0; k < count; ++k) all.emplace_back(work, k);
    for (auto &one : all) one.join();
}

using behaviours_by_name = std::map<std::string, void (*)(const std::string &)>;

// What main answers of the words NAME FILE: 0 where the behaviour of that name is as promised, on that file.
inline int behave(int argc, char **argv, const behaviours_by_name &all) {
    const auto found = argc == 3 ? all.find(argv[1]) : all.end();
    if (found == all.end()) return 2;
    try {
        found->second(argv[2]);
    } catch (const std::exception &refusal) {
        std::printf("thrown: %s\n", refusal.what());
        wrong = 1;
    }
    return wrong;
}

#endif
