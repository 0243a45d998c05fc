// What all works stand on: time, numbers without a pattern, and threads that start at once.
#pragma once

#include <algorithm>
#include <atomic>
#include <cstdint>
#include <cstdio>
#include <cstdlib>
#include <string>
#include <thread>
#include <vector>

#include <sched.h>
#include <sys/resource.h>
#include <time.h>
#include <unistd.h>

using u8 = uint8_t;
using u32 = uint32_t;
using u64 = uint64_t;
using std::string;
using std::vector;

inline double now() {
    timespec time;
    clock_gettime(CLOCK_MONOTONIC, &time);
    return double(time.tv_sec) + double(time.tv_nsec) * 1e-9;
}

inline double processor_seconds() {
    rusage used;
    getrusage(RUSAGE_SELF, &used);
    return double(used.ru_utime.tv_sec + used.ru_stime.tv_sec) + double(used.ru_utime.tv_usec + used.ru_stime.tv_usec) * 1e-6;
}

// Ends this process at once, so that threads of a store that failed can't keep it.
[[noreturn]] inline void fail(const string& why) {
    fprintf(stderr, "peers: %s\n", why.c_str());
    _exit(1);
}

inline void need(bool holds, const char* what) {
    if (!holds) fail(what);
}

// A number without a pattern for each number: splitmix64.
inline u64 mix(u64 number) {
    number += 0x9e3779b97f4a7c15ull;
    number = (number ^ (number >> 30)) * 0xbf58476d1ce4e5b9ull;
    number = (number ^ (number >> 27)) * 0x94d049bb133111ebull;
    return number ^ (number >> 31);
}

// A place below `end` for a number of mix.
inline u64 below(u64 number, u64 end) { return u64((unsigned __int128)number * end >> 64); }

inline vector<u64> mixed(u64 first, u64 length) {
    vector<u64> block(length);
    for (u64 k = 0; k < length; k++) block[k] = mix(first + k);
    return block;
}

// What is computed goes here, so that no compiler leaves it out.
inline volatile u64 sink_of_sums;

// The processor time of this process at the last common start.
inline double processor_start;

// Calls work(0) to work(threads - 1), each in a thread of its own, from one common start. The seconds from the start to the
// end of the last one: making threads isn't counted.
template <class Work>
double race(int threads, Work work) {
    std::atomic<int> ready{0};
    std::atomic<bool> go{false};
    vector<double> ends(threads);
    vector<std::thread> running;
    for (int thread = 0; thread < threads; thread++)
        running.emplace_back([&, thread] {
            ready++;
            while (!go.load(std::memory_order_acquire)) sched_yield();
            work(thread);
            ends[thread] = now();
        });
    while (ready.load() < threads) sched_yield();
    processor_start = processor_seconds();
    double start = now();
    go.store(true, std::memory_order_release);
    for (auto& thread : running) thread.join();
    return *std::max_element(ends.begin(), ends.end()) - start;
}
