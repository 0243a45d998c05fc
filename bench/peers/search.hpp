// search: how many records have a value, and at which place one stands first.
#pragma once

#include "harness.hpp"

#include <execution>
#include <numeric>

#include <oneapi/tbb/blocked_range.h>
#include <oneapi/tbb/concurrent_vector.h>
#include <oneapi/tbb/global_control.h>
#include <oneapi/tbb/parallel_for.h>
#include <oneapi/tbb/parallel_reduce.h>

inline const u64 COUNTED = 7, SOUGHT = u64(1) << 40;
inline const u64 GRAIN = 65536;  // records that a thread takes at a time

inline u64 content_at(u64 place) { return mix(place) & 255; }

// Times both searches of these records with each number of threads. The sought record stands at the end alone, or in the
// middle alone.
template <class Container>
Figures search(Container& records, const vector<int>& threads, const std::function<u64()>& count,
               const std::function<u64()>& find) {
    u64 n = records.size(), expected = 0;
    for (u64 at = 0; at < n; at++) expected += content_at(at) == COUNTED;
    Figures figures;
    for (int number : threads) {
        tbb::global_control limit(tbb::global_control::max_allowed_parallelism, size_t(number));
        auto timed = [&](const char* work, u64 visited, const std::function<u64()>& call, u64 answer) {
            if (number > 1) call();  // the pool's threads are there before the clock starts
            double start = now();
            u64 found = call();
            double seconds = now() - start;
            need(found == answer, "search: wrong answer");
            figures.push_back({work, number, double(visited), seconds, {}});
        };
        timed("search.count", n, count, expected);
        for (auto [work, at] : {std::pair{"search.find-end", n - 1}, std::pair{"search.find-mid", n / 2}}) {
            records[at] = SOUGHT;
            timed(work, at + 1, find, at);
            records[at] = content_at(at);
        }
    }
    return figures;
}

inline vector<u64> filled_vector(u64 n) {
    vector<u64> records(n);
    for (u64 at = 0; at < n; at++) records[at] = content_at(at);
    return records;
}

inline void fill(tbb::concurrent_vector<u64>& records, u64 n) {
    vector<u64> block;
    for (u64 at = 0; at < n; at += block.size()) {
        block.resize(std::min<u64>(4096, n - at));
        for (u64 k = 0; k < block.size(); k++) block[k] = content_at(at + k);
        records.grow_by(block.begin(), block.end());
    }
}

template <class Iterator>
u64 find_by_reduce(Iterator begin, u64 n) {
    std::atomic<u64> least{n};
    tbb::parallel_for(tbb::blocked_range<u64>(0, n, GRAIN), [&](const tbb::blocked_range<u64>& part) {
        if (part.begin() > least.load(std::memory_order_relaxed)) return;
        auto end = begin + std::ptrdiff_t(part.end());
        auto found = std::find(begin + std::ptrdiff_t(part.begin()), end, SOUGHT);
        if (found == end) return;
        u64 place = u64(found - begin), known = least.load(std::memory_order_relaxed);
        while (place < known && !least.compare_exchange_weak(known, place)) {}
    });
    return least.load();
}

template <class Range>
u64 count_by_reduce(const Range& range) {
    auto count = [](const Range& part, u64 sum) { return sum + u64(std::count(part.begin(), part.end(), COUNTED)); };
    return tbb::parallel_reduce(range, u64(0), count, std::plus<u64>());
}

// The limit: threads sum an array, and the best of three walks counts.
inline Figures sum_by_threads(u64 n) {
    vector<u64> filled = filled_vector(n);
    const u64* records = filled.data();
    Figures figures;
    for (int threads : {1, 2, 4}) {
        double best = 1e9;
        for (int walk = 0; walk < 3; walk++) {
            std::atomic<u64> next{0}, total{0};
            best = std::min(best, race(threads, [&](int) {
                u64 sum = 0;
                for (u64 first; (first = next.fetch_add(GRAIN)) < n;)
                    for (u64 at = first, end = std::min(n, first + GRAIN); at < end; at++) sum += records[at];
                total += sum;
            }));
            sink_of_sums = total.load();
        }
        for (const char* work : {"search.count", "search.find-end"})
            figures.push_back({work, threads, double(n), best, {{"gb_per_s", double(n) * 8e-9 / best}}});
    }
    return figures;
}

inline void work_search() {
    const u64 n = options.quick ? 5000000 : 50000000;
    const vector<int> all = {1, 2, 4};
    // The containers and the ways to search them, each by a count and a find over the container's iterators.
    auto in_vector = [=](const vector<int>& threads, auto count, auto find) {
        vector<u64> records = filled_vector(n);
        return search(records, threads, [&] { return count(records); }, [&] { return find(records); });
    };
    auto in_tbb = [=](const vector<int>& threads, auto count, auto find) {
        tbb::concurrent_vector<u64> records;
        fill(records, n);
        return search(records, threads, [&] { return count(records); }, [&] { return find(records); });
    };
    auto count = [](auto& records) { return u64(std::count(records.cbegin(), records.cend(), COUNTED)); };
    auto find = [](auto& records) { return u64(std::find(records.cbegin(), records.cend(), SOUGHT) - records.cbegin()); };
    auto count_par = [](auto& records) { return u64(std::count(std::execution::par, records.cbegin(), records.cend(), COUNTED)); };
    auto find_par = [](auto& records) {
        return u64(std::find(std::execution::par, records.cbegin(), records.cend(), SOUGHT) - records.cbegin());
    };
    auto count_tbb = [](auto& records) { return count_by_reduce(records.range(GRAIN)); };
    auto count_array = [](auto& records) {
        return count_by_reduce(tbb::blocked_range<const u64*>(records.data(), records.data() + records.size(), GRAIN));
    };
    auto find_reduce = [](auto& records) { return find_by_reduce(records.cbegin(), records.size()); };
    vector<Job> jobs;
    jobs.push_back(job("std.sequential(vector)", [=] { return in_vector({1}, count, find); }));
    jobs.push_back(job("std.sequential(tbb)", [=] { return in_tbb({1}, count, find); }));
    jobs.push_back(job("tbb.reduce(tbb)", [=] { return in_tbb(all, count_tbb, find_reduce); }));
    jobs.push_back(job("tbb.reduce(array)", [=] { return in_vector(all, count_array, find_reduce); }));
    jobs.push_back(job("std.par(vector)", [=] { return in_vector(all, count_par, find_par); }));
    jobs.push_back(job("std.par(tbb)", [=] { return in_tbb(all, count_par, find_par); }));
    jobs.push_back(job("limit.sum(array)", [=] { return sum_by_threads(n); }));
    add_programs(jobs, {"search", word("block", 4096), word("n", n)});
    measure(4096, jobs);
}
