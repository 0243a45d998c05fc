// Containers in memory: growth by threads, growth beside readers, reads, and what memory they take.
#pragma once

#include "harness.hpp"

#include <cstring>
#include <deque>
#include <memory>
#include <mutex>
#include <numeric>
#include <shared_mutex>

#include <sys/mman.h>

#include <oneapi/tbb/concurrent_vector.h>

using TbbVector = tbb::concurrent_vector<u64>;

// An array that is large enough, of pages that nobody has touched.
inline u64* map_records(u64 length) {
    void* map = mmap(nullptr, length * 8, PROT_READ | PROT_WRITE, MAP_PRIVATE | MAP_ANONYMOUS | MAP_NORESERVE, -1, 0);
    need(map != MAP_FAILED, "mmap");
    return static_cast<u64*>(map);
}

// ---- grow: threads append ready blocks of their own to one empty container, which has reserved nothing

struct GrownTbb {
    TbbVector records;
    explicit GrownTbb(u64) {}
    u64 size() { return records.size(); }
    u64 sum() { return std::accumulate(records.begin(), records.end(), u64(0)); }
};
struct TbbPushBack : GrownTbb {
    using GrownTbb::GrownTbb;
    void add(const u64* block, u64 length) {
        for (u64 k = 0; k < length; k++) records.push_back(block[k]);
    }
};
struct TbbRange : GrownTbb {
    using GrownTbb::GrownTbb;
    void add(const u64* block, u64 length) { records.grow_by(block, block + length); }
};
struct TbbCopy : GrownTbb {
    using GrownTbb::GrownTbb;
    void add(const u64* block, u64 length) { std::copy(block, block + length, records.grow_by(length)); }
};

template <class Container>
struct Locked {
    std::mutex lock;
    Container records;
    explicit Locked(u64) {}
    void add(const u64* block, u64 length) {
        std::lock_guard guard(lock);
        if (length == 1) records.push_back(*block);
        else records.insert(records.end(), block, block + length);
    }
    u64 size() { return records.size(); }
    u64 sum() { return std::accumulate(records.begin(), records.end(), u64(0)); }
};

// The limit: one fetch_add on a length, and a copy. Of touched pages the copy alone is timed; else also the page faults, which
// every container pays.
template <bool TOUCHED>
struct PlainCopies {
    u64* records;
    alignas(128) std::atomic<u64> length{0};
    explicit PlainCopies(u64 most) : records(map_records(most)) {
        if (TOUCHED)
            for (u64 at = 0; at < most; at += 512) records[at] = 1;
    }
    void add(const u64* block, u64 count) {
        u64 at = length.fetch_add(count, std::memory_order_relaxed);
        memcpy(records + at, block, count * 8);
    }
    u64 size() { return length.load(); }
    u64 sum() { return std::accumulate(records, records + length.load(), u64(0)); }
};

template <class Container>
Figures grow(int threads, u64 block, u64 n) {
    Container container(n);
    u64 growths = n / u64(threads) / block;
    vector<vector<u64>> blocks;
    u64 expected = 0;
    for (int thread = 0; thread < threads; thread++) {
        blocks.push_back(mixed(u64(thread) << 40, block));
        for (u64 record : blocks.back()) expected += record * growths;
    }
    double seconds = race(threads, [&](int thread) {
        const u64* ready = blocks[size_t(thread)].data();
        for (u64 k = 0; k < growths; k++) container.add(ready, block);
    });
    u64 total = growths * block * u64(threads);
    need(container.size() == total && container.sum() == expected, "grow: wrong content");
    return {{"grow", threads, double(total), seconds, {}}};
}

inline u64 grown_records() { return options.quick ? 1048576 : 8388608; }

inline void work_grow() {
    for (u64 block : {1, 16, 256, 4096, 65536}) {
        if (!wanted(options.blocks, block)) continue;
        // The program has room for 1,048,568 growths.
        u64 n = block > 1 ? grown_records() : options.quick ? 200000 : 1000000;
        for (int threads : {1, 2, 4}) {
            if (!wanted(options.threads, u64(threads))) continue;
            vector<Job> jobs;
            if (block == 1) jobs.push_back(job("tbb.push_back", [=] { return grow<TbbPushBack>(threads, block, n); }));
            jobs.push_back(job("tbb.grow_by(range)", [=] { return grow<TbbRange>(threads, block, n); }));
            jobs.push_back(job("tbb.grow_by(n)+copy", [=] { return grow<TbbCopy>(threads, block, n); }));
            jobs.push_back(job("mutex+vector", [=] { return grow<Locked<vector<u64>>>(threads, block, n); }));
            jobs.push_back(job("mutex+deque", [=] { return grow<Locked<std::deque<u64>>>(threads, block, n); }));
            jobs.push_back(job("limit.cold", [=] { return grow<PlainCopies<false>>(threads, block, n); }));
            jobs.push_back(job("limit.warm", [=] { return grow<PlainCopies<true>>(threads, block, n); }));
            for (const char* work : {"grow", "grow-in-place"})
                add_programs(jobs, {work, word("threads", u64(threads)), word("block", block), word("n", n)});
            measure(block, jobs);
        }
    }
}

// ---- append: single records, gathered into blocks by each thread. No container here does that, so programs alone are run.
inline void work_append() {
    const u64 block = 1024;
    if (!wanted(options.blocks, block)) return;
    for (u64 threads : {1, 2, 4}) {
        if (!wanted(options.threads, threads)) continue;
        vector<Job> jobs;
        add_programs(jobs, {"append", word("threads", threads), word("block", block), word("n", grown_records())});
        measure(block, jobs);
    }
}

// ---- beside: one thread grows, while others sum all that they know of, again and again

struct BesideTbb {
    TbbVector records;
    // The caller's own publication, possible with one grower only: size() of oneTBB counts elements that aren't filled yet.
    alignas(128) std::atomic<u64> known{0};
    void add(const u64* block, u64 length) {
        records.grow_by(block, block + length);
        known.store(records.size(), std::memory_order_release);
    }
    u64 sum(u64& total) {
        u64 length = known.load(std::memory_order_acquire);
        auto record = records.cbegin();
        for (u64 k = 0; k < length; k++, ++record) total += *record;
        return length;
    }
};

template <class Lock, template <class> class ReadGuard, class Container>
struct BesideLocked {
    Lock lock;
    Container records;
    void add(const u64* block, u64 length) {
        std::lock_guard guard(lock);
        records.insert(records.end(), block, block + length);
    }
    u64 sum(u64& total) {
        ReadGuard<Lock> guard(lock);
        for (u64 record : records) total += record;
        return records.size();
    }
};

struct BesidePlain {
    u64* records = map_records(u64(1) << 27);
    alignas(128) std::atomic<u64> known{0};
    void add(const u64* block, u64 length) {
        u64 at = known.load(std::memory_order_relaxed);
        memcpy(records + at, block, length * 8);
        known.store(at + length, std::memory_order_release);
    }
    u64 sum(u64& total) {
        u64 length = known.load(std::memory_order_acquire);
        for (u64 k = 0; k < length; k++) total += records[k];
        return length;
    }
};

// Ends after so many seconds at most: a lock that favours readers may keep the grower out for ever.
template <class Container>
Figures beside(int readers, u64 block, u64 preload, u64 n, double most_seconds) {
    auto container = std::make_unique<Container>();
    vector<u64> ready = mixed(0, block);
    for (u64 at = 0; at < preload; at += block) container->add(ready.data(), block);
    std::atomic<bool> stop{false};
    std::atomic<u64> summed{0};
    u64 grown = 0;
    double growing = 0;
    double seconds = race(readers + 1, [&](int thread) {
        double start = now();
        if (thread == 0) {
            for (u64 k = 0; grown < n; k++) {
                container->add(ready.data(), block);
                grown += block;
                if ((k & 15) == 0 && now() - start > most_seconds) break;
            }
            growing = now() - start;
            stop.store(true);
        } else {
            u64 total = 0, visited = 0;
            while (!stop.load(std::memory_order_relaxed) && now() - start < most_seconds) visited += container->sum(total);
            sink_of_sums = total;
            summed += visited;
        }
    });
    return {{"beside.grow", readers, double(grown), growing, {}}, {"beside.sum", readers, double(summed.load()), seconds, {}}};
}

inline void work_beside() {
    using MutexVector = BesideLocked<std::mutex, std::lock_guard, vector<u64>>;
    using SharedMutexVector = BesideLocked<std::shared_mutex, std::shared_lock, vector<u64>>;
    using MutexDeque = BesideLocked<std::mutex, std::lock_guard, std::deque<u64>>;
    const u64 block = 256, preload = 1048576, n = options.quick ? 2097152 : 16777216, most_ms = options.quick ? 150 : 300;
    const double most = double(most_ms) * 1e-3;
    for (int readers : {1, 2, 3}) {
        vector<Job> jobs;
        jobs.push_back(job("tbb", [=] { return beside<BesideTbb>(readers, block, preload, n, most); }));
        jobs.push_back(job("mutex+vector", [=] { return beside<MutexVector>(readers, block, preload, n, most); }));
        jobs.push_back(job("shared_mutex+vector", [=] { return beside<SharedMutexVector>(readers, block, preload, n, most); }));
        jobs.push_back(job("mutex+deque", [=] { return beside<MutexDeque>(readers, block, preload, n, most); }));
        jobs.push_back(job("limit", [=] { return beside<BesidePlain>(readers, block, preload, n, most); }));
        for (const char* work : {"beside", "beside-pieces"})
            add_programs(jobs, {work, word("threads", u64(readers)), word("block", block), word("preload", preload), word("n", n),
                                word("cap_ms", most_ms)});
        measure(block, jobs);
    }
}

// ---- read: a sum in order, reads at random, and reads each at a place that the record before it gives

template <class Container>
Figures read_all(const string& work, const Container& records, u64 draws) {
    Figures figures;
    u64 n = records.size();
    {
        double start = now();
        u64 total = 0;
        for (auto record = records.begin(), end = records.end(); record != end; ++record) total += *record;
        figures.push_back({work + ".seq", 1, double(n), now() - start, {}});
        sink_of_sums = total;
    }
    for (int threads : {1, 2, 4}) {
        double seconds = race(threads, [&](int thread) {
            u64 total = 0, first = u64(thread) << 32;
            for (u64 k = 0; k < draws; k++) total += records[below(mix(first + k), n)];
            sink_of_sums = total;
        });
        figures.push_back({work + ".random", threads, double(draws) * threads, seconds, {}});
    }
    {
        u64 reads = draws / 4;
        double start = now();
        u64 record = 1;
        for (u64 k = 0; k < reads; k++) record = records[below(mix(record ^ k), n)];
        figures.push_back({work + ".random-dependent", 1, double(reads), now() - start, {}});
        sink_of_sums = record;
    }
    return figures;
}

template <class Container>
void add_block(Container& records, const vector<u64>& block) {
    if constexpr (requires { records.grow_by(1); })
        records.grow_by(block.begin(), block.end());
    else
        records.insert(records.end(), block.begin(), block.end());
}

template <class Container>
Figures read_filled(u64 block, u64 n, u64 draws) {
    Container records;
    for (u64 at = 0; at < n; at += block) add_block(records, mixed(at, std::min(block, n - at)));
    return read_all("read", records, draws);
}

// Filled by so many threads at once; a plain array, which has no such growth, by one.
template <class Container>
Figures read_mixed(int growers, u64 block, u64 n, u64 draws) {
    Container records;
    std::mutex one;
    race(growers, [&](int thread) {
        for (u64 at = 0; at + block <= n / u64(growers); at += block) {
            vector<u64> ready = mixed(u64(thread) << 40 | at, block);
            std::unique_lock<std::mutex> guard(one, std::defer_lock);
            if constexpr (!requires { records.grow_by(1); }) guard.lock();
            add_block(records, ready);
        }
    });
    return read_all("read-mixed", records, draws);
}

inline void work_read() {
    const u64 n = options.quick ? 2000000 : 10000000, draws = options.quick ? 500000 : 2000000;
    for (u64 block : {16, 256, 4096}) {
        if (!wanted(options.blocks, block)) continue;
        vector<Job> jobs, mixed_jobs;
        jobs.push_back(job("tbb", [=] { return read_filled<TbbVector>(block, n, draws); }));
        jobs.push_back(job("deque", [=] { return read_filled<std::deque<u64>>(block, n, draws); }));
        jobs.push_back(job("limit.vector", [=] { return read_filled<vector<u64>>(block, n, draws); }));
        add_programs(jobs, {"read", word("block", block), word("n", n), word("draws", draws)});
        measure(block, jobs);
        mixed_jobs.push_back(job("tbb", [=] { return read_mixed<TbbVector>(4, block, n, draws); }));
        mixed_jobs.push_back(job("limit.vector", [=] { return read_mixed<vector<u64>>(4, block, n, draws); }));
        add_programs(mixed_jobs, {"read-mixed", "growers=4", word("block", block), word("n", n), word("draws", draws)});
        measure(block, mixed_jobs);
    }
}

// ---- memory: what one thread's growths take, in resident bytes

inline double status_bytes(const char* name) {
    FILE* file = fopen("/proc/self/status", "r");
    need(file, "status");
    char line[256];
    double bytes = 0;
    while (fgets(line, sizeof line, file))
        if (!strncmp(line, name, strlen(name))) bytes = 1024 * strtod(line + strlen(name) + 1, nullptr);
    fclose(file);
    return bytes;
}

template <class Container>
Figures memory(u64 block, u64 n) {
    vector<u64> ready = mixed(0, block);
    double before = status_bytes("RssAnon"), start = now();
    Container records;
    for (u64 at = 0; at + block <= n; at += block) {
        if (block == 1) records.push_back(ready[0]);
        else add_block(records, ready);
    }
    double seconds = now() - start, after = status_bytes("RssAnon");
    double peak = status_bytes("VmHWM") - status_bytes("RssFile") - status_bytes("RssShmem"), grown = double(records.size());
    Figure figure{"memory", 1, grown, seconds, {}};
    figure.more["bytes_per_record"] = (after - before) / grown;
    figure.more["peak_bytes_per_record"] = (peak - before) / grown;
    return {figure};
}

inline void work_memory() {
    for (auto [block, most] : {std::pair<u64, u64>{1, 1000000}, {1, 10000000}, {4096, 10000000}}) {
        if (!wanted(options.blocks, block)) continue;
        u64 length = block, n = options.quick ? std::min<u64>(most, 2000000) : most;
        vector<Job> jobs;
        jobs.push_back(job("tbb", [=] { return memory<TbbVector>(length, n); }));
        jobs.push_back(job("vector", [=] { return memory<vector<u64>>(length, n); }));
        jobs.push_back(job("deque", [=] { return memory<std::deque<u64>>(length, n); }));
        add_programs(jobs, {"memory", word("block", length), word("n", n)});
        measure(length, jobs);
    }
}
