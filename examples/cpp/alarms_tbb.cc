// Four threads measure, and each keeps where its samples stand that are too high: there they are read in the end.
#include <algorithm>
#include <cstdint>
#include <cstdio>
#include <oneapi/tbb/concurrent_vector.h>
#include <thread>
#include <vector>

struct sample {
    std::uint64_t second, value;
};

static std::uint64_t measured(std::uint64_t second) { return second * second % 9973; }

int main() {
    tbb::concurrent_vector<sample> samples;
    std::vector<std::vector<const sample *>> high(4);
    std::vector<std::thread> threads;
    for (std::uint64_t k = 0; k < 4; ++k)
        threads.emplace_back([&samples, &mine = high[k], k] {
            for (std::uint64_t second = k; second < 10000; second += 4) {
                const auto row = samples.push_back({second, measured(second)});
                if (row->value > 9966) mine.push_back(&*row);
            }
        });
    for (std::thread &thread : threads) thread.join();
    std::vector<const sample *> alarms;
    for (const auto &some : high) alarms.insert(alarms.end(), some.begin(), some.end());
    std::sort(alarms.begin(), alarms.end(), [](const sample *a, const sample *b) { return a->second < b->second; });
    for (const sample *one : alarms)
        std::printf("second %llu: %llu\n", static_cast<unsigned long long>(one->second), static_cast<unsigned long long>(one->value));
    std::printf("%zu samples\n", samples.size());
}
