// Eight sensors put samples into one file, until the program is killed: samples FILE. Begun again, each sensor goes on behind
// the last of its samples that is there.
#include <cvec/concurrent_vector.hpp>

#include <cmath>
#include <cstdio>
#include <exception>

struct sample {
    std::uint64_t sensor, number;
    double value;
};

constexpr std::uint64_t sensors = 8;

// A hundred samples are one growth. Once settle returns, no stop of the process or of the system takes them.
static void measure(cvec::concurrent_vector<sample> &samples, std::uint64_t sensor, std::uint64_t number) {
    cvec::appender<sample> mine(samples, 100);
    for (;; ++number) {
        mine.emplace_back(sensor, number, std::sin(static_cast<double>(number)));
        if (number % 100 == 99) mine.settle();
    }
}

// Does this in so many threads. What one of them throws first is thrown here, once all have ended.
template <class Work> static void in_threads(std::size_t count, const Work &work) {
    std::mutex mutex;
    std::exception_ptr first;
    std::vector<std::thread> threads;
    for (std::size_t k = 0; k < count; ++k)
        threads.emplace_back([&, k] {
            try {
                work(k);
            } catch (...) {
                const std::lock_guard<std::mutex> lock(mutex);
                if (!first) first = std::current_exception();
            }
        });
    for (std::thread &thread : threads) thread.join();
    if (first) std::rethrow_exception(first);
}

int main(int argc, char **argv) {
    if (argc != 2) return 2;
    try {
        cvec::concurrent_vector<sample> samples(argv[1]);
        std::vector<std::uint64_t> next(sensors, 0);
        for (const sample &one : samples) next.at(one.sensor) = one.number + 1;
        std::printf("found %zu samples:", samples.size());
        for (const std::uint64_t count : next) std::printf(" %llu", static_cast<unsigned long long>(count));
        std::printf("\n");
        std::fflush(stdout);
        in_threads(sensors, [&](std::size_t k) { measure(samples, k, next[k]); });
    } catch (const std::exception &refusal) {
        std::fprintf(stderr, "%s\n", refusal.what());
        return 1;
    }
}
