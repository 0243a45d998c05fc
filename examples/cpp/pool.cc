// A pool of threads that finds how many steps each number takes to come to 1 (halved where it is even, else tripled and one more):
// pool RESULTS COUNT. Each result is durable within a hundred of its thread's. Begun again, it does what isn't there.
#include <cvec/concurrent_vector.hpp>

#include <exception>
#include <iostream>

struct result {
    std::uint64_t number, steps;
};

using results_of = cvec::concurrent_vector<result>;

static std::uint64_t steps_of(std::uint64_t number) {
    std::uint64_t steps = 0;
    for (; number != 1; ++steps) number = number % 2 == 0 ? number / 2 : 3 * number + 1;
    return steps;
}

// Takes the next number that isn't done, until there is none.
static void work(results_of &results, const std::vector<bool> &done, std::atomic<std::uint64_t> &next) {
    std::uint64_t mine = 0;
    for (std::uint64_t number = next++; number < done.size(); number = next++) {
        if (done[number]) continue;
        results.push_back({number, steps_of(number)});
        if (++mine % 100 == 0) results.settle();
    }
}

// Does this in so many threads. What one of them throws first is thrown here, once all have ended.
template <class Work> static void in_threads(std::size_t count, const Work &work) {
    std::mutex mutex;
    std::exception_ptr first;
    std::vector<std::thread> threads;
    for (std::size_t k = 0; k < count; ++k)
        threads.emplace_back([&, k] {
            try {
                work(k);
            } catch (...) {
                const std::lock_guard<std::mutex> lock(mutex);
                if (!first) first = std::current_exception();
            }
        });
    for (std::thread &thread : threads) thread.join();
    if (first) std::rethrow_exception(first);
}

int main(int argc, char **argv) {
    if (argc != 3) return 2;
    try {
        results_of results(argv[1]);
        std::vector<bool> done(std::stoull(argv[2]) + 1, false);
        for (const result &one : results)
            if (one.number < done.size()) done[one.number] = true;
        std::cout << "found " << results.size() << " results" << std::endl;
        std::atomic<std::uint64_t> next{1};
        in_threads(4, [&](std::size_t) { work(results, done, next); });
        results.settle();
        std::uint64_t sum = 0;
        for (const result &one : results) sum += one.steps;
        std::cout << results.size() << " results, " << sum << " steps in all\n";
        results.close();
    } catch (const std::exception &refusal) {
        std::cerr << refusal.what() << "\n";
        return 1;
    }
}
