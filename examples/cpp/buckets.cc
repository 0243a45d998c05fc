// Four threads sort numbers into buckets, by the sum of their digits: a vector for each, which gets a file in the end.
#include <cstddef>
#include <cstdint>
#include <cstdio>
#include <cvec/concurrent_vector.hpp>
#include <string>
#include <thread>
#include <vector>

static std::size_t sum_of_digits(std::uint64_t number) {
    std::size_t sum = 0;
    for (; number != 0; number /= 10) sum += number % 10;
    return sum;
}

int main() {
    std::vector<cvec::concurrent_vector<std::uint64_t>> buckets(37);
    std::vector<std::thread> threads;
    for (std::uint64_t k = 0; k < 4; ++k)
        threads.emplace_back([&buckets, k] {
            for (std::uint64_t number = k; number < 10000; number += 4) buckets[sum_of_digits(number)].push_back(number);
        });
    for (std::thread &thread : threads) thread.join();
    for (std::size_t sum = 0; sum < buckets.size(); ++sum) std::printf("%zu: %zu numbers\n", sum, buckets[sum].size());
    for (std::size_t sum = 0; sum < buckets.size(); ++sum) buckets[sum].save("bucket" + std::to_string(sum) + ".cv");
}
