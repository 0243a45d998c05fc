// Four threads look for primes.
#include <cstdint>
#include <cstdio>
#include <cvec/concurrent_vector.hpp>
#include <thread>
#include <vector>

static bool is_prime(std::uint64_t number) {
    for (std::uint64_t divisor = 2; divisor * divisor <= number; ++divisor)
        if (number % divisor == 0) return false;
    return number > 1;
}

int main() {
    cvec::concurrent_vector<std::uint64_t> primes("primes.cv");
    std::vector<std::thread> threads;
    for (std::uint64_t k = 0; k < 4; ++k)
        threads.emplace_back([&primes, k] {
            for (std::uint64_t number = k; number < 100000; number += 4)
                if (is_prime(number)) primes.push_back(number);
        });
    for (std::thread &thread : threads) thread.join();
    std::uint64_t sum = 0;
    for (std::uint64_t prime : primes) sum += prime;
    std::printf("%zu primes, whose sum is %llu\n", primes.size(), static_cast<unsigned long long>(sum));
}
