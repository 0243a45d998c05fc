// oneTBB's algorithms over the range of a vector, and growing it meanwhile: parallel FILE.
#include "told.hpp"

#include <oneapi/tbb/parallel_for.h>
#include <oneapi/tbb/parallel_reduce.h>

using numbers = cvec::concurrent_vector<std::uint64_t>;

int main(int argc, char **argv) {
    if (argc != 2) return 2;
    numbers vector(argv[1]);
    oneapi::tbb::parallel_for(std::uint64_t{0}, std::uint64_t{5000}, [&](std::uint64_t k) { vector.push_back(k); });
    HOLDS(vector.size() == 5000);
    const auto sum_of = [](const numbers::const_range_type &part, std::uint64_t sum) {
        for (std::uint64_t one : part) sum += one;
        return sum;
    };
    HOLDS(oneapi::tbb::parallel_reduce(vector.range(100), std::uint64_t{0}, sum_of, std::plus<>()) == 5000 * 4999 / 2);
    std::vector<std::atomic<int>> seen(5000);
    const auto note = [&](const numbers::const_range_type &part) {
        for (std::uint64_t one : part) ++seen[one];
    };
    oneapi::tbb::parallel_for(vector.range(), note, oneapi::tbb::static_partitioner());
    oneapi::tbb::affinity_partitioner again;
    oneapi::tbb::parallel_for(vector.range(), note, again);
    for (const auto &count : seen) HOLDS(count == 2);
    return wrong;
}
