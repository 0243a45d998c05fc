// Grows a vector by threads until it is killed, and prints of each growth that is settled its thread, its turn and its place:
// writer FILE ROUND THREADS TURNS. The blocks are those of tests/bindings/vector_blocks.py.
#include <cvec/concurrent_vector.hpp>

#include <cstdio>
#include <unistd.h>

using numbers = cvec::concurrent_vector<std::uint64_t>;

static std::vector<std::uint64_t> block(std::uint64_t round, std::uint64_t name, std::uint64_t turn) {
    const std::uint64_t length = 1 + (name * 7 + turn * 13 + round * 29) % 60;
    std::vector<std::uint64_t> records(length, round << 48 | name << 40 | turn << 8 | length);
    for (std::uint64_t at = 1; at < length; ++at) records[at] = records[0] * 31 + at;
    return records;
}

// Every third growth is waited for, and each that is durable then is told, by one call of the system. Growths are made by each
// call in turn.
static void run(numbers &vector, std::uint64_t round, std::uint64_t name, std::uint64_t turns) {
    std::string untold;
    for (std::uint64_t turn = 0; turn < turns; ++turn) {
        const auto records = block(round, name, turn);
        const std::size_t first = records.size() == 1 ? vector.push_back(records[0]).position()
                                  : turn % 2 == 0     ? vector.grow_by(records.begin(), records.end()).position()
                                                      : vector.append(records.begin(), records.end()).first;
        untold += std::to_string(name) + ' ' + std::to_string(turn) + ' ' + std::to_string(first) + '\n';
        if (turn % 3 != 2 && turn + 1 != turns) continue;
        vector.settle();
        if (::write(1, untold.data(), untold.size()) != static_cast<ssize_t>(untold.size())) std::exit(1);
        untold.clear();
    }
}

int main(int argc, char **argv) {
    if (argc != 5) return 2;
    try {
        numbers vector(argv[1]);
        const std::uint64_t round = std::stoull(argv[2]), count = std::stoull(argv[3]), turns = std::stoull(argv[4]);
        std::vector<std::thread> threads;
        for (std::uint64_t name = 0; name < count; ++name)
            threads.emplace_back([&vector, round, name, turns] { run(vector, round, name, turns); });
        for (auto &thread : threads) thread.join();
        vector.close();
    } catch (const cvec::error &refusal) {
        std::fprintf(stderr, "%s\n", refusal.what());
        return 1;
    }
}
