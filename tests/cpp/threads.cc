// Threads grow one vector of rows, and others read it at once: threads FILE THREADS MILLISECONDS READERS. Each row says who grew it, which of
// that thread's it is, and both mixed into one number, by which a torn row is known. A line of standard output says how many
// rows of a thread are durable. The status is 0 where no reader has seen a row that is torn, out of its turn, or gone.
#include "cvec/concurrent_vector.hpp"

#include <cinttypes>
#include <cstdio>
#include <unistd.h>

struct row {
    std::uint64_t thread, turn, mixed;
};

using rows = cvec::concurrent_vector<row>;

static constexpr std::uint64_t factor = 0x9e3779b97f4a7c15;

static std::atomic<bool> is_over{false}, is_wrong{false};

static std::uint64_t mixed(std::uint64_t thread, std::uint64_t turn) { return (thread * 1000003 + turn + 1) * factor; }

static row row_of(std::uint64_t thread, std::uint64_t turn) { return {thread, turn, mixed(thread, turn)}; }

static void expect(bool claim, const char *text) {
    if (claim) return;
    is_wrong = true;
    std::fprintf(stderr, "not so: %s\n", text);
}

static void say_durable(std::uint64_t thread, std::uint64_t turns) {
    char line[64];
    const int length = std::snprintf(line, sizeof line, "durable %" PRIu64 " %" PRIu64 " end\n", thread, turns);
    // One call of the system writes a whole line.
    expect(::write(1, line, static_cast<std::size_t>(length)) == length, "a line is written");
}

// Grows in each way that there is, and answers the next turn.
static std::uint64_t grow(rows &vector, cvec::appender<row> &gathered, std::uint64_t thread, std::uint64_t turn) {
    switch (turn % 4) {
    case 0: expect(vector.push_back(row_of(thread, turn))->turn == turn, "a row stands where it was pushed"); return turn + 1;
    case 1: {
        const std::vector<row> block = {row_of(thread, turn), row_of(thread, turn + 1), row_of(thread, turn + 2)};
        const auto first = vector.grow_by(block.begin(), block.end());
        for (std::uint64_t k = 0; k < 3; ++k)
            expect(first[static_cast<std::ptrdiff_t>(k)].mixed == mixed(thread, turn + k), "a block stands in a row");
        return turn + 3;
    }
    default:
        for (std::uint64_t k = 0; k < 10; ++k) gathered.push_back(row_of(thread, turn + k));
        gathered.flush();
        return turn + 10;
    }
}

static void work(rows &vector, std::uint64_t thread) {
    cvec::appender<row> gathered(vector, 4);
    std::uint64_t turn = 0, round = 0;
    while (!is_over && !is_wrong) {
        turn = grow(vector, gathered, thread, turn);
        if (++round % 5 == 0) {
            vector.settle();
            say_durable(thread, turn);
        }
    }
}

// Goes through all rows from where it was.
static void read(const rows &vector, std::size_t threads) {
    std::vector<std::uint64_t> next(threads, 0);
    for (auto at = vector.begin(); !is_over && !is_wrong;) {
        const auto end = vector.end();
        for (; at != end; ++at) {
            const row found = *at;
            expect(found.thread < threads && found.mixed == mixed(found.thread, found.turn), "a row is whole");
            if (is_wrong) return;
            expect(found.turn == next[found.thread]++, "a thread's rows come in order");
        }
        if (at.position() > 0) expect(vector[at.position() / 2].mixed != 0, "a row is there");
    }
}

int main(int argc, char **argv) {
    if (argc != 5) return 2;
    const std::size_t threads = std::stoul(argv[2]), readers = std::stoul(argv[4]);
    {
        rows vector(argv[1]);
        std::vector<std::thread> all;
        for (std::size_t k = 0; k < threads; ++k) all.emplace_back([&vector, k] { work(vector, k); });
        for (std::size_t k = 0; k < readers; ++k) all.emplace_back([&vector, threads] { read(vector, threads); });
        std::this_thread::sleep_for(std::chrono::milliseconds(std::stoul(argv[3])));
        is_over = true;
        for (auto &one : all) one.join();
        vector.close();
    }
    return is_wrong ? 1 : 0;
}
