// Works of the bench by threads of one C++ process on `cvec::concurrent_vector`.
//
//     native WORK name=value ..
//
// One flat line of JSON is written for each figure. What was grown and what was read is compared before: number and sum of the
// records. Status 1: standard error says why there is no figure. 3: no such work, or a size is missing, or 0 of threads or a
// block, or there would be more growths than an open vector takes.
//
//     grow threads= block= n=                             each thread grows by copies of a ready block of its own
//     grow-in-place threads= block= n=                    the same, but copies it where it will stand (`grow_with`)
//     append threads= block= n=                           single records, each through an appender of a block
//     beside threads= block= preload= n= cap_ms=          threads sum a vector again and again while one more grows it
//     beside-pieces, with the same sizes                  the same, where they sum piece by piece and not by iterators
//     read block= n= draws=                               a sum by iterators, and by pieces; reads at random by `[]`, by a view,
//                                                         and 32 at once by its `visit`; and each where the last one says
//     read-mixed growers= block= n= draws=                the same of a vector that so many threads have grown at once
//     memory block= n=                                    what memory one thread's growths take
//     durable dir= mode= threads= block= n= box_ms=       wait1, wait64: each waits after 1 or 64 blocks; flow: nobody waits
//                                                         before the end, and one more thread commits meanwhile
//     open-build dir= block= n=                           a vector's file is left in the folder
//     open-read dir= n= work=                             it is opened; work names the figure
//
// A figure of one way among several to do a work names it. Each vector has a file: in the folder, or among the temporary files.
// That what was grown reaches it is timed by `durable`.
#include "cvec/concurrent_vector.hpp"

#include <algorithm>
#include <atomic>
#include <chrono>
#include <cstdint>
#include <cstdio>
#include <cstdlib>
#include <exception>
#include <filesystem>
#include <fstream>
#include <functional>
#include <map>
#include <numeric>
#include <stdexcept>
#include <string>
#include <system_error>
#include <thread>
#include <unistd.h>
#include <utility>
#include <vector>

namespace {

using u64 = std::uint64_t;
using Clock = std::chrono::steady_clock;
using Vector = cvec::concurrent_vector<u64>;

// An open vector takes so many growths, and is opened again behind them.
constexpr u64 most_growths = 536870904;

std::map<std::string, std::string> words;

const std::string &word(const std::string &name) {
    auto found = words.find(name);
    if (found == words.end()) throw std::invalid_argument("a size is missing: " + name);
    return found->second;
}

u64 number(const std::string &name) { return std::strtoull(word(name).c_str(), nullptr, 10); }

// Of threads, and of a block.
u64 some(const std::string &name) {
    u64 found = number(name);
    if (found == 0) throw std::invalid_argument("a size is 0: " + name);
    return found;
}

// So many records by growths of a block, without an opening in their midst.
u64 growths_of(u64 records, u64 block) {
    u64 growths = (records + block - 1) / block;
    if (growths > most_growths) throw std::invalid_argument("more growths than an open vector takes");
    return growths;
}

// ---- numbers without a pattern, the same in each run

// For each number another one (splitmix64).
u64 mix(u64 number) {
    number += 0x9e3779b97f4a7c15;
    number = (number ^ number >> 30) * 0xbf58476d1ce4e5b9;
    number = (number ^ number >> 27) * 0x94d049bb133111eb;
    return number ^ number >> 31;
}

__extension__ using Wide = unsigned __int128;

// A place below `end` for a number of mix.
u64 below(u64 number, u64 end) { return u64(Wide(number) * end >> 64); }

u64 sum_of_mixed(u64 count) {
    u64 sum = 0;
    for (u64 place = 0; place < count; place++) sum += mix(place);
    return sum;
}

// Records without a pattern, unlike those of another thread.
std::vector<u64> block_of(u64 thread, u64 length) {
    std::vector<u64> records;
    u64 state = thread << 40;
    for (u64 k = 0; k < length; k++) {
        state = state * 6364136223846793005 + 1442695040888963407;
        records.push_back(state ^ state >> 29);
    }
    return records;
}

u64 sum_of(const u64 *records, std::size_t count) {
    u64 sum = 0;
    for (std::size_t k = 0; k < count; k++) sum += records[k];
    return sum;
}

// ---- a vector, and threads

void require(bool holds, const char *what) {
    if (!holds) throw std::runtime_error(what);
}

void expect(const Vector &vector, u64 count, u64 sum) {
    u64 length = vector.size(), found = std::accumulate(vector.begin(), vector.end(), u64(0));
    require(length == count && found == sum, "the vector hasn't what was grown");
}

// A new file in the folder, which goes with it.
class Made {
  public:
    explicit Made(unsigned threads) : path_(path_of_file()), vector_(path_, wanted(threads)) {}
    // Where the work was refused the close is too, as on a full disk.
    ~Made() {
        try {
            vector_.close();
        } catch (...) {
        }
        std::error_code unasked;
        std::filesystem::remove(path_, unasked);
    }
    Vector &vector() { return vector_; }

    // And closes it: what was grown is a figure only where the file takes it.
    void compare(u64 count, u64 sum) {
        expect(vector_, count, sum);
        vector_.close();
    }

  private:
    static std::string path_of_file() {
        auto folder = words.count("dir") ? std::filesystem::path(word("dir")) : std::filesystem::temp_directory_path();
        auto path = folder / ("native-" + std::to_string(getpid()) + ".cvec");
        std::filesystem::remove(path);
        return path;
    }

    static cvec::options wanted(unsigned threads) {
        cvec::options options;
        options.seats = std::uint16_t(threads + 2);
        return options;
    }

    std::string path_;
    Vector vector_;
};

// Has each thread do this, none before all are there. The seconds until the last one was done, or until this was.
template <class Work, class End>
double race(unsigned threads, Work work, End end) {
    std::atomic<unsigned> there{0};
    std::exception_ptr fault;
    std::atomic<bool> failed{false};
    std::vector<std::thread> running;
    std::vector<Clock::time_point> begun(threads), ended(threads);
    for (unsigned thread = 0; thread < threads; thread++)
        running.emplace_back([&, thread] {
            there.fetch_add(1);
            while (there.load() < threads) std::this_thread::yield();
            begun[thread] = Clock::now();
            try {
                work(thread);
            } catch (...) {
                if (!failed.exchange(true)) fault = std::current_exception();
            }
            ended[thread] = Clock::now();
        });
    for (auto &it : running) it.join();
    if (fault) std::rethrow_exception(fault);
    auto first = *std::min_element(begun.begin(), begun.end()), last = *std::max_element(ended.begin(), ended.end());
    if (end()) last = Clock::now();
    return std::chrono::duration<double>(last - first).count();
}

double seconds_since(Clock::time_point begun) { return std::chrono::duration<double>(Clock::now() - begun).count(); }

// The lines of a work's figures, which are printed where all of it was right.
std::string figures;

void tell(const std::string &work, u64 threads, u64 n, double seconds, const std::string &rest = "") {
    char times[80];
    std::snprintf(times, sizeof times, "\"threads\":%llu,\"n\":%llu,\"seconds\":%.9f", (unsigned long long)threads,
                  (unsigned long long)n, seconds);
    figures += "{\"work\":\"" + work + "\"," + times + rest + "}\n";
}

// One way among several to do the work.
std::string by(const std::string &way) { return ",\"way\":\"" + way + "\""; }

bool nothing() { return false; }

// ---- growth

// Grows by a copy of the block.
using Grow = void (*)(Vector &, const std::vector<u64> &);

void grow_by_copy(Vector &vector, const std::vector<u64> &block) { vector.append(block.begin(), block.end()); }

void grow_in_place(Vector &vector, const std::vector<u64> &block) {
    vector.grow_with(block.size(), [&](auto &rows) { std::copy(block.begin(), block.end(), rows.begin()); });
}

void grow(Grow grow_once, const std::string &rest) {
    unsigned threads = unsigned(some("threads"));
    u64 block = some("block"), growths = number("n") / threads / block, sum = 0;
    std::vector<std::vector<u64>> blocks;
    for (unsigned thread = 0; thread < threads; thread++) {
        blocks.push_back(block_of(thread, block));
        sum += growths * sum_of(blocks.back().data(), block);
    }
    Made made(threads);
    double seconds = race(threads, [&](unsigned thread) {
        const std::vector<u64> &ready = blocks[thread];
        for (u64 k = 0; k < growths; k++) grow_once(made.vector(), ready);
    }, nothing);
    made.compare(growths * block * threads, sum);
    tell("grow", threads, growths * block * threads, seconds, rest);
}

void append() {
    unsigned threads = unsigned(some("threads"));
    u64 block = some("block"), each = number("n") / threads, sum = 0;
    for (u64 thread = 0; thread < threads; thread++) sum += each * (thread << 40) + each * (each - 1) / 2;
    Made made(threads);
    double seconds = race(threads, [&](unsigned thread) {
        cvec::appender<u64> appender(made.vector(), block);
        for (u64 k = 0; k < each; k++) appender.push_back((u64(thread) << 40) + k);
        appender.flush();
    }, nothing);
    made.compare(each * threads, sum);
    tell("append", threads, each * threads, seconds);
}

// ---- reading

// What the threads of `beside` share. The time is over for all of them at once.
class Course {
  public:
    Course(Vector &vector, u64 block, bool sums_pieces)
        : vector_(vector), ready_(block_of(0, block)), block_(block), sums_pieces_(sums_pieces) {
        sum_of_block_ = sum_of(ready_.data(), block);
    }

    void grow(u64 growths) {
        for (u64 k = 0; k < growths; k++) grow_once();
    }

    // As many growths as there are in the time. The clock is looked at now and then.
    void grow_within(u64 growths, std::chrono::milliseconds most) {
        auto begun = Clock::now();
        for (u64 k = 0; k < growths && (k % 16 != 1 || Clock::now() - begun < most); k++) grow_once();
        seconds = seconds_since(begun);
        ended_.store(true);
    }

    // Sums all that there is, again and again.
    void sum_until_end(std::chrono::milliseconds most) {
        u64 records = 0;
        for (auto begun = Clock::now(); !ended_.load() && Clock::now() - begun < most;) records += sum_once();
        summed += records;
    }

    void compare(Made &made) const { made.compare(grown * block_, grown * sum_of_block_); }

    u64 grown = 0;
    double seconds = 0; // of the growths in the time
    std::atomic<u64> summed{0};

  private:
    void grow_once() {
        vector_.append(ready_.begin(), ready_.end());
        grown++;
    }

    u64 sum_once() const {
        auto end = vector_.end();
        u64 found = 0, length = end.position();
        if (sums_pieces_)
            vector_.for_each_piece(0, length, [&](const auto &rows) { found += sum_of(rows.data(), rows.size()); });
        else
            found = std::accumulate(vector_.begin(), end, u64(0));
        require(length % block_ == 0 && found == length / block_ * sum_of_block_, "a reader hasn't whole growths");
        return length;
    }

    Vector &vector_;
    const std::vector<u64> ready_;
    const u64 block_;
    const bool sums_pieces_;
    u64 sum_of_block_;
    std::atomic<bool> ended_{false};
};

void beside(bool sums_pieces, const std::string &rest) {
    unsigned readers = unsigned(some("threads"));
    u64 block = some("block"), before = number("preload") / block, growths = number("n") / block;
    growths_of((before + growths) * block, block);
    auto most = std::chrono::milliseconds(number("cap_ms"));
    Made made(readers);
    Course course(made.vector(), block, sums_pieces);
    course.grow(before);
    double seconds = race(readers + 1, [&](unsigned thread) {
        if (thread == 0) course.grow_within(growths, most);
        else course.sum_until_end(most);
    }, nothing);
    course.compare(made);
    tell("beside.grow", readers, (course.grown - before) * block, course.seconds, rest);
    tell("beside.sum", readers, course.summed, seconds, rest);
}

// Growths whose record at a place is `mix` of it.
void fill(Vector &vector, u64 block, u64 n) {
    u64 growths = growths_of(n, block);
    std::vector<u64> records;
    for (u64 k = 0; k < growths; k++) {
        records.clear();
        for (u64 place = k * block; place < std::min(n, (k + 1) * block); place++) records.push_back(mix(place));
        vector.append(records.begin(), records.end());
    }
}

// The records of places, whatever the order in which threads grew: each thread's own.
void fill_by(Vector &vector, unsigned threads, u64 block, u64 n) {
    race(threads, [&](unsigned thread) {
        std::vector<u64> records(block);
        for (u64 k = 0; k < n / threads / block; k++) {
            for (u64 at = 0; at < block; at++) records[at] = mix(u64(thread) << 40 | (k * block + at));
            vector.append(records.begin(), records.end());
        }
    }, nothing);
}

// A copy of all records, call by call.
std::vector<u64> copies_of(const Vector &vector) {
    std::vector<u64> found(vector.size());
    for (u64 place = 0; place < found.size(); place++) found[place] = vector.copy(place);
    return found;
}

// By iterators; then piece by piece. What is lent is learned of before.
void read_in_order(const std::string &work, const Vector &vector, u64 n, u64 expected) {
    auto learning = Clock::now();
    u64 length = vector.end().position();
    tell(work + ".learn", 1, n, seconds_since(learning));
    auto begun = Clock::now();
    u64 sum = std::accumulate(vector.begin(), vector.end(), u64(0));
    double seconds = seconds_since(begun);
    require(sum == expected && length == n, "wrong records in order");
    tell(work + ".seq", 1, n, seconds);
    begun = Clock::now();
    sum = 0;
    vector.for_each_piece([&](const auto &rows) { sum += sum_of(rows.data(), rows.size()); });
    seconds = seconds_since(begun);
    require(sum == expected, "wrong records by pieces");
    tell(work + ".seq", 1, n, seconds, by("pieces"));
}

// The sum of as many records, each as `get` finds it.
template <class Get>
u64 sum_at_random(u64 first, u64 n, u64 draws, Get get) {
    u64 sum = 0;
    for (u64 k = 0; k < draws; k++) sum += get(below(mix(first + k), n));
    return sum;
}

// The same, 32 at once.
u64 sum_of_visits(u64 first, u64 n, u64 draws, const cvec::view<u64> &view) {
    u64 places[32], sum = 0;
    for (u64 k = 0; k < draws; k += 32) {
        u64 some = std::min<u64>(32, draws - k);
        for (u64 j = 0; j < some; j++) places[j] = below(mix(first + k + j), n);
        view.visit(places, some, [&](u64 record) { sum += record; });
    }
    return sum;
}

// By so many threads, each of which sums records from a first draw on. `known` has the record at each place.
template <class Sum, class Known>
void read_at_random(const std::string &work, const std::string &rest, unsigned threads, u64 n, u64 draws, Sum sum, Known known) {
    std::vector<u64> sums(threads);
    double seconds = race(threads, [&](unsigned thread) { sums[thread] = sum(u64(thread) << 32); }, nothing);
    for (u64 thread = 0; thread < threads; thread++)
        require(sums[thread] == sum_at_random(thread << 32, n, draws, known), "wrong records at random");
    tell(work + ".random", threads, draws * threads, seconds, rest);
}

// By `[]`, by a view, whose reads aren't checked, and by its `visit`.
template <class Known>
void read_at_random_each_way(const std::string &work, const Vector &vector, u64 n, u64 draws, Known known) {
    const auto view = vector.view();
    for (unsigned threads : {1, 2, 4})
        read_at_random(work, "", threads, n, draws, [&](u64 first) {
            return sum_at_random(first, n, draws, [&](u64 place) { return vector[place]; });
        }, known);
    for (unsigned threads : {1, 2, 4})
        read_at_random(work, by("view"), threads, n, draws, [&](u64 first) {
            return sum_at_random(first, n, draws, [&](u64 place) { return view[place]; });
        }, known);
    for (unsigned threads : {1, 2, 4})
        read_at_random(work, by("visit"), threads, n, draws, [&](u64 first) {
            return sum_of_visits(first, n, draws, view);
        }, known);
}

template <class Get>
u64 last_of_row(u64 n, u64 reads, Get get) {
    u64 last = 1;
    for (u64 k = 0; k < reads; k++) last = get(below(mix(last ^ k), n));
    return last;
}

// Each at a place that the record before it gives.
template <class Known>
void read_in_a_row(const std::string &work, const Vector &vector, u64 n, u64 reads, Known known) {
    auto begun = Clock::now();
    u64 last = last_of_row(n, reads, [&](u64 place) { return vector[place]; });
    double seconds = seconds_since(begun);
    require(last == last_of_row(n, reads, known), "a wrong record in a row");
    tell(work + ".random-dependent", 1, reads, seconds);
}

void read_filled() {
    u64 block = some("block"), n = some("n"), draws = number("draws");
    Made made(4);
    fill(made.vector(), block, n);
    read_in_order("read", made.vector(), n, sum_of_mixed(n));
    read_at_random_each_way("read", made.vector(), n, draws, mix);
    read_in_a_row("read", made.vector(), n, draws / 4, mix);
    made.compare(n, sum_of_mixed(n));
}

// The vector is grown by so many threads at once, so that pieces of each lie among those of others.
void read_mixed() {
    unsigned growers = unsigned(some("growers"));
    u64 block = some("block"), n = some("n") / growers / block * growers * block, draws = number("draws");
    Made made(4);
    fill_by(made.vector(), growers, block, n);
    const std::vector<u64> records = copies_of(made.vector());
    auto known = [&](u64 place) { return records[place]; };
    u64 sum = sum_of(records.data(), records.size());
    read_in_order("read-mixed", made.vector(), n, sum);
    read_at_random_each_way("read-mixed", made.vector(), n, draws, known);
    read_in_a_row("read-mixed", made.vector(), n, draws / 4, known);
    made.compare(n, sum);
}

// ---- memory

// What the system tells of this process.
double status_bytes(const std::string &name) {
    std::ifstream status("/proc/self/status");
    for (std::string line; std::getline(status, line);)
        if (line.compare(0, name.size(), name) == 0) return 1024 * std::strtod(line.c_str() + name.size() + 1, nullptr);
    throw std::runtime_error("the system tells no " + name);
}

void memory() {
    u64 block = some("block"), growths = number("n") / block, records = growths * block;
    growths_of(records, block);
    std::vector<u64> ready = block_of(0, block);
    Made made(1);
    double before = status_bytes("RssAnon");
    auto begun = Clock::now();
    for (u64 k = 0; k < growths; k++) made.vector().append(ready.begin(), ready.end());
    double seconds = seconds_since(begun), after = status_bytes("RssAnon");
    double highest = status_bytes("VmHWM") - status_bytes("RssFile") - status_bytes("RssShmem");
    made.compare(records, growths * sum_of(ready.data(), block));
    char rest[120];
    std::snprintf(rest, sizeof rest, ",\"bytes_per_record\":%.4f,\"peak_bytes_per_record\":%.4f",
                  (after - before) / double(records), (highest - before) / double(records));
    tell("memory", 1, records, seconds, rest);
}

// ---- files

// A thread that commits again and again while this lives, or none.
class Committer {
  public:
    Committer(Vector &vector, bool is_wanted) : vector_(vector) {
        if (is_wanted) thread_ = std::thread([this] { run(); });
    }
    ~Committer() {
        if (!thread_.joinable()) return;
        vector_.stop_flusher();
        thread_.join();
    }

  private:
    // What is refused is told to who waits too.
    void run() {
        try {
            vector_.run_flusher(std::chrono::milliseconds(1));
        } catch (const cvec::error &) {
        }
    }

    Vector &vector_;
    std::thread thread_;
};

double micros_at(std::vector<double> &times, std::size_t hundredths) {
    return times.empty() ? 0 : 1e6 * times[std::min(times.size() - 1, times.size() * hundredths / 100)];
}

void durable() {
    unsigned threads = unsigned(some("threads"));
    u64 block = some("block"), blocks = number("n") / threads, batch = word("mode") == "wait1" ? 1 : 64;
    bool waits = word("mode") != "flow";
    auto most = std::chrono::milliseconds(number("box_ms"));
    std::vector<std::vector<u64>> ready;
    for (unsigned thread = 0; thread < threads; thread++) ready.push_back(block_of(thread, block));
    std::vector<u64> did(threads);
    std::vector<std::vector<double>> rounds(threads);
    Made made(threads);
    Vector &vector = made.vector();
    Committer committer(vector, !waits);
    auto round = [&](unsigned thread) {
        auto begun = Clock::now();
        cvec::growth last{};
        for (u64 k = 0; k < batch; k++) last = vector.append(ready[thread].begin(), ready[thread].end());
        vector.settle(last);
        did[thread] += batch;
        rounds[thread].push_back(seconds_since(begun));
    };
    double seconds = race(threads, [&](unsigned thread) {
        if (waits) {
            for (auto begun = Clock::now(); Clock::now() - begun < most;) round(thread);
            return;
        }
        for (; did[thread] < blocks; did[thread]++) vector.append(ready[thread].begin(), ready[thread].end());
    }, [&] {
        if (!waits) vector.settle();
        return !waits;
    });
    u64 count = 0, sum = 0;
    std::vector<double> all;
    for (unsigned thread = 0; thread < threads; thread++) {
        count += did[thread] * block;
        sum += did[thread] * sum_of(ready[thread].data(), block);
        all.insert(all.end(), rounds[thread].begin(), rounds[thread].end());
    }
    made.compare(count, sum);
    std::sort(all.begin(), all.end());
    char rest[120] = "";
    if (waits)
        std::snprintf(rest, sizeof rest, ",\"p10_us\":%.1f,\"p50_us\":%.1f,\"p99_us\":%.1f", micros_at(all, 10), micros_at(all, 50),
                      micros_at(all, 99));
    tell("durable." + word("mode"), threads, count, seconds, rest);
}

std::string path_in_folder() { return word("dir") + "/vector.cvec"; }

// It has no figure.
void open_build() {
    cvec::options wanted;
    wanted.how = cvec::opening::create;
    Vector vector(path_in_folder(), wanted);
    fill(vector, some("block"), number("n"));
    vector.close();
}

// Until all records are in memory, and a seat may read them.
void open_read() {
    const std::string &work = word("work");
    u64 n = number("n");
    cvec::options wanted;
    wanted.how = cvec::opening::open;
    auto begun = Clock::now();
    Vector vector(path_in_folder(), wanted);
    double seconds = seconds_since(begun);
    expect(vector, n, sum_of_mixed(n));
    tell(work, 1, n, seconds);
}

}  // namespace

int main(int argc, char **argv) {
    const std::map<std::string, std::function<void()>> works = {
        {"grow", [] { grow(grow_by_copy, ""); }},
        {"grow-in-place", [] { grow(grow_in_place, by("in-place")); }},
        {"append", append},
        {"beside", [] { beside(false, ""); }},
        {"beside-pieces", [] { beside(true, by("pieces")); }},
        {"read", read_filled},
        {"read-mixed", read_mixed},
        {"memory", memory},
        {"durable", durable},
        {"open-build", open_build},
        {"open-read", open_read},
    };
    for (int k = 2; k < argc; k++) {
        std::string given = argv[k];
        std::size_t end = given.find('=');
        if (end != std::string::npos) words[given.substr(0, end)] = given.substr(end + 1);
    }
    auto work = argc > 1 ? works.find(argv[1]) : works.end();
    if (work == works.end()) return 3;
    try {
        work->second();
        std::fputs(figures.c_str(), stdout);
    } catch (const std::invalid_argument &fault) {
        std::fprintf(stderr, "%s\n", fault.what());
        return 3;
    } catch (const std::exception &fault) {
        std::fprintf(stderr, "%s\n", fault.what());
        return 1;
    }
}
