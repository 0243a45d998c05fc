// Behaviours of cvec::concurrent_vector, each by its name: behaviours NAME FILE. The status is 0 where it is as promised; else
// a line says what isn't.
#define cvec_seat_read counted_read
#define cvec_seat_size watched_size
#define cvec_seat_settle asked_wait
#define cvec_vector_settle asked_settle
#define cvec_vector_resize refused_resize
#define cvec_vector_change refused_change
#define cvec_vector_fold refused_fold
#define cvec_seat_borrow careless_borrow
#include "told.hpp"
#undef cvec_seat_read
#undef cvec_seat_size
#undef cvec_seat_settle
#undef cvec_vector_settle
#undef cvec_vector_resize
#undef cvec_vector_change
#undef cvec_vector_fold
#undef cvec_seat_borrow

#include <algorithm>
#include <csignal>
#include <cstring>
#include <filesystem>
#include <fstream>
#include <list>
#include <numeric>
#include <sched.h>
#include <sys/resource.h>
#include <sys/stat.h>
#include <sys/syscall.h>
#include <sys/wait.h>
#include <unistd.h>

// The requests for memory that pass before one is refused; none is below 0. Inlined, gcc takes the two for a mismatch.
static int news_left = -1;

[[gnu::noinline]] void *operator new(std::size_t size) {
    void *const found = news_left >= 0 && news_left-- == 0 ? nullptr : std::malloc(size);
    if (found == nullptr) throw std::bad_alloc();
    return found;
}

[[gnu::noinline]] void operator delete(void *memory) noexcept { std::free(memory); }
[[gnu::noinline]] void operator delete(void *memory, std::size_t) noexcept { std::free(memory); }

// While it is shut a device ends no sync; so many wait for it.
static std::atomic<bool> is_device_shut{false};
static std::atomic<int> syncs_held{0};

extern "C" int fdatasync(int fd) {
    ++syncs_held;
    while (is_device_shut) std::this_thread::sleep_for(std::chrono::microseconds(100));
    --syncs_held;
    return static_cast<int>(::syscall(SYS_fdatasync, fd));
}

// The number that each process has, or 0: each its own. It stands in place of the system's library's function.
static pid_t number_of_all = 0;

extern "C" pid_t getpid() noexcept { return number_of_all != 0 ? number_of_all : static_cast<pid_t>(::syscall(SYS_getpid)); }

// How often the vector was asked for records, and what is done meanwhile.
static std::atomic<int> reads{0};
static std::function<void()> during_read;

extern "C" cvec_status cvec_seat_read(cvec_seat *, cvec_type, std::uint64_t, void *, std::size_t, std::uint64_t *);
extern "C" cvec_status counted_read(cvec_seat *seat, cvec_type type, std::uint64_t from, void *out, std::size_t room,
                                    std::uint64_t *count) {
    ++reads;
    if (during_read) during_read();
    return cvec_seat_read(seat, type, from, out, room, count);
}

// What is done while the vector is asked for its length.
static std::function<void()> during_size;

// And once it has answered.
static std::function<void()> behind_size;

extern "C" cvec_status cvec_seat_size(cvec_seat *, std::uint64_t *);
extern "C" cvec_status watched_size(cvec_seat *seat, std::uint64_t *size) {
    if (during_size) during_size();
    const cvec_status answer = cvec_seat_size(seat, size);
    if (behind_size) behind_size();
    return answer;
}

// For how many milliseconds the vector was asked to wait at most, and what it answers in place of its own answer.
static std::atomic<std::uint64_t> milliseconds_asked{0};
static std::atomic<cvec_status> answer_instead{CVEC_DONE};

extern "C" cvec_status cvec_seat_settle(cvec_seat *, std::uint64_t, std::uint64_t);
extern "C" cvec_status asked_wait(cvec_seat *seat, std::uint64_t number, std::uint64_t milliseconds) {
    milliseconds_asked = milliseconds;
    const cvec_status answer = answer_instead;
    return answer == CVEC_DONE ? cvec_seat_settle(seat, number, milliseconds) : answer;
}

extern "C" cvec_status cvec_vector_settle(cvec_vector *, std::uint64_t);
extern "C" cvec_status asked_settle(cvec_vector *vector, std::uint64_t milliseconds) {
    milliseconds_asked = milliseconds;
    const cvec_status answer = answer_instead;
    return answer == CVEC_DONE ? cvec_vector_settle(vector, milliseconds) : answer;
}

// So often a call of the whole vector is refused for want of memory before it has begun; and what is done before a change.
static int refusals_to_come = 0;
static std::function<void()> before_change;

// And each change that is asked for: its first record, and how many.
using changes = std::vector<std::pair<std::uint64_t, std::size_t>>;
static changes *noted = nullptr;

static bool is_refused_now() {
    if (refusals_to_come == 0) return false;
    --refusals_to_come;
    return true;
}

extern "C" cvec_status cvec_vector_resize(cvec_vector *, cvec_type, std::uint64_t, const void *);
extern "C" cvec_status refused_resize(cvec_vector *vector, cvec_type type, std::uint64_t size, const void *record) {
    return is_refused_now() ? CVEC_MEMORY : cvec_vector_resize(vector, type, size, record);
}

extern "C" cvec_status cvec_vector_change(cvec_vector *, cvec_type, std::uint64_t, const void *, std::size_t);
extern "C" cvec_status refused_change(cvec_vector *vector, cvec_type type, std::uint64_t start, const void *records,
                                      std::size_t count) {
    if (before_change) before_change();
    if (noted != nullptr) noted->emplace_back(start, count);
    return is_refused_now() ? CVEC_MEMORY : cvec_vector_change(vector, type, start, records, count);
}

extern "C" cvec_status cvec_vector_fold(cvec_vector *);
extern "C" cvec_status refused_fold(cvec_vector *vector) { return is_refused_now() ? CVEC_MEMORY : cvec_vector_fold(vector); }

// Leaves any errno, as a call of the system may. So often a seat is refused for want of memory.
static int seats_to_refuse = 0;

extern "C" cvec_status cvec_seat_borrow(cvec_vector *, std::uint64_t, cvec_seat **);
extern "C" cvec_status careless_borrow(cvec_vector *vector, std::uint64_t milliseconds, cvec_seat **seat) {
    *seat = nullptr;
    const cvec_status answer = seats_to_refuse > 0 ? CVEC_MEMORY : cvec_seat_borrow(vector, milliseconds, seat);
    if (seats_to_refuse > 0) --seats_to_refuse;
    errno = ENOENT;
    return answer;
}

using numbers = cvec::concurrent_vector<std::uint64_t>;
using list = std::vector<std::uint64_t>;

struct text {
    char bytes[8];
};

struct sample {
    std::uint64_t thread, turn;
    double value;
};

static bool operator==(const sample &a, const sample &b) {
    return a.thread == b.thread && a.turn == b.turn && a.value == b.value;
}

// Of three records each.
using samples = cvec::concurrent_vector<sample, cvec::rows_of_u64>;

static list rows_of(const numbers &vector) { return list(vector.begin(), vector.end()); }

// ---- growing

static void growing(const std::string &path) {
    numbers vector(path);
    HOLDS(vector.empty() && vector.size() == 0);
    HOLDS(vector.push_back(5).position() == 0);
    HOLDS(*vector.emplace_back(7) == 7);
    HOLDS(vector.size() == 2 && !vector.empty());
    HOLDS(vector.grow_by(2) - vector.begin() == 2);
    HOLDS(*vector.grow_by(3, 9) == 9);
    const list more = {20, 21, 22};
    HOLDS(vector.grow_by(more.begin(), more.end()).position() == 7);
    HOLDS(vector.grow_by({30, 31}).position() == 10);
    HOLDS(rows_of(vector) == list({5, 7, 0, 0, 9, 9, 9, 20, 21, 22, 30, 31}));
    // A range of its own, and nothing at all.
    HOLDS(vector.grow_by(vector.begin() + 10, vector.end()).position() == 12);
    HOLDS(vector.grow_by(0) == vector.end() && vector.grow_by(more.begin(), more.begin()) == vector.end());
    HOLDS(vector.size() == 14 && vector[13] == 31);
    HOLDS(status_of([&] { vector.append(more.begin(), more.begin()); }) == CVEC_EMPTY);
    HOLDS(vector.grow_to_at_least(3).position() == 14 && vector.size() == 14);
    HOLDS(vector.grow_to_at_least(17, 8).position() == 14);
    HOLDS(vector.grow_to_at_least(18).position() == 17);
    HOLDS(list(vector.begin() + 14, vector.end()) == list({8, 8, 8, 0}));
    // Ranges of other kinds: by pointers, backwards, and of rows that may begin between words.
    const std::uint64_t raw[] = {50, 51};
    const std::list<std::uint64_t> linked = {52, 53};
    HOLDS(vector.grow_by(raw, raw + 2).position() == 18 && vector.grow_by(linked.begin(), linked.end()).position() == 20);
    HOLDS(vector.grow_by(more.rbegin(), more.rend()).position() == 22);
    HOLDS(list(vector.begin() + 18, vector.end()) == list({50, 51, 52, 53, 22, 21, 20}));
    cvec::concurrent_vector<text> texts(path + ".texts");
    const char bytes[] = "1abcdefghABCDEFGH";
    text pair[2];
    std::memcpy(pair, bytes + 1, sizeof pair);
    texts.grow_by(pair, pair + 2);
    HOLDS(texts.size() == 2 && std::memcmp(texts[1].bytes, "ABCDEFGH", 8) == 0);
}

static void greatest_growth(const std::string &path) {
    numbers vector(path);
    // 2^20 bytes of payload, with 8 of its own.
    HOLDS(numbers::max_growth() == 131071 && samples::max_growth() == 43690);
    HOLDS(numbers::max_size() == 4294967296 && samples::max_size() == 1431655765);
    HOLDS(status_of([&] { vector.grow_by(131072, 1); }) == CVEC_TOO_LARGE);
    HOLDS(vector.empty());
    HOLDS(vector.grow_by(131071, 1).position() == 0);
    HOLDS(vector.grow_to_at_least(400000).position() == 131071 && vector.size() == 400000);
    vector.settle();
}

// More rows than there may be aren't begun. By growths of 2^20 bytes at most memory would be gone first.
template <class T> static void grows_past_no_end(const std::string &path) {
    cvec::concurrent_vector<T> vector(path);
    int looks = 0;
    during_size = [&] {
        if (++looks > 20) throw std::runtime_error("it grows on");
    };
    for (const std::size_t count : {vector.max_size() + 1, SIZE_MAX}) {
        HOLDS(status_of([&] { vector.resize(count); }) == CVEC_OUT_OF_RANGE);
        HOLDS(status_of([&] { vector.grow_to_at_least(count); }) == CVEC_OUT_OF_RANGE);
    }
    during_size = nullptr;
    HOLDS(vector.empty());
}

static void past_the_end(const std::string &path) {
    grows_past_no_end<std::uint64_t>(path);
    grows_past_no_end<sample>(path + ".samples");
}

static void structs(const std::string &path) {
    {
        samples vector(path);
        vector.push_back({1, 2, 0.5});
        vector.emplace_back(std::uint64_t{3}, std::uint64_t{4}, -1.25);
        vector.grow_by(2);
        vector.grow_by({{5, 6, 7}});
        HOLDS(vector.size() == 5);
        vector.close();
    }
    samples again(path, {cvec::opening::open});
    HOLDS(again.size() == 5);
    HOLDS(again[0] == (sample{1, 2, 0.5}) && again[1] == (sample{3, 4, -1.25}) && again[3] == (sample{0, 0, 0}));
    HOLDS(again.back() == (sample{5, 6, 7}) && again.begin()->turn == 2);
    // Thrice this position is 2, where numbers have 64 bits.
    HOLDS(is_out_of_range([&] { static_cast<void>(again.at(0x5555555555555556)); }));
}

// Of 4 bytes' alignment, without a default; and as long as may be.
struct small {
    small(float a, float b) : x(a), y(b) {}
    float x, y;
};
struct large {
    std::uint64_t words[32];
};

static void other_types(const std::string &path) {
    {
        cvec::concurrent_vector<small> vector(path);
        for (int k = 0; k < 2000; ++k) vector.emplace_back(static_cast<float>(k), 0.5F);
        HOLDS(vector[1999].x == 1999.0F && vector.begin()[1234].x == 1234.0F && (vector.begin() + 77)->y == 0.5F);
        vector.close();
        ::unlink(path.c_str());
    }
    cvec::concurrent_vector<large> vector(path);
    large one{};
    one.words[31] = 4;
    vector.grow_by(40, one);
    HOLDS(vector.size() == 40 && vector[39].words[31] == 4 && vector[39].words[30] == 0);
    HOLDS(std::count_if(vector.begin(), vector.end(), [](const large &it) { return it.words[31] == 4; }) == 40);
}

// ---- reading

static void reading(const std::string &path) {
    numbers vector(path);
    HOLDS(is_out_of_range([&] { static_cast<void>(vector.at(0)); }) && is_out_of_range([&] { static_cast<void>(vector.back()); }));
    vector.grow_by({4, 5, 6});
    HOLDS(vector.at(2) == 6 && vector[0] == 4 && vector.front() == 4 && vector.back() == 6);
    HOLDS(is_out_of_range([&] { static_cast<void>(vector.at(3)); }) && is_out_of_range([&] { static_cast<void>(vector[3]); }));
    HOLDS(is_out_of_range([&] { static_cast<void>(*vector.end()); }));
    HOLDS(is_out_of_range([&] { static_cast<void>(vector.at(static_cast<std::size_t>(-1))); }));
    HOLDS(is_out_of_range([&] { static_cast<void>(vector.at(std::size_t{1} << 61)); }));
}

// What is read is lent, and nothing is assigned to it.
template <class T> static constexpr bool is_only_read() {
    using vector = cvec::concurrent_vector<T>;
    return !std::is_assignable_v<decltype(std::declval<vector>()[0]), T> && !std::is_assignable_v<decltype(std::declval<vector>().at(0)), T> &&
           !std::is_assignable_v<decltype(std::declval<vector>().front()), T> &&
           !std::is_assignable_v<decltype(std::declval<vector>().back()), T> &&
           !std::is_assignable_v<decltype(*std::declval<vector>().begin()), T> &&
           !std::is_assignable_v<decltype(std::declval<vector>().begin()[0]), T> &&
           !std::is_assignable_v<decltype(*std::declval<vector>().rbegin()), T> &&
           !std::is_assignable_v<typename vector::reference, T> && !std::is_assignable_v<typename vector::range_type::reference, T> &&
           std::is_same_v<std::decay_t<decltype(std::declval<vector>()[0])>, T>;
}

union either {
    std::uint32_t number;
    float value;
};

static_assert(is_only_read<sample>() && is_only_read<either>() && is_only_read<std::pair<int, int>>() && is_only_read<double>());

// Rows of growths of different lengths, past several pieces of iterators.
static list long_list(numbers &vector) {
    list rows(3000);
    std::iota(rows.begin(), rows.end(), std::uint64_t{1000});
    for (std::size_t at = 0, step = 1; at < rows.size(); at += step, step = step % 97 + 1) {
        const std::size_t end = std::min(at + step, rows.size());
        vector.grow_by(rows.begin() + static_cast<std::ptrdiff_t>(at), rows.begin() + static_cast<std::ptrdiff_t>(end));
        step = end - at;
    }
    return rows;
}

static void iterators(const std::string &path) {
    numbers vector(path);
    const list rows = long_list(vector);
    HOLDS(rows_of(vector) == rows && vector.end() - vector.begin() == 3000);
    HOLDS(list(vector.rbegin(), vector.rend()) == list(rows.rbegin(), rows.rend()));
    HOLDS(std::equal(vector.cbegin(), vector.cend(), rows.begin(), rows.end()));
    HOLDS(std::equal(vector.crbegin(), vector.crend(), rows.rbegin(), rows.rend()));
    HOLDS(*std::lower_bound(vector.begin(), vector.end(), std::uint64_t{2345}) == 2345);
    HOLDS(std::accumulate(vector.begin(), vector.end(), std::uint64_t{0}) == 3000 * 1000 + 3000 * 2999 / 2);
    auto one = vector.begin();
    HOLDS(*one++ == 1000 && *one == 1001 && *++one == 1002 && *one-- == 1002 && *--one == 1000);
    one += 600;
    HOLDS(*one == 1600 && one[-600] == 1000 && one[2000] == 3600 && *(one - 100) == 1500 && *(5 + one) == 1605);
    one -= 599;
    HOLDS(*one == 1001 && one > vector.begin() && one >= one && one < vector.end() && one <= one && one != vector.end());
    // What comes after the end that was asked for.
    const auto end = vector.end();
    vector.push_back(1);
    HOLDS(*end == 1 && vector.end() - end == 1);
    auto last = end - 1;
    HOLDS(*last == 3999 && *++last == 1 && is_out_of_range([&] { static_cast<void>(*++last); }));
    HOLDS(numbers::iterator() == numbers::iterator());
    using traits = std::iterator_traits<numbers::iterator>;
    static_assert(std::is_same_v<traits::iterator_category, std::random_access_iterator_tag>);
    static_assert(std::is_same_v<traits::value_type, std::uint64_t>);
}

// A loop copies nothing, in both directions.
static void pieces(const std::string &path) {
    numbers vector(path);
    const list rows = long_list(vector);
    reads = 0;
    HOLDS(rows_of(vector) == rows && reads == 0);
    reads = 0;
    HOLDS(list(vector.rbegin(), vector.rend()) == list(rows.rbegin(), rows.rend()) && reads == 0);
    HOLDS(vector.copy(7) == rows[7] && reads == 1);
}

// One iterator that all threads read by, as a body of parallel_for that has captured it.
static void shared_iterator(const std::string &path) {
    numbers vector(path);
    const list rows = long_list(vector);
    const auto first = vector.begin() + 1;
    std::atomic<bool> is_right{true};
    in_threads(8, [&](std::uint64_t k) {
        for (std::size_t at = k; at + 1 < rows.size(); at += 8)
            if (first[static_cast<std::ptrdiff_t>(at)] != rows[at + 1] || *first != rows[1]) is_right = false;
    });
    HOLDS(is_right);
}

struct split_tag {};

static void ranges(const std::string &path) {
    numbers vector(path);
    vector.grow_by({1, 2, 3, 4, 5});
    auto whole = vector.range(2);
    HOLDS(whole.size() == 5 && whole.is_divisible() && !whole.empty() && whole.grainsize() == 2);
    numbers::range_type half(whole, split_tag{});
    HOLDS(list(whole.begin(), whole.end()) == list({1, 2}) && list(half.begin(), half.end()) == list({3, 4, 5}));
    HOLDS(!whole.is_divisible() && half.is_divisible() && half.grainsize() == 2);
    HOLDS(vector.range(0).grainsize() == 1 && vector.range().grainsize() == 1);
    const numbers::range_type inner(vector.begin() + 1, vector.begin() + 4, 2), single(vector.begin() + 2, vector.end());
    HOLDS(list(inner.begin(), inner.end()) == list({2, 3, 4}) && inner.grainsize() == 2);
    HOLDS(list(single.begin(), single.end()) == list({3, 4, 5}) && single.grainsize() == 1);
    const numbers &only_read = vector;
    numbers::const_range_type part = only_read.range(5);
    HOLDS(!part.is_divisible());
}

// ---- what is durable

static void receipts(const std::string &path) {
    numbers vector(path);
    HOLDS(vector.settled() == 0);
    vector.settle();
    const cvec::growth first = vector.append(4), second = vector.append({5, 6});
    const list more = {7};
    const cvec::growth third = vector.append(more.begin(), more.end());
    HOLDS(first.number == 0 && first.first == 0 && first.length == 1);
    HOLDS(second.number == 1 && second.first == 1 && second.length == 2);
    HOLDS(third.number == 2 && third.first == 3 && third.length == 1);
    HOLDS(!vector.is_settled(first));
    vector.settle(second);
    HOLDS(vector.is_settled(first) && vector.is_settled(second) && vector.settled() >= 2);
    vector.push_back(8);
    vector.settle();
    HOLDS(vector.settled() == 4 && vector.is_settled(third));
    HOLDS(status_of([&] { vector.settle({4, 0, 1}); }) == CVEC_OUT_OF_RANGE);
    vector.settle();
    // Without an end of the process's own, what was settled stands.
    if (wrong == 0) ::kill(::getpid(), SIGKILL);
}

// What is waited for is this growth, whatever stands of those before it: while each of them is durable, and while one commits.
static void settles_it_itself(const std::string &path) {
    using namespace std::chrono_literals;
    numbers vector(path);
    for (int turn = 0; turn < 3; ++turn) {
        const cvec::growth made = vector.append(std::uint64_t{1});
        HOLDS(!vector.is_settled(made) && vector.settle_for(made, 0s) && vector.is_settled(made));
        const cvec::growth last = vector.append(std::uint64_t{2});
        HOLDS(!vector.is_settled(last) && vector.settle_for(0s) && vector.is_settled(last));
        const cvec::growth other = vector.append(std::uint64_t{3});
        vector.settle(other);
        HOLDS(vector.is_settled(other));
    }
}

static void deadlines(const std::string &path) {
    using namespace std::chrono_literals;
    numbers vector(path);
    HOLDS(vector.settle_for(0s) && vector.settled() == 0);
    settles_it_itself(path + ".each");
    const cvec::growth first = vector.append(4), second = vector.append({5, 6});
    // Nobody commits: it does.
    HOLDS(vector.settle_for(first, 0s) && vector.is_settled(first));
    vector.push_back(7);
    HOLDS(vector.settle_for(1us) && vector.settled() == 3);
    const auto asked = [&](auto time) { return vector.settle_for(second, time) ? milliseconds_asked.load() : 99; };
    HOLDS(asked(0s) == 0 && asked(-5s) == 0 && asked(1ns) == 1 && asked(1500us) == 2 && asked(3s) == 3000);
    HOLDS(asked(std::chrono::duration<double>(0.25)) == 250 && asked(24h) == 86400000);
    HOLDS(asked(std::chrono::duration<std::int64_t, std::pico>(5000000000)) == 5);
    HOLDS(asked(std::chrono::duration<std::int64_t, std::femto>(5000000000001)) == 6);
    HOLDS(asked(std::chrono::hours::max()) == UINT64_MAX && asked(std::chrono::nanoseconds::max()) == UINT64_MAX);
    HOLDS(status_of([&] { static_cast<void>(vector.settle_for({9, 0, 1}, 0s)); }) == CVEC_OUT_OF_RANGE);
    answer_instead = CVEC_LATE;
    HOLDS(!vector.settle_for(second, 1s) && !vector.settle_for(1s));
    answer_instead = CVEC_DISK_WRITE;
    HOLDS(status_of([&] { static_cast<void>(vector.settle_for(1s)); }) == CVEC_DISK_WRITE);
    vector.close();
    HOLDS(status_of([&] { static_cast<void>(vector.settle_for(1s)); }) == CVEC_NOT_SO);
}

// Does this while another call is held by this hook, for a second at most.
static void beside_a_held_call(std::function<void()> &hook, const std::function<void()> &call,
                               const std::function<void(const std::atomic<bool> &)> &then) {
    std::atomic<bool> is_held{false}, is_over{false};
    hook = [&] {
        const auto end = std::chrono::steady_clock::now() + std::chrono::seconds(1);
        is_held = true;
        while (!is_over && std::chrono::steady_clock::now() < end) std::this_thread::yield();
        is_held = false;
    };
    std::thread other(call);
    while (!is_held) std::this_thread::yield();
    then(is_held);
    is_over = true;
    other.join();
    hook = nullptr;
}

// The time runs also while another call has the only seat. What is of all growths takes none, nor waits for a change that hasn't begun.
static void deadlines_for_a_seat(const std::string &path) {
    using namespace std::chrono_literals;
    numbers vector(path, {cvec::opening::create, 1, 1}), wide(path + ".wide");
    const cvec::growth made = vector.append(std::uint64_t{4});
    const auto reads_it = [&] { static_cast<void>(vector.copy(0)); };
    beside_a_held_call(during_read, reads_it, [&](const std::atomic<bool> &is_held) {
        HOLDS(!vector.settle_for(made, 20ms) && !vector.settle_for(made, 0s) && vector.settle_for(20ms) && is_held);
    });
    // What is left of it is for the commit.
    beside_a_held_call(during_read, reads_it, [&](const std::atomic<bool> &) {
        HOLDS(vector.settle_for(made, 10s) && milliseconds_asked > 0 && milliseconds_asked < 9900);
    });
    wide.push_back(4);
    beside_a_held_call(before_change, [&] { wide.change(0, 5); }, [&](const std::atomic<bool> &is_held) {
        HOLDS(wide.settle_for(20ms) && is_held);
    });
    HOLDS(wide.settle_for(0s) && wide.copy(0) == 5);
}

static void flushing(const std::string &path) {
    using namespace std::chrono_literals;
    {
        numbers vector(path);
        std::thread flusher([&] { vector.run_flusher(1ns); }), second([&] { vector.run_flusher(std::chrono::hours::max()); });
        for (std::uint64_t k = 0; k < 9; ++k) {
            const cvec::growth made = vector.append(k);
            while (!vector.is_settled(made)) std::this_thread::sleep_for(1ms);
        }
        // A close ends them.
        vector.close();
        flusher.join();
        second.join();
        HOLDS(status_of([&] { vector.run_flusher(1ns); }) == CVEC_DONE);
    }
    numbers vector(path);
    vector.stop_flusher();
    vector.push_back(9);
    vector.run_flusher(std::chrono::hours::max());
    HOLDS(vector.settled() == 0 && vector.size() == 10);
    vector.close();
    numbers again(path);
    const rlimit most{4096, 4096};
    ::setrlimit(RLIMIT_FSIZE, &most);
    again.grow_by(1000, 5);
    HOLDS(status_of([&] { again.run_flusher(std::chrono::hours::max()); }) == CVEC_DISK_WRITE);
}

// By a thread of the library's own.
static void own_flusher(const std::string &path) {
    using namespace std::chrono_literals;
    numbers vector(path);
    vector.start_flusher(1ns);
    vector.start_flusher(std::chrono::hours::max());
    for (std::uint64_t k = 0; k < 9; ++k) {
        const cvec::growth made = vector.append(k);
        while (!vector.is_settled(made)) std::this_thread::sleep_for(1ms);
    }
    vector.stop_flusher();
    std::this_thread::sleep_for(5ms); // a commit that was under way ends
    vector.push_back(9);
    vector.start_flusher(1ms); // which is stopped already
    std::this_thread::sleep_for(20ms);
    HOLDS(vector.settled() == 9 && vector.size() == 10);
    vector.close();
    HOLDS(status_of([&] { vector.start_flusher(1ms); }) == CVEC_NOT_SO);
    {
        numbers again(path);
        again.start_flusher(std::chrono::hours(1));
        again.push_back(10);
    }
    HOLDS(numbers(path).size() == 11);
}

// Calls that wait for the device have no seat meanwhile: both are lent to others.
static void settling_lends_seats(const std::string &path) {
    numbers vector(path, {cvec::opening::create, 1, 2});
    std::vector<std::thread> threads;
    std::atomic<int> settling{0};
    is_device_shut = true;
    for (std::uint64_t k = 0; k < 2; ++k)
        threads.emplace_back([&, k] {
            const cvec::growth made = vector.append(k);
            ++settling;
            vector.settle(made);
        });
    while (settling < 2 || syncs_held == 0) std::this_thread::yield();
    std::this_thread::sleep_for(std::chrono::milliseconds(20));
    std::thread opener([&] {
        for (int k = 0; k < 5000 && is_device_shut; ++k) std::this_thread::sleep_for(std::chrono::milliseconds(1));
        is_device_shut = false;
    });
    vector.push_back(7);
    HOLDS(vector.size() == 3 && vector[2] == 7 && vector.copy(2) == 7 && is_device_shut && vector.settled() == 0);
    is_device_shut = false;
    opener.join();
    for (std::thread &thread : threads) thread.join();
    vector.settle();
    HOLDS(vector.settled() == 3);
}

// Single pushes for as long as a phase has room: none of them takes long, and none waits for the device. Of each thousand the time of
// the processor is taken, so that others on the machine don't count. Its end would make all durable, so it has none.
static void pushing_long(const std::string &path) {
    const auto spent = [] {
        timespec time{};
        ::clock_gettime(CLOCK_THREAD_CPUTIME_ID, &time);
        return static_cast<double>(time.tv_sec) * 1e3 + static_cast<double>(time.tv_nsec) / 1e6;
    };
    numbers vector(path);
    double longest = 0;
    for (std::uint64_t k = 0; k < 4000; ++k) {
        const double begun = spent();
        for (std::uint64_t at = 0; at < 1000; ++at) vector.push_back(at);
        longest = std::max(longest, spent() - begun);
    }
    if (longest > 20) std::printf("a thousand took %.1f ms\n", longest);
    HOLDS(longest <= 20 && vector.settled() == 0);
    std::fflush(stdout);
    ::_exit(wrong);
}

// ---- shortening

static void shortening(const std::string &path) {
    samples vector(path);
    for (std::uint64_t k = 0; k < 10; ++k) vector.push_back({k, k, 0});
    vector.resize(4);
    HOLDS(vector.size() == 4 && vector.back().turn == 3 && vector.settled() == 10);
    const cvec::growth made = vector.append({7, 7, 7});
    HOLDS(made.number == 10 && made.first == 4 && !vector.is_settled(made));
    vector.settle(made);
    HOLDS(vector.is_settled(made) && vector.size() == 5);
    vector.resize(5);
    vector.resize(7, {8, 8, 8});
    HOLDS(vector.size() == 7 && vector[4].turn == 7 && vector[6].turn == 8);
    vector.clear();
    vector.clear();
    HOLDS(vector.empty() && vector.begin() == vector.end());
    // Where it is refused nothing is gone, and growths are counted on.
    const cvec::growth before = vector.append({1, 1, 1});
    refusals_to_come = 1;
    HOLDS(status_of([&] { vector.clear(); }) == CVEC_MEMORY && vector.size() == 1);
    HOLDS(vector.settled() == before.number + 1 && vector.is_settled(before));
    const cvec::growth behind = vector.append({2, 2, 2});
    HOLDS(behind.number == before.number + 1 && !vector.is_settled(behind));
    vector.settle(behind);
    HOLDS(vector.is_settled(behind));
    vector.clear();
    HOLDS(vector.empty() && vector.settled() == behind.number + 1);
    // Beside growths of others: each stands whole or is gone, and those behind the last clear stand.
    std::atomic<bool> over{false};
    std::vector<std::thread> threads;
    for (std::uint64_t k = 0; k < 3; ++k)
        threads.emplace_back([&vector, &over, k] {
            while (!over) vector.grow_by({{k, 1, 0}, {k, 2, 0}});
        });
    for (int turn = 0; turn < 20; ++turn) vector.clear();
    over = true;
    for (std::thread &thread : threads) thread.join();
    HOLDS(vector.size() % 2 == 0);
    for (std::size_t at = 0; at < vector.size(); ++at) HOLDS(vector[at].turn == at % 2 + 1);
    vector.clear();
    vector.push_back({9, 9, 9});
    vector.close();
    HOLDS(status_of([&] { vector.clear(); }) == CVEC_NOT_SO);
    HOLDS(samples(path).size() == 1);
}

// A file in which a record was changed.
static void shortened(const std::string &path) { numbers(path, {cvec::opening::open}).resize(2); }

// ---- changing

static list turns_of(const samples &vector) {
    list found;
    for (const sample &row : vector) found.push_back(row.turn);
    return found;
}

static sample turned(std::uint64_t turn) { return {1, turn, 0.5}; }

static void changing(const std::string &path) {
    const std::vector<sample> two = {turned(50), turned(60)};
    const std::list<sample> linked = {turned(80), turned(90)};
    const list changed = {100, 110, 100, 110, 4, 50, 60, 7, 80, 90};
    {
        samples vector(path);
        for (std::uint64_t k = 0; k < 10; ++k) vector.push_back(turned(k));
        int steps = 0;
        before_change = [&] { ++steps; };
        vector.change(3, {1, 30, 0.5});
        HOLDS(vector[3] == turned(30) && vector[2] == turned(2) && vector[4] == turned(4) && vector.settled() == 10);
        vector.change(5, two.begin(), two.end());
        vector.change(8, linked.begin(), linked.end());
        vector.change(0, {turned(100), turned(110)});
        // A range of its own, by iterators and where it stands.
        const auto whole = vector.piece(0);
        HOLDS(whole.size() == 10);
        vector.change(2, whole.begin(), whole.begin() + 2);
        vector.change(2, vector.begin(), vector.begin() + 2);
        HOLDS(turns_of(vector) == changed);
        // Braces without a row are one value.
        vector.change(9, {});
        HOLDS(vector[9] == (sample{0, 0, 0}) && steps == 7);
        const sample raw[] = {turned(80), turned(90)};
        vector.change(8, raw);
        const std::initializer_list<sample> listed = {turned(50), turned(60)};
        vector.change(5, listed);
        vector.change(9, {1, 90, 0.5});
        vector.change(10, two.begin(), two.begin());
        vector.change(0, linked.end(), linked.end());
        before_change = nullptr;
        HOLDS(turns_of(vector) == changed && steps == 10);
        vector.close();
        HOLDS(status_of([&] { vector.change(0, turned(1)); }) == CVEC_NOT_SO);
        HOLDS(status_of([&] { vector.fold(); }) == CVEC_NOT_SO);
    }
    samples vector(path);
    HOLDS(turns_of(vector) == changed);
    vector.fold();
    vector.fold();
    HOLDS(turns_of(vector) == changed);
    vector.close();
    HOLDS(turns_of(samples(path)) == changed);
}

// By what words a position is refused.
static std::string position_refused(const std::function<void()> &call) {
    try {
        call();
        return "none";
    } catch (const std::out_of_range &refusal) {
        return refusal.what();
    }
}

// Past the end, by few rows, by none, and by as many as no number of words is.
static void changing_nothing(const std::string &path) {
    samples vector(path);
    for (std::uint64_t k = 0; k < 3; ++k) vector.push_back(turned(k));
    const std::vector<sample> rows(3, turned(9));
    const auto refused = [&](std::size_t first, std::ptrdiff_t count) {
        return position_refused([&] { vector.change(first, rows.begin(), rows.begin() + count); });
    };
    HOLDS(refused(3, 1) == "cvec: no row at position 3" && refused(1, 3) == "cvec: no row at position 3");
    HOLDS(refused(4, 0) == "cvec: no row at position 4" && refused(3, 0) == "none");
    // Thrice this position is 2, where numbers have 64 bits.
    HOLDS(refused(0x5555555555555556, 1) == "cvec: no row at position 6148914691236517206");
    HOLDS(refused(SIZE_MAX, 2) == "cvec: no row at position 18446744073709551615");
    HOLDS(is_out_of_range([&] { vector.change(3, turned(9)); }));
    HOLDS(is_out_of_range([&] { vector.change(2, {turned(9), turned(9)}); }));
    HOLDS(turns_of(vector) == list({0, 1, 2}));
    // With no rows nothing is done, so nothing is settled.
    const cvec::growth made = vector.append(turned(3));
    HOLDS(made.number == 3 && refused(4, 0) == "none" && !vector.is_settled(made));
    vector.change(3, turned(4));
    HOLDS(turns_of(vector) == list({0, 1, 2, 4}));
}

// One frame of version 1 has 2^20 bytes of payload, with 8 of its own.
static void changing_most(const std::string &path) {
    numbers vector(path);
    vector.grow_to_at_least(131072, 1);
    list many(131072, 2);
    HOLDS(status_of([&] { vector.change(0, many.begin(), many.end()); }) == CVEC_TOO_LARGE);
    HOLDS(std::count(vector.begin(), vector.end(), std::uint64_t{1}) == 131072);
    many.pop_back();
    vector.change(1, many.begin(), many.end());
    HOLDS(vector[0] == 1 && std::count(vector.begin(), vector.end(), std::uint64_t{2}) == 131071);
    HOLDS(vector.append(std::uint64_t{3}).first == 131072);
}

// This call settles what was grown before, and growths are counted on behind it.
template <class Call> static void counts_on(samples &vector, std::uint32_t status, const Call &call) {
    const cvec::growth before = vector.append(turned(1));
    HOLDS(!vector.is_settled(before));
    HOLDS(status_of([&] { call(); }) == status);
    HOLDS(vector.is_settled(before) && vector.settled() == before.number + 1);
    const cvec::growth behind = vector.append(turned(2));
    HOLDS(behind.number == before.number + 1 && behind.first == before.first + 1 && !vector.is_settled(behind));
    vector.settle(before);
    HOLDS(!vector.is_settled(behind));
    vector.settle(behind);
    HOLDS(vector.is_settled(behind) && vector.settled() == behind.number + 1);
}

static void changing_counts_on(const std::string &path) {
    samples vector(path);
    vector.append(turned(0));
    const auto change = [&] { vector.change(0, turned(8)); };
    const auto fold = [&] { vector.fold(); };
    counts_on(vector, CVEC_DONE, change);
    // Where it is refused nothing has changed.
    refusals_to_come = 1;
    counts_on(vector, CVEC_MEMORY, [&] { vector.change(0, turned(9)); });
    HOLDS(vector[0] == turned(8));
    counts_on(vector, CVEC_DONE, change);
    counts_on(vector, CVEC_DONE, fold);
    refusals_to_come = 1;
    counts_on(vector, CVEC_MEMORY, fold);
    counts_on(vector, CVEC_DONE, fold);
    counts_on(vector, CVEC_DONE, [&] { HOLDS(is_out_of_range([&] { vector.change(99, turned(9)); })); });
    HOLDS(vector.size() == 15 && vector[0] == turned(8));
}

// Two calls at once have two seats of three. A refused change leaves one of them that wasn't taken, and all are to be given.
static void changing_has_seats_again(const std::string &path) {
    samples vector(path, {cvec::opening::create, 1, 3});
    vector.append(turned(0));
    during_read = [&] { HOLDS(vector.size() == 1); };
    HOLDS(vector.copy(0) == turned(0));
    refusals_to_come = 1;
    HOLDS(status_of([&] { vector.change(0, turned(9)); }) == CVEC_MEMORY);
    HOLDS(vector.copy(0) == turned(0));
    during_read = nullptr;
    counts_on(vector, CVEC_DONE, [&] { vector.change(0, turned(8)); });
    HOLDS(turns_of(vector) == list({8, 1, 2}));
}

// By what words a call is refused.
static std::string words_of(const std::function<void()> &call) {
    try {
        call();
        return "none";
    } catch (const cvec::error &refusal) {
        return std::to_string(refusal.status()) + ' ' + refusal.what();
    }
}

// Where a seat is refused behind what was done, the next call is, and may be made again: the file stays open.
static void changing_ends(const std::string &path) {
    const std::string refusal = std::to_string(CVEC_MEMORY) + " cvec: " + path + ": memory was refused";
    const auto ends = [&](const std::function<void(numbers &)> &call, const list &rows) {
        numbers vector(path);
        call(vector);
        seats_to_refuse = 2;
        HOLDS(words_of([&] { static_cast<void>(vector.size()); }) == refusal && words_of([&] { vector.push_back(5); }) == refusal);
        HOLDS(seats_to_refuse == 0 && rows_of(vector) == rows);
        vector.close();
        HOLDS(rows_of(numbers(path)) == rows);
    };
    numbers(path).grow_by({1, 2, 3});
    ends([](numbers &vector) { vector.change(1, 9); }, {1, 9, 3});
    ends([](numbers &vector) { vector.fold(); }, {1, 9, 3});
    ends([](numbers &vector) { vector.resize(2); }, {1, 9});
    ends([](numbers &vector) { vector.clear(); }, {});
    // What was refused for itself stays refused for that.
    numbers vector(path);
    vector.push_back(4);
    refusals_to_come = 1;
    HOLDS(words_of([&] { vector.change(0, 5); }) == refusal);
    vector.push_back(5);
    HOLDS(rows_of(vector) == list({4, 5}));
}

struct watch {
    std::atomic<bool> is_over{false}, is_right{true};
    std::atomic<std::uint64_t> seen{0}; // the turn that a reader has seen last
};

// A turn that falls is wrong, and one of which a single row is seen, or that is another while a view lives.
static void see_turns(const samples &vector, watch &all) {
    for (std::uint64_t last = 0; !all.is_over;) {
        const auto view = vector.view();
        const std::uint64_t turn = view[1].turn;
        std::this_thread::yield();
        if (view[0].turn != turn || vector[1].turn != turn || vector.copy(0).turn != turn || turn < last) all.is_right = false;
        last = turn;
        all.seen = turn;
    }
}

// Readers see both rows of a change or none, whatever grows meanwhile.
static void changing_beside(const std::string &path) {
    {
        samples vector(path, {cvec::opening::create, 1, 5, 0, std::chrono::seconds(20)});
        vector.grow_by({turned(0), turned(0)});
        watch all;
        std::vector<std::thread> threads;
        for (std::uint64_t k = 0; k < 2; ++k) {
            threads.emplace_back([&] { see_turns(vector, all); });
            threads.emplace_back([&] {
                while (!all.is_over) vector.settle(vector.append({turned(1000), turned(2000)}));
            });
        }
        for (std::uint64_t turn = 1; turn <= 20 && all.is_right; ++turn) {
            const std::size_t length = vector.size();
            vector.change(0, {turned(turn), turned(turn)});
            if (!(vector.copy(0) == turned(turn) && vector.copy(1) == turned(turn))) all.is_right = false;
            while (all.is_right && (all.seen < turn || vector.size() == length)) std::this_thread::yield();
        }
        vector.fold();
        all.is_over = true;
        for (std::thread &thread : threads) thread.join();
        HOLDS(all.is_right);
    }
    const list found = turns_of(samples(path));
    HOLDS(found.size() > 2 && found.size() % 2 == 0 && found[0] == 20 && found[1] == 20);
    for (std::size_t at = 2; at < found.size(); ++at) HOLDS(found[at] == 1000 * (at % 2 + 1));
}

// So many threads make this call, each a hundred times with pauses, while others go on with theirs, which hold it up no longer
// than 10 seconds in all.
static void comes_soon(std::uint64_t callers, const std::function<bool()> &call, std::uint64_t others,
                       const std::function<void()> &meanwhile) {
    std::atomic<int> gone_on{0};
    std::atomic<std::uint64_t> made{0};
    const auto end = std::chrono::steady_clock::now() + std::chrono::seconds(10);
    const auto is_late = [&] { return std::chrono::steady_clock::now() > end; };
    const auto pause = [] { std::this_thread::sleep_for(std::chrono::microseconds(100)); };
    in_threads(callers + others, [&](std::uint64_t k) {
        if (k < callers) {
            while (gone_on < 5) pause();
            for (int turn = 0; turn < 100 && !is_late(); ++turn, pause())
                if (call()) ++made;
        } else {
            for (; made < callers * 100 && !is_late(); ++gone_on) meanwhile();
        }
    });
    HOLDS(made == callers * 100);
}

static void rest() { std::this_thread::sleep_for(std::chrono::milliseconds(1)); }

// Changes one behind another hold no call up for long. With more seats than there are calls, and with one, also where each change
// takes a while, where two threads change, and where the call has a deadline.
static void reading_beside_changes(const std::string &path) {
    numbers wide(path), vector(path + ".narrow", {cvec::opening::create, 1, 1});
    const cvec::growth made = vector.append(std::uint64_t{0});
    wide.push_back(0);
    comes_soon(2, [&] { return wide.size() == 1; }, 1, [&] { wide.change(0, 1); });
    before_change = rest;
    for (std::uint64_t changers = 1; changers <= 2; ++changers) {
        comes_soon(1, [&] { return vector.size() == 1; }, changers, [&] { vector.change(0, 1); });
        comes_soon(1, [&] { return vector.settle_for(made, std::chrono::seconds(5)); }, changers, [&] { vector.change(0, 1); });
    }
    before_change = nullptr;
}

// Nor do calls that take a while, where their threads have every seat nearly all the time.
static void reading_beside_reads(const std::string &path) {
    numbers vector(path, {cvec::opening::create, 1, 2});
    vector.push_back(0);
    during_read = rest;
    comes_soon(1, [&] { return vector.size() == 1; }, 2, [&] { static_cast<void>(vector.copy(0)); });
    during_read = nullptr;
}

// Threads that have a seat nearly all the time hold no change up: between its call and its turn they make a growth each or two.
static void changing_comes_soon(const std::string &path) {
    numbers vector(path);
    std::atomic<bool> is_over{false};
    std::atomic<int> grown{0};
    std::vector<int> meanwhile;
    vector.push_back(0);
    std::thread changer([&] {
        for (int turn = 0; turn < 11; ++turn) {
            const int before = grown;
            before_change = [&] { meanwhile.push_back(grown - before); };
            vector.change(0, 1);
            while (grown < before + 16) std::this_thread::yield();
        }
        is_over = true;
    });
    in_threads(4, [&](std::uint64_t k) {
        for (; !is_over; ++grown) vector.settle(vector.append(k));
    });
    changer.join();
    before_change = nullptr;
    std::sort(meanwhile.begin(), meanwhile.end());
    HOLDS(meanwhile.size() == 11 && meanwhile[5] <= 16);
}

// Past the greatest size of a file: the growth from before can't be written, or the change.
static void changing_breaks(const std::string &path) {
    const rlimit most{4096, 4096};
    const auto fails = [](numbers &vector, const list &rows) {
        try {
            vector.change(0, rows.begin(), rows.end());
            HOLDS(vector.empty());
        } catch (const cvec::error &refusal) {
            HOLDS(refusal.status() == CVEC_DISK_WRITE && refusal.system_error() == EFBIG);
        }
        HOLDS(status_of([&] { vector.change(0, 6); }) == CVEC_BROKEN && status_of([&] { vector.fold(); }) == CVEC_BROKEN);
        HOLDS(status_of([&] { vector.push_back(6); }) == CVEC_BROKEN);
    };
    numbers first(path), second(path + ".second");
    const list rows(400, 5);
    first.grow_by({1, 2, 3});
    second.grow_by(400, 4);
    first.settle();
    second.settle();
    ::setrlimit(RLIMIT_FSIZE, &most);
    first.grow_by(1000, 5);
    fails(first, {9});
    // What stands is read.
    HOLDS(first.size() == 1003 && first[0] == 1);
    HOLDS(status_of([&] { first.close(); }) == CVEC_BROKEN);
    fails(second, rows);
    HOLDS(status_of([&] { static_cast<void>(second.size()); }) == CVEC_BROKEN);
    HOLDS(status_of([&] { second.run_flusher(std::chrono::hours(1)); }) == CVEC_BROKEN);
    HOLDS(status_of([&] { second.close(); }) == CVEC_BROKEN);
    HOLDS(rows_of(numbers(path)) == list({1, 2, 3}) && rows_of(numbers(path + ".second")) == list(400, 4));
    // Also where nothing was grown since it was opened.
    numbers third(path + ".second");
    fails(third, rows);
    HOLDS(status_of([&] { third.settle(); }) == CVEC_BROKEN);
    HOLDS(status_of([&] { static_cast<void>(third.settle_for(std::chrono::seconds(0))); }) == CVEC_BROKEN);
}

// Killed behind a change and a fold, neither of which was settled by another call.
static void changed(const std::string &path) {
    numbers vector(path);
    vector.grow_by({5, 6, 7});
    vector.change(1, {8, 9});
    if (wrong == 0) ::kill(::getpid(), SIGKILL);
}

static void folded(const std::string &path) {
    numbers vector(path, {cvec::opening::open});
    HOLDS(rows_of(vector) == list({5, 8, 9}));
    vector.fold();
    if (wrong == 0) ::kill(::getpid(), SIGKILL);
}

// ---- rewriting rows in place

// What differs is changed, from the first row to the last.
static void rewriting(const std::string &path) {
    changes made;
    noted = &made;
    {
        numbers vector(path);
        vector.grow_by({5, 9, 7});
        vector.grow_by({8, 6, 10});
        vector.exclusive([](cvec::mutable_rows<std::uint64_t> rows) { std::sort(rows.begin(), rows.end()); });
        HOLDS(rows_of(vector) == list({5, 6, 7, 8, 9, 10}) && made == changes({{1, 4}}) && vector.settled() == 2);
        vector.exclusive([](const auto &rows) { rows[5] = 10; });
        HOLDS(made.size() == 1);
        try {
            vector.exclusive([](auto rows) {
                rows[0] = 99;
                throw std::runtime_error("not so");
            });
            HOLDS(vector.empty());
        } catch (const std::runtime_error &thrown) {
            HOLDS(thrown.what() == std::string("not so") && made.size() == 1 && vector[0] == 5);
        }
        vector.clear();
        vector.exclusive([](auto rows) { HOLDS(rows.empty() && rows.begin() == rows.end()); });
        made.clear();
        // As many as three growths have.
        vector.grow_to_at_least(300000, 1);
        vector.exclusive([](auto rows) { std::fill(rows.begin(), rows.end(), std::uint64_t{2}); });
        HOLDS(made == changes({{0, 131071}, {131071, 131071}, {262142, 37858}}) && std::count(vector.begin(), vector.end(), 2u) == 300000);
    }
    HOLDS(rows_of(numbers(path)) == list(300000, 2));
    made.clear();
    // Rows of three records, and with bytes behind each.
    samples turns(path + ".samples");
    for (std::uint64_t k = 0; k < 5; ++k) turns.push_back(turned(k));
    turns.exclusive([](auto rows) { std::reverse(rows.begin() + 1, rows.end()); });
    HOLDS(turns_of(turns) == list({0, 4, 3, 2, 1}) && made == changes({{3, 12}}));
    cvec::concurrent_vector<std::array<char, 3>> letters{{'c', 'b', 'a'}, {'a', 'b', 'c'}};
    letters.exclusive([](auto rows) { std::sort(rows.begin(), rows.end()); });
    HOLDS(letters[0][0] == 'a' && letters[1][0] == 'c');
    noted = nullptr;
}

// Growths and reads go on meanwhile, calls of the whole vector of other threads wait, and those of its own are refused.
static void rewriting_beside(const std::string &path) {
    numbers vector(path);
    vector.grow_by({3, 2, 1});
    std::atomic<bool> is_changed{false}, is_closed{false};
    std::vector<std::thread> threads;
    vector.exclusive([&](auto rows) {
        std::thread([&] { vector.settle(vector.append({9, 8})); }).join();
        vector.grow_with(1, [](auto &blank) { blank[0] = 7; });
        HOLDS(vector.size() == 6 && rows.size() == 3 && vector[4] == 8 && vector.view().size() == 6);
        for (const std::function<void()> &call : std::initializer_list<std::function<void()>>{
                 [&] { vector.change(0, 1); }, [&] { vector.compact(); }, [&] { vector.clear(); }, [&] { vector.close(); },
                 [&] { vector.exclusive([](auto) {}); }})
            HOLDS(status_of(call) == CVEC_BUSY);
        threads.emplace_back([&] {
            vector.change(5, 77);
            is_changed = true;
        });
        std::this_thread::sleep_for(std::chrono::milliseconds(20));
        HOLDS(!is_changed && vector[5] == 7);
        std::sort(rows.begin(), rows.end());
    });
    threads[0].join();
    HOLDS(is_changed && rows_of(vector) == list({1, 2, 3, 9, 8, 77}));
    // Nor does a close come between.
    vector.exclusive([&](auto rows) {
        threads.emplace_back([&] {
            vector.close();
            is_closed = true;
        });
        std::this_thread::sleep_for(std::chrono::milliseconds(20));
        HOLDS(!is_closed);
        rows[0] = 11;
    });
    threads[1].join();
    HOLDS(is_closed && status_of([&] { vector.exclusive([](auto) {}); }) == CVEC_NOT_SO && rows_of(numbers(path))[0] == 11);
}

// Threads that count up in the rows lose nothing of what others did, nor of changes between.
static void rewriting_by_threads(const std::string &path) {
    numbers vector(path);
    vector.grow_by(10);
    in_threads(4, [&](std::uint64_t k) {
        for (int turn = 0; turn < 25; ++turn) {
            vector.exclusive([](auto rows) {
                for (std::uint64_t &row : rows) ++row;
            });
            if (k == 0) vector.compact();
        }
    });
    HOLDS(rows_of(vector) == list(10, 100));
}

static int ends_in_a_fork(const std::function<bool()> &call);

// By a view that lives it is refused before anything is done, or, where that came meanwhile, behind it.
static void rewriting_is_refused(const std::string &path) {
    numbers vector(path);
    vector.grow_by({2, 1});
    const auto sort = [](auto rows) { std::sort(rows.begin(), rows.end()); };
    bool is_called = false;
    {
        const auto view = vector.view();
        HOLDS(status_of([&] { vector.exclusive([&](auto) { is_called = true; }); }) == CVEC_BUSY && !is_called && view[0] == 2);
    }
    std::optional<cvec::view<std::uint64_t>> late;
    HOLDS(status_of([&] {
              vector.exclusive([&](auto rows) {
                  sort(rows);
                  late.emplace(vector.view());
              });
          }) == CVEC_BUSY);
    HOLDS((*late)[0] == 2 && vector[0] == 2);
    late.reset();
    refusals_to_come = 1;
    HOLDS(status_of([&] { vector.exclusive(sort); }) == CVEC_MEMORY && vector[0] == 2);
    HOLDS(ends_in_a_fork([&] { return status_of([&] { vector.exclusive(sort); }) == CVEC_FORKED; }) == 0);
    vector.exclusive(sort);
    HOLDS(rows_of(vector) == list({1, 2}));
    vector.grow_with(1, [&](auto &) { HOLDS(status_of([&] { vector.exclusive(sort); }) == CVEC_BUSY); });
}

// ---- algorithms that search

struct triple {
    std::uint32_t a, b, c;
};

static bool operator==(const triple &a, const triple &b) { return a.a == b.a && a.b == b.b && a.c == b.c; }

// Beside one that grows rows which are sought: each is behind the end that was asked for.
static void searching(const std::string &path) {
    cvec::concurrent_vector<triple> vector(path);
    for (std::uint32_t k = 0; k < 2000; ++k) vector.push_back(k == 1500 ? triple{9, 9, 9} : triple{k % 7, 0, k % 2});
    const auto first = vector.begin(), last = vector.end();
    std::atomic<bool> is_over{false};
    std::thread grower([&] {
        while (!is_over) vector.grow_by({{3, 0, 1}, {9, 9, 9}, {8, 8, 8}});
    });
    while (vector.size() == 2000) std::this_thread::yield();
    for (int turn = 0; turn < 20; ++turn) {
        // Those of 3, 17, .. 1991 are 143, and those of 10, 24, .. 1998 are 143.
        HOLDS(std::count(first, last, triple{3, 0, 1}) == 143 && std::count(first, last, triple{3, 0, 0}) == 143);
        HOLDS(std::find(first, last, triple{9, 9, 9}).position() == 1500 && std::find(first, last, triple{8, 8, 8}) == last);
        HOLDS(std::find(first + 1501, vector.end(), triple{9, 9, 9}).position() == 2001);
        const auto rows = vector.view();
        HOLDS(std::count(rows.begin(), rows.begin() + 2000, triple{3, 0, 1}) == 143 && rows.size() >= 2003);
        HOLDS(std::find(rows.begin(), rows.end(), triple{8, 8, 8}).position() == 2002);
    }
    is_over = true;
    grower.join();
}

static void appenders(const std::string &path) {
    samples vector(path);
    {
        cvec::appender<sample, cvec::rows_of_u64> rows(vector, 3);
        for (std::uint64_t k = 0; k < 8; ++k) rows.emplace_back(k, k, 0.5);
        HOLDS(vector.size() == 6 && rows.buffered() == 2);
        const auto made = rows.flush();
        HOLDS(made && made->first == 6 && made->length == 2 && made->number == 2 && !rows.flush());
        HOLDS(rows.buffered() == 0 && vector.size() == 8);
        rows.push_back({9, 9, 9});
        rows.settle();
        HOLDS(vector.settled() == 4 && vector.size() == 9);
        rows.push_back({10, 10, 10});
        cvec::appender<sample, cvec::rows_of_u64> moved(std::move(rows));
        moved.push_back({11, 11, 11});
        HOLDS(vector.size() == 9);
        // One that was moved from has none, and takes rows again.
        HOLDS(rows.buffered() == 0 && !rows.flush());
        rows.push_back({12, 12, 12});
        HOLDS(rows.buffered() == 1);
    }
    HOLDS(vector.size() == 12 && vector[10].thread == 11 && vector[11].thread == 12);
    // Where a flush is refused, the rows are kept, and the one that was pushed isn't taken. The destructor is silent.
    cvec::appender<sample, cvec::rows_of_u64> late(vector, 2);
    late.push_back({1, 1, 1});
    late.push_back({2, 2, 2});
    vector.close();
    HOLDS(status_of([&] { late.push_back({3, 3, 3}); }) == CVEC_NOT_SO && late.buffered() == 2);
    HOLDS(status_of([&] { late.settle(); }) == CVEC_NOT_SO);
}

// ---- opening, closing, and refusals

static void closing(const std::string &path) {
    numbers vector(path);
    vector.push_back(5);
    const auto first = vector.begin();
    vector.close();
    vector.close();
    HOLDS(status_of([&] { vector.push_back(6); }) == CVEC_NOT_SO);
    HOLDS(status_of([&] { static_cast<void>(vector.size()); }) == CVEC_NOT_SO);
    HOLDS(status_of([&] { static_cast<void>(*first); }) == CVEC_NOT_SO);
    HOLDS(status_of([&] { vector.settle(); }) == CVEC_NOT_SO);
    numbers empty(path + ".empty");
    empty.settle();
    HOLDS(empty.settle_for(std::chrono::seconds(0)));
    empty.close();
    HOLDS(status_of([&] { empty.settle(); }) == CVEC_NOT_SO);
    HOLDS(status_of([&] { static_cast<void>(empty.settle_for(std::chrono::seconds(0))); }) == CVEC_NOT_SO);
    numbers again(path, {cvec::opening::open}), other(path + ".other");
    HOLDS(rows_of(again) == list({5}));
    numbers moved(std::move(again));
    const auto kept = moved.begin();
    moved.push_back(6);
    swap(moved, other);
    HOLDS(moved.empty() && rows_of(other) == list({5, 6}) && *kept == 5);
    // What is assigned over is closed: it may be opened again.
    moved = std::move(other);
    HOLDS(moved.size() == 2 && numbers(path + ".other").empty());
}

// One that was moved from refuses each member, and can be moved, swapped and assigned to.
static void moving(const std::string &path) {
    numbers other(path);
    other.push_back(5);
    numbers vector(std::move(other));
    const list rows = {1, 2};
    const std::uint64_t raw[] = {1, 2};
    const cvec::growth made{0, 0, 1};
    const auto none = std::chrono::seconds(0);
    const std::function<void()> calls[] = {
        [&] { other.push_back(1); },
        [&] { other.emplace_back(1); },
        [&] { other.grow_by(0); },
        [&] { other.grow_by(1); },
        [&] { other.grow_by(0, 1); },
        [&] { other.grow_by({1, 2}); },
        [&] { other.grow_by(rows.begin(), rows.end()); },
        [&] { other.grow_by(rows.begin(), rows.begin()); },
        [&] { other.grow_to_at_least(0); },
        [&] { other.grow_to_at_least(1, 1); },
        [&] { other.append(1); },
        [&] { other.append({1, 2}); },
        [&] { other.append(rows.begin(), rows.begin()); },
        [&] { other.grow_with(1, [](auto &) {}); },
        [&] { other.change(0, 1); },
        [&] { other.change(0, raw); },
        [&] { other.change(0, {1, 2}); },
        [&] { other.change(0, rows.begin(), rows.begin()); },
        [&] { other.fold(); },
        [&] { other.compact(); },
        [&] { other.clear(); },
        [&] { other.resize(0); },
        [&] { other.resize(1, 1); },
        [&] { other.settle(); },
        [&] { other.settle(made); },
        [&] { static_cast<void>(other.settle_for(none)); },
        [&] { static_cast<void>(other.settle_for(made, none)); },
        [&] { static_cast<void>(other.settled()); },
        [&] { static_cast<void>(other.is_settled(made)); },
        [&] { other.run_flusher(std::chrono::seconds(1)); },
        [&] { other.start_flusher(std::chrono::seconds(1)); },
        [&] { other.exclusive([](auto) {}); },
        [&] { other.save(path + ".saved"); },
        [&] { other.assign(1, 1); },
        [&] { other.assign({1, 2}); },
        [&] { other = {1, 2}; },
        [&] { vector = other; },
        [&] { numbers copy(other); },
        [&] { other.reserve(1); },
        [&] { other.shrink_to_fit(); },
        [&] { other.stop_flusher(); },
        [&] { static_cast<void>(other[0]); },
        [&] { static_cast<void>(other.at(0)); },
        [&] { static_cast<void>(other.front()); },
        [&] { static_cast<void>(other.back()); },
        [&] { static_cast<void>(other.copy(0)); },
        [&] { static_cast<void>(other.view()); },
        [&] { static_cast<void>(other.piece(0)); },
        [&] { other.for_each_piece([](const auto &) {}); },
        [&] { other.for_each_piece(0, 0, [](const auto &) {}); },
        [&] { static_cast<void>(other.size()); },
        [&] { static_cast<void>(other.empty()); },
        [&] { static_cast<void>(other.begin()); },
        [&] { static_cast<void>(other.cbegin()); },
        [&] { static_cast<void>(other.end()); },
        [&] { static_cast<void>(other.cend()); },
        [&] { static_cast<void>(other.rbegin()); },
        [&] { static_cast<void>(other.crbegin()); },
        [&] { static_cast<void>(other.rend()); },
        [&] { static_cast<void>(other.crend()); },
        [&] { static_cast<void>(other.range()); },
        [&] { static_cast<void>(other == vector); },
        [&] { static_cast<void>(vector < other); },
        [&] { cvec::appender<std::uint64_t> appended(other); },
        [&] { other.close(); }};
    for (const auto &call : calls) HOLDS(status_of(call) == CVEC_NOT_SO);
    HOLDS(words_of(calls[0]) == std::to_string(CVEC_NOT_SO) + " cvec: a vector without a file: it was moved from");
    HOLDS(is_out_of_range([&] { static_cast<void>(*++numbers::iterator()); }) && other.max_size() > 0 && other.max_growth() > 0);
    numbers third(std::move(other));
    HOLDS(status_of(calls[0]) == CVEC_NOT_SO && status_of([&] { third.push_back(1); }) == CVEC_NOT_SO);
    swap(third, vector);
    HOLDS(rows_of(third) == list({5}) && status_of([&] { vector.push_back(1); }) == CVEC_NOT_SO);
    other = std::move(third);
    HOLDS(rows_of(other) == list({5}) && status_of([&] { third.push_back(1); }) == CVEC_NOT_SO);
}

// Threads grow while one closes: each growth is there or was refused.
static void closing_meanwhile(const std::string &path) {
    std::atomic<std::uint64_t> grown{0}, refused{0};
    {
        numbers vector(path);
        std::atomic<bool> is_closed{false};
        in_threads(9, [&](std::uint64_t k) {
            if (k == 8) {
                std::this_thread::sleep_for(std::chrono::milliseconds(50));
                HOLDS(status_of([&] { vector.close(); }) == CVEC_DONE);
                is_closed = true;
                return;
            }
            while (status_of([&] { vector.push_back(k); }) == CVEC_DONE) ++grown;
            ++refused;
        });
        HOLDS(is_closed && refused == 8 && grown > 0);
    }
    HOLDS(numbers(path).size() == grown);
}

// Whatever memory is refused while it is opened, the file is left to who opens it next. Its whole path takes more than its own.
static void opening_without_memory(const std::string &path) {
    const std::size_t slash = path.rfind('/');
    const std::string name = path.substr(slash + 1);
    HOLDS(::chdir(path.substr(0, slash).c_str()) == 0);
    numbers(name).push_back(5);
    int refused = 0;
    for (bool is_open = false; !is_open; ++refused) {
        news_left = refused;
        try {
            const numbers vector(name);
            is_open = true;
        } catch (const std::bad_alloc &) {
        }
        news_left = -1;
        HOLDS(status_of([&] { HOLDS(rows_of(numbers(name)) == list({5})); }) == CVEC_DONE);
        if (wrong != 0) return;
    }
    // That of its whole path among them, where its own takes none.
    HOLDS(refused > 1);
}

static void write_file(const std::string &path, const std::string &bytes) { std::ofstream(path, std::ios::binary) << bytes; }

static std::string bytes_of(const std::string &path) {
    std::ifstream file(path, std::ios::binary);
    return std::string(std::istreambuf_iterator<char>(file), {});
}

template <class T> static std::uint32_t opens(const std::string &path, const cvec::options &wanted = {}) {
    return status_of([&] { cvec::concurrent_vector<T> vector(path, wanted); });
}

// By what sentence a vector of this type is refused.
template <class T> static std::string sentence_of(const std::string &path) {
    try {
        cvec::concurrent_vector<T> vector(path);
        return "it was opened";
    } catch (const cvec::error &refusal) {
        return refusal.what();
    }
}

static void refusals(const std::string &path) {
    const cvec::options open{cvec::opening::open}, create{cvec::opening::create};
    try {
        numbers vector(path, open);
        HOLDS(vector.empty() && false);
    } catch (const cvec::error &refusal) {
        HOLDS(refusal.status() == CVEC_DISK_OPEN && refusal.system_error() == ENOENT);
        HOLDS(std::string(refusal.what()) == "cvec: " + path + ": the file can't be opened: No such file or directory");
    }
    HOLDS(opens<std::uint64_t>(path, {cvec::opening::create, 3}) == CVEC_NOT_SO);
    HOLDS(opens<std::uint64_t>(path, {cvec::opening::create, 1, 0}) == CVEC_NOT_SO);
    HOLDS(opens<std::uint64_t>(path, {cvec::opening::create, 1, 65}) == CVEC_NOT_SO);
    HOLDS(::access(path.c_str(), F_OK) != 0);
    {
        numbers vector(path, create);
        vector.grow_by({1, 2, 3});
        HOLDS(opens<std::uint64_t>(path) == CVEC_IN_USE && opens<std::uint64_t>(path, create) == CVEC_IN_USE);
    }
    const std::string before = bytes_of(path);
    HOLDS(opens<std::uint64_t>(path, create) == CVEC_EXISTS);
    // Three words are no rows of two or of four, but one of three.
    HOLDS((opens<std::array<std::uint64_t, 2>>(path) == CVEC_WIDTH && opens<std::array<double, 4>>(path, open) == CVEC_WIDTH));
    HOLDS((sentence_of<std::array<char, 9>>(path) == "cvec: " + path + ": its records are no whole rows of 16 bytes"));
    HOLDS(samples(path, open).size() == 1);
    HOLDS(opens<sample>(path, open) == CVEC_WIDTH && bytes_of(path) == before);
    HOLDS(opens<std::uint64_t>("/tmp") == CVEC_NOT_FILE && opens<std::uint64_t>("/dev/null") == CVEC_NOT_FILE);
    // What a stopped creation leaves is begun again, but not where the file is to be there.
    write_file(path, "");
    HOLDS(opens<std::uint64_t>(path, open) == CVEC_UNBORN);
    HOLDS(opens<std::uint64_t>(path) == CVEC_DONE && bytes_of(path) == std::string("\1CVECSEG\1\10\0\0", 12));
    const std::pair<std::string, std::uint32_t> others[] = {{std::string("\1CVECSEG\1\4\0\0", 12), CVEC_WIDTH},
                                                            {std::string("\1CVECSEG\7\10\0\0", 12), CVEC_VERSION},
                                                            {std::string("\1CVECSEG\1\10\0\1\1", 13), CVEC_DAMAGED},
                                                            {"\1 is no file of ours", CVEC_NOT_SEGMENT},
                                                            {"a text of somebody else's", CVEC_UNBORN}};
    for (const auto &[bytes, refusal] : others) {
        write_file(path, bytes);
        HOLDS(opens<std::uint64_t>(path) == refusal && opens<std::uint64_t>(path, open) == refusal);
        HOLDS(opens<std::uint64_t>(path, create) == CVEC_EXISTS && bytes_of(path) == bytes);
    }
}

// Another process has the file.
static void locked(const std::string &path) {
    for (const auto how : {cvec::opening::open_or_create, cvec::opening::open, cvec::opening::create})
        HOLDS(opens<std::uint64_t>(path, {how}) == CVEC_IN_USE);
}

static void versions(const std::string &path) {
    numbers(path, {cvec::opening::create, 2}).push_back(5);
    HOLDS(bytes_of(path)[8] == 2);
    numbers vector(path);
    HOLDS(vector.back() == 5);
}

static void forking(const std::string &path) {
    numbers vector(path, {cvec::opening::create, 1, 1}), empty(path + ".empty");
    vector.push_back(5);
    cvec::appender<std::uint64_t> rows(vector);
    rows.push_back(6);
    const pid_t child = ::fork();
    if (child == 0) {
        ::alarm(10);
        HOLDS(status_of([&] { vector.push_back(9); }) == CVEC_FORKED);
        HOLDS(status_of([&] { vector.settle(); }) == CVEC_FORKED && status_of([&] { rows.flush(); }) == CVEC_FORKED);
        HOLDS(status_of([&] { empty.settle(); }) == CVEC_FORKED);
        HOLDS(status_of([&] { static_cast<void>(empty.settle_for(std::chrono::seconds(0))); }) == CVEC_FORKED);
        HOLDS(status_of([&] { vector.run_flusher(std::chrono::hours(1)); }) == CVEC_FORKED);
        HOLDS(status_of([&] { vector.stop_flusher(); }) == CVEC_FORKED);
        HOLDS(status_of([&] { vector.change(0, 9); }) == CVEC_FORKED && status_of([&] { vector.fold(); }) == CVEC_FORKED);
        HOLDS(status_of([&] { vector.close(); }) == CVEC_DONE);
        std::fflush(stdout);
        ::_exit(wrong);
    }
    int ended = 1;
    ::waitpid(child, &ended, 0);
    HOLDS(ended == 0);
    rows.settle();
    vector.push_back(7);
    HOLDS(rows_of(vector) == list({5, 6, 7}));
}

// How the child of a fork ends that does this, in 10 seconds. The first process of a namespace gets no signal that it doesn't take.
static int ends_in_a_fork(const std::function<bool()> &call) {
    const pid_t child = ::fork();
    if (child == 0) {
        std::signal(SIGALRM, [](int) { ::_exit(2); });
        ::alarm(10);
        ::_exit(call() ? 0 : 1);
    }
    int ended = 1;
    ::waitpid(child, &ended, 0);
    return ended;
}

// How many descriptors of this process lead to the file.
static std::ptrdiff_t descriptors_of(const std::string &path) {
    const std::filesystem::directory_iterator all("/proc/self/fd");
    return std::count_if(begin(all), end(all), [&](const std::filesystem::directory_entry &it) {
        std::error_code ignored;
        return std::filesystem::read_symlink(it.path(), ignored) == std::filesystem::canonical(path);
    });
}

// A child closes what it has, as often as it does, and nothing of its parent's: the file stays open and locked there.
static void closing_in_a_fork(const std::string &path) {
    auto vector = std::make_unique<numbers>(path);
    vector->grow_by({5, 6});
    HOLDS((*vector)[1] == 6 && descriptors_of(path) == 1);
    const auto closes = [&] {
        HOLDS(descriptors_of(path) == 1);
        for (int turn = 0; turn < 2; ++turn) HOLDS(status_of([&] { vector->close(); }) == CVEC_DONE && descriptors_of(path) == 0);
        HOLDS(status_of([&] { vector->push_back(9); }) == CVEC_NOT_SO && (*vector)[1] == 6);
        vector.reset();
        std::fflush(stdout);
        return wrong == 0;
    };
    const auto destroys = [&] {
        vector.reset();
        HOLDS(descriptors_of(path) == 0);
        std::fflush(stdout);
        return wrong == 0;
    };
    HOLDS(ends_in_a_fork(closes) == 0 && ends_in_a_fork(destroys) == 0);
    HOLDS(status_of([&] { numbers again(path); }) == CVEC_IN_USE && vector->settled() == 0);
    vector->push_back(7);
    vector->close();
    HOLDS(rows_of(numbers(path)) == list({5, 6, 7}));
}

// At the fork the only seat is lent: the child is refused, and waits for nobody.
static void forking_meanwhile(const std::string &path) {
    numbers vector(path, {cvec::opening::create, 1, 1});
    std::atomic<bool> is_over{false};
    std::thread other([&] {
        while (!is_over) vector.push_back(1);
    });
    for (int turn = 0; turn < 200 && wrong == 0; ++turn) {
        const pid_t child = ::fork();
        if (child == 0) {
            ::alarm(10);
            const bool is_refused = status_of([&] { vector.push_back(2); }) == CVEC_FORKED;
            const bool is_changed = status_of([&] { vector.change(0, 2); }) != CVEC_FORKED;
            const bool is_closed = status_of([&] { vector.close(); }) == CVEC_DONE;
            ::_exit(is_refused && !is_changed && is_closed ? 0 : 1);
        }
        int ended = 1;
        ::waitpid(child, &ended, 0);
        HOLDS(ended == 0);
    }
    is_over = true;
    other.join();
    HOLDS(std::all_of(vector.begin(), vector.end(), [](std::uint64_t it) { return it == 1; }));
}

// At the fork a flusher rests, whose thread the child hasn't got.
static void forking_beside_a_flusher(const std::string &path) {
    auto vector = std::make_unique<numbers>(path);
    std::thread flusher([&] { vector->run_flusher(std::chrono::hours(1)); });
    for (int turn = 0; turn < 5; ++turn) {
        std::this_thread::sleep_for(std::chrono::milliseconds(20));
        HOLDS(ends_in_a_fork([&] {
                  vector.reset();
                  return true;
              }) == 0);
    }
    vector->stop_flusher();
    flusher.join();
    vector->push_back(5);
    HOLDS(rows_of(*vector) == list({5}));
}

// At the fork another thread has the turn to grow to a length.
static void forking_in_a_turn(const std::string &path) {
    numbers vector(path);
    std::atomic<bool> is_inside{false}, is_over{false};
    during_size = [&] {
        is_inside = true;
        while (!is_over) std::this_thread::yield();
    };
    std::thread other([&] { vector.grow_to_at_least(3, 5); });
    while (!is_inside) std::this_thread::yield();
    HOLDS(ends_in_a_fork([&] { return status_of([&] { vector.grow_to_at_least(9); }) == CVEC_FORKED; }) == 0);
    HOLDS(ends_in_a_fork([&] { return status_of([&] { vector.resize(9); }) == CVEC_FORKED; }) == 0);
    is_over = true;
    other.join();
    during_size = nullptr;
    HOLDS(rows_of(vector) == list({5, 5, 5}));
}

// Each child has its parent's number, as the first process of a namespace may.
static void forking_with_one_number(const std::string &path) {
    number_of_all = ::getpid();
    forking(path + ".1");
    forking_meanwhile(path + ".2");
    forking_beside_a_flusher(path + ".3");
    forking_in_a_turn(path + ".4");
}

// Of a process that is the first of its namespace, as the child is of its own. At the fork another thread has the only seat, and
// the turn to grow to a length.
static void forking_into_a_namespace(const std::string &path) {
    auto vector = std::make_unique<numbers>(path, cvec::options{cvec::opening::create, 1, 1});
    std::atomic<bool> is_inside{false}, is_over{false};
    during_size = [&] {
        is_inside = true;
        while (!is_over) std::this_thread::yield();
    };
    std::thread other([&] { vector->grow_to_at_least(3, 5); });
    while (!is_inside) std::this_thread::yield();
    HOLDS(::getpid() == 1 && ::unshare(CLONE_NEWPID) == 0);
    HOLDS(ends_in_a_fork([&] {
              const bool is_refused = ::getpid() == 1 && status_of([&] { vector->push_back(2); }) == CVEC_FORKED &&
                                      status_of([&] { vector->close(); }) == CVEC_DONE;
              vector.reset();
              return is_refused;
          }) == 0);
    is_over = true;
    other.join();
    during_size = nullptr;
    HOLDS(rows_of(*vector) == list({5, 5, 5}));
}

// Past the greatest size of a file.
static void breaking(const std::string &path) {
    numbers vector(path);
    vector.grow_by({1, 2, 3});
    vector.settle();
    const rlimit most{4096, 4096};
    ::setrlimit(RLIMIT_FSIZE, &most);
    const cvec::growth made = vector.append(numbers::value_type{4});
    vector.settle(made);
    vector.grow_by(1000, 5);
    try {
        vector.settle();
        HOLDS(vector.empty());
    } catch (const cvec::error &refusal) {
        HOLDS(refusal.status() == CVEC_DISK_WRITE && refusal.system_error() == EFBIG);
    }
    HOLDS(status_of([&] { vector.push_back(6); }) == CVEC_BROKEN && status_of([&] { vector.settle(); }) == CVEC_BROKEN);
    // What was settled is so still, and all is read.
    HOLDS(status_of([&] { vector.settle(made); }) == CVEC_DONE && vector.settled() == 2 && vector.size() == 1004);
    {
        cvec::appender<std::uint64_t> rows(vector);
        rows.push_back(7);
    }
    HOLDS(status_of([&] { vector.close(); }) == CVEC_BROKEN);
    numbers again(path, {cvec::opening::open});
    HOLDS(rows_of(again) == list({1, 2, 3, 4}));
}

// ---- seats and turns

// Threads have one seat, and each waits for its rows too.
static void few_seats(const std::string &path) {
    numbers vector(path, {cvec::opening::create, 1, 1});
    std::atomic<bool> is_right{true};
    in_threads(8, [&](std::uint64_t k) {
        for (std::uint64_t turn = 0; turn < 20; ++turn) {
            const cvec::growth made = vector.append(k);
            vector.settle(made);
            if (vector[made.first] != k || !vector.is_settled(made)) is_right = false;
        }
    });
    HOLDS(is_right && vector.size() == 160);
}

// Threads come and go, more than there are seats.
static void many_threads(const std::string &path) {
    numbers vector(path);
    for (std::uint64_t turn = 0; turn < 40; ++turn) in_threads(8, [&](std::uint64_t k) { vector.push_back(turn * 8 + k); });
    list found = rows_of(vector), wanted(320);
    std::iota(wanted.begin(), wanted.end(), std::uint64_t{0});
    std::sort(found.begin(), found.end());
    HOLDS(found == wanted);
}

// Threads that come at once to grow to a length. Who has looked at it rests before it grows, so that others could look too.
static void turns(const std::string &path) {
    constexpr std::uint64_t threads = 8;
    numbers vector(path);
    std::atomic<std::uint64_t> looks{0};
    behind_size = [&] {
        ++looks;
        rest();
    };
    for (std::size_t length = 1; length <= 40; length += 3) {
        std::atomic<std::uint64_t> come{0};
        in_threads(threads, [&](std::uint64_t k) {
            for (++come; come < threads;) std::this_thread::yield();
            vector.grow_to_at_least(length, k);
        });
        HOLDS(vector.size() == length);
        if (wrong != 0) break;
    }
    behind_size = nullptr;
    HOLDS(looks > 14 * threads && vector.size() == 40);
}

// ---- more growths than a phase takes

// Growths of each thread are in order behind the first rows, each once.
static void are_turns_of(const numbers &vector, std::size_t first, std::uint64_t threads, std::uint64_t each) {
    std::vector<std::uint64_t> next(threads, 0);
    HOLDS(vector.size() == first + threads * each);
    for (auto row = vector.begin() + static_cast<std::ptrdiff_t>(first), end = vector.end(); row != end; ++row) {
        const std::uint64_t found = *row;
        HOLDS(found % each == next[found / each]++);
        if (wrong != 0) return;
    }
}

// So many growths by phases that have room for few, while nothing is lent.
static void renewing_by(const std::string &path, std::uint64_t threads, std::uint64_t room, std::uint64_t growths) {
    const std::uint64_t each = growths / threads;
    std::remove(path.c_str());
    numbers vector(path, {cvec::opening::create, 1, 64, room});
    const cvec::growth early = vector.append(std::uint64_t{7});
    std::vector<cvec::growth> last(threads);
    std::thread flusher([&] { vector.run_flusher(std::chrono::milliseconds(2)); });
    in_threads(threads, [&](std::uint64_t k) {
        for (std::uint64_t turn = 0; turn < each; ++turn) {
            last[k] = vector.append(k * each + turn);
            if (turn % 500 == 0) vector.settle(last[k]);
            if (turn % 500 == 1) static_cast<void>(vector.settle_for(last[k], std::chrono::milliseconds(1)));
        }
    });
    HOLDS(vector.size() == threads * each + 1 && vector.is_settled(early));
    vector.settle(early);
    HOLDS(vector.settle_for(early, std::chrono::seconds(0)));
    HOLDS(std::max_element(last.begin(), last.end(), [](auto &a, auto &b) { return a.number < b.number; })->number ==
          threads * each);
    for (std::uint64_t k = 0; k < threads; ++k) HOLDS(vector[last[k].first] == (k + 1) * each - 1);
    vector.settle();
    HOLDS(vector.settled() == threads * each + 1);
    vector.close();
    flusher.join();
    are_turns_of(numbers(path), 1, threads, each);
}

static void renewing(const std::string &path) {
    renewing_by(path, 4, 1000, 20000);
    renewing_by(path, 4, 8, 1000);
    renewing_by(path, 2, 1, 100);
}

static void renewing_by_one_and_many(const std::string &path) {
    renewing_by(path, 1, 1000, 20000);
    renewing_by(path, 16, 1000, 20000);
}

// Changes come as phases end. What is looked at meanwhile is copied: what is lent would keep a phase from its end.
static void renewing_beside_changes(const std::string &path) {
    const std::uint64_t threads = 8, each = 5000, first = 100, room = 500;
    numbers vector(path, {cvec::opening::create, 2, 4, room});
    vector.grow_by(first, 0);
    std::thread changer([&] {
        for (std::uint64_t k = 1; k <= 60; ++k) {
            std::this_thread::sleep_for(std::chrono::microseconds(100));
            vector.change(k % first, k);
            HOLDS(vector.copy(k % first) == k);
        }
    });
    in_threads(threads, [&](std::uint64_t k) {
        for (std::uint64_t turn = 0; turn < each; ++turn) vector.push_back(k * each + turn);
    });
    changer.join();
    vector.close();
    are_turns_of(numbers(path), first, threads, each);
}

// The file that was opened is grown, though by its name it is gone, and another of the same length stands there.
static void renewing_elsewhere(const std::string &path) {
    const std::string other = path + ".other";
    const std::uint64_t room = 1000;
    numbers vector(path, {cvec::opening::create, 1, 4, room});
    std::uint64_t grown = 0;
    for (; grown < room; ++grown) vector.push_back(grown);
    HOLDS(std::rename(path.c_str(), other.c_str()) == 0);
    numbers(path).grow_to_at_least(room, 7);
    for (; grown < room + 32; ++grown) vector.push_back(grown);
    vector.close();
    const numbers put(path), gone(other);
    HOLDS(put.size() == room && put.front() == 7 && put.back() == 7);
    HOLDS(gone.size() == room + 32 && gone.front() == 0 && gone.back() == room + 31);
}

// 200 threads by 64 seats.
static void more_threads_than_seats(const std::string &path) {
    const std::uint64_t threads = 200, each = 50;
    {
        numbers vector(path);
        in_threads(threads, [&](std::uint64_t k) {
            for (std::uint64_t turn = 0; turn < each; ++turn) vector.push_back(k * each + turn);
        });
    }
    are_turns_of(numbers(path), 0, threads, each);
}

int main(int argc, char **argv) {
    static const behaviours_by_name all = {
        {"growing", growing},
        {"greatest_growth", greatest_growth},
        {"past_the_end", past_the_end},
        {"structs", structs},
        {"other_types", other_types},
        {"reading", reading},
        {"iterators", iterators},
        {"pieces", pieces},
        {"shared_iterator", shared_iterator},
        {"ranges", ranges},
        {"receipts", receipts},
        {"deadlines", deadlines},
        {"deadlines_for_a_seat", deadlines_for_a_seat},
        {"flushing", flushing},
        {"own_flusher", own_flusher},
        {"settling_lends_seats", settling_lends_seats},
        {"pushing_long", pushing_long},
        {"shortening", shortening},
        {"shortened", shortened},
        {"changing", changing},
        {"changing_nothing", changing_nothing},
        {"changing_most", changing_most},
        {"changing_counts_on", changing_counts_on},
        {"changing_has_seats_again", changing_has_seats_again},
        {"changing_ends", changing_ends},
        {"changing_beside", changing_beside},
        {"changing_comes_soon", changing_comes_soon},
        {"reading_beside_changes", reading_beside_changes},
        {"reading_beside_reads", reading_beside_reads},
        {"changing_breaks", changing_breaks},
        {"changed", changed},
        {"folded", folded},
        {"rewriting", rewriting},
        {"rewriting_beside", rewriting_beside},
        {"rewriting_by_threads", rewriting_by_threads},
        {"rewriting_is_refused", rewriting_is_refused},
        {"searching", searching},
        {"appenders", appenders},
        {"closing", closing},
        {"closing_meanwhile", closing_meanwhile},
        {"moving", moving},
        {"opening_without_memory", opening_without_memory},
        {"refusals", refusals},
        {"locked", locked},
        {"versions", versions},
        {"forking", forking},
        {"closing_in_a_fork", closing_in_a_fork},
        {"forking_meanwhile", forking_meanwhile},
        {"forking_beside_a_flusher", forking_beside_a_flusher},
        {"forking_in_a_turn", forking_in_a_turn},
        {"forking_with_one_number", forking_with_one_number},
        {"forking_into_a_namespace", forking_into_a_namespace},
        {"breaking", breaking},
        {"few_seats", few_seats},
        {"many_threads", many_threads},
        {"turns", turns},
        {"renewing", renewing},
        {"renewing_elsewhere", renewing_elsewhere},
        {"renewing_by_one_and_many", renewing_by_one_and_many},
        {"renewing_beside_changes", renewing_beside_changes},
        {"more_threads_than_seats", more_threads_than_seats},
    };
    return behave(argc, argv, all);
}
