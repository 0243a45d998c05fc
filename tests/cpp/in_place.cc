// Growth in place, each behaviour by its name: in_place NAME FILE. The status is 0 where it is as promised; else a line says what
// isn't. The files that it leaves begin with that name.
#define cvec_seat_block watched_block
#include "told.hpp"
#undef cvec_seat_block

#include <algorithm>
#include <cstring>
#include <memory>
#include <numeric>
#include <sys/wait.h>
#include <unistd.h>

using namespace std::chrono_literals;
using numbers = cvec::concurrent_vector<std::uint64_t>;
using list = std::vector<std::uint64_t>;

// What is done while the vector is asked for a block.
static std::function<void()> during_block;

extern "C" cvec_status cvec_seat_block(cvec_seat *, std::size_t, void **);
extern "C" cvec_status watched_block(cvec_seat *seat, std::size_t count, void **records) {
    if (during_block) std::exchange(during_block, nullptr)();
    return cvec_seat_block(seat, count, records);
}

struct three {
    std::uint32_t a, b, c;
};
struct odd {
    unsigned char bytes[27];
};
// Without a default, and not to be assigned to.
struct constant {
    constant(std::uint64_t a, std::uint64_t b) : one(a), other(b) {}
    const std::uint64_t one, other;
};

static bool operator==(const three &a, const three &b) { return a.a == b.a && a.b == b.b && a.c == b.c; }
static bool operator==(const odd &a, const odd &b) { return std::memcmp(a.bytes, b.bytes, sizeof a.bytes) == 0; }
static bool operator==(const constant &a, const constant &b) { return a.one == b.one && a.other == b.other; }
static bool operator==(const cvec_pair &a, const cvec_pair &b) { return std::memcmp(&a, &b, sizeof a) == 0; }
static bool operator==(const cvec_flagged &a, const cvec_flagged &b) { return a.key == b.key && a.flag == b.flag; }

static odd odd_of(std::uint64_t k) {
    odd made{};
    for (std::size_t at = 0; at < sizeof made.bytes; ++at) made.bytes[at] = static_cast<unsigned char>(k * 31 + at * 7 + 1);
    return made;
}

static cvec_pair pair_of(std::uint64_t k) {
    cvec_pair made{};
    const std::uint64_t words[] = {k, ~k};
    std::memcpy(&made, words, sizeof made);
    return made;
}

// ---- of each type

// Whether all bytes from one row to the next are 0, but for those of T.
template <class T> static bool is_blank_behind(const T &row, std::size_t stride) {
    const auto *bytes = reinterpret_cast<const unsigned char *>(std::addressof(row));
    return std::all_of(bytes + sizeof(T), bytes + stride, [](unsigned char it) { return it == 0; });
}

// Rows stand where they were written, each in its turn, behind and before growths by copies, and in the file.
template <class T, class Layout = cvec::one_record> static void is_grown(const std::string &path, T (*made)(std::uint64_t)) {
    constexpr std::size_t stride = cvec::detail::row<T, Layout>::bytes;
    const std::size_t lengths[] = {1, 2, 40, 700, 5};
    std::vector<T> rows;
    {
        cvec::concurrent_vector<T, Layout> vector(path);
        std::vector<const T *> places;
        std::uint64_t growths = 0; // in place
        for (const std::size_t length : lengths) {
            const cvec::growth grown = vector.grow_with(length, [&](cvec::new_rows<T, Layout> &blank) {
                HOLDS(blank.size() == length && !blank.empty() &&
                      blank.end() - blank.begin() == static_cast<std::ptrdiff_t>(length));
                for (std::size_t k = 0; k < length; ++k) {
                    T *const place = std::addressof(blank[k]);
                    HOLDS(k == 0 || reinterpret_cast<unsigned char *>(place) ==
                                        reinterpret_cast<unsigned char *>(std::addressof(blank[0])) + k * stride);
                    HOLDS(place == std::addressof(blank.begin()[static_cast<std::ptrdiff_t>(k)]));
                    places.push_back(::new (place) T(made(rows.size())));
                    rows.push_back(*place);
                }
            });
            HOLDS(grown.first + length == rows.size() && grown.length == length && grown.number == 2 * growths++);
            vector.push_back(made(rows.size()));
            places.push_back(std::addressof(vector[rows.size()]));
            rows.push_back(made(rows.size()));
        }
        HOLDS(vector.size() == rows.size());
        for (std::size_t k = 0; k < rows.size(); ++k)
            HOLDS(std::addressof(vector[k]) == places[k] && vector[k] == rows[k] && vector.copy(k) == rows[k]);
        for (std::size_t k = 0; k < rows.size(); ++k) HOLDS(is_blank_behind(vector[k], stride));
        vector.compact();
        HOLDS(std::equal(vector.begin(), vector.end(), rows.begin(), rows.end()));
    }
    const cvec::concurrent_vector<T, Layout> again(path, {cvec::opening::open});
    HOLDS(std::equal(again.begin(), again.end(), rows.begin(), rows.end()));
}

static void each_type(const std::string &path) {
    is_grown<std::uint64_t>(path + ".u64", [](std::uint64_t k) { return ~k; });
    is_grown<std::uint32_t>(path + ".u32", [](std::uint64_t k) { return static_cast<std::uint32_t>(k * 77); });
    is_grown<std::uint32_t, cvec::rows_of_u64>(path + ".u32_by_u64",
                                               [](std::uint64_t k) { return static_cast<std::uint32_t>(k * 77); });
    is_grown<char>(path + ".char", [](std::uint64_t k) { return static_cast<char>(k % 127); });
    is_grown<cvec_pair>(path + ".pair", pair_of);
    is_grown<cvec_flagged>(path + ".flagged", [](std::uint64_t k) { return cvec_flagged{k, k % 3 == 0}; });
    is_grown<three>(path + ".three", [](std::uint64_t k) {
        const auto a = static_cast<std::uint32_t>(k);
        return three{a, a * 3, ~a};
    });
    is_grown<odd>(path + ".odd", odd_of);
    is_grown<constant>(path + ".constant", [](std::uint64_t k) { return constant(k, ~k); });
    is_grown<std::pair<int, double>>(path + ".std_pair", [](std::uint64_t k) { return std::make_pair(static_cast<int>(k), 0.25); });
}

// What isn't written is 0. A receipt is settled as any.
static void what_it_gives(const std::string &path) {
    numbers vector(path);
    vector.push_back(9);
    const cvec::growth made = vector.grow_with(4, [](auto &rows) { rows[2] = 7; });
    HOLDS(made.number == 1 && made.first == 1 && made.length == 4 && !vector.is_settled(made));
    HOLDS(list(vector.begin(), vector.end()) == list({9, 0, 0, 7, 0}));
    vector.settle(made);
    HOLDS(vector.is_settled(made) && vector.settled() == 2);
    // As one of all.
    const cvec::growth last = vector.grow_with(1, [](auto &rows) { rows[0] = 1; });
    HOLDS(!vector.is_settled(last));
    vector.settle();
    HOLDS(vector.is_settled(last) && vector.settled() == 3);
    vector.resize(5);
    // By any form of rows that there is.
    vector.grow_with(2, [](cvec::new_rows<std::uint64_t> rows) { std::fill(rows.begin(), rows.end(), std::uint64_t{5}); });
    vector.grow_with(2, [](auto rows) { std::iota(rows.data(), rows.data() + rows.size(), std::uint64_t{6}); });
    int calls = 0;
    const auto fill = [&calls](const auto &rows) { ++calls, rows[0] = 8; };
    vector.grow_with(1, fill);
#if defined(__cpp_lib_span)
    vector.grow_with(2, [](std::span<std::uint64_t> rows) { rows.front() = rows.back() = 3; });
#else
    vector.grow_by(2, 3);
#endif
    HOLDS(calls == 1 && list(vector.begin() + 5, vector.end()) == list({5, 5, 6, 7, 8, 3, 3}));
}

// ---- refused

struct thrown_by_fill {};

// It leaves nothing: no row, no number of a growth, no seat and no hold.
static void what_it_throws(const std::string &path) {
    numbers vector(path, {cvec::opening::create, 1, 1});
    vector.push_back(1);
    for (int turn = 0; turn < 100; ++turn) {
        bool is_thrown = false;
        try {
            vector.grow_with(1000, [](auto &rows) {
                std::fill(rows.begin(), rows.end(), std::uint64_t{6});
                throw thrown_by_fill();
            });
        } catch (const thrown_by_fill &) {
            is_thrown = true;
        }
        HOLDS(is_thrown && vector.size() == 1);
    }
    vector.change(0, 2);
    HOLDS(vector.append(std::uint64_t{3}).number == 1 && vector.grow_with(1, [](auto &rows) { rows[0] = 4; }).number == 2);
    HOLDS(list(vector.begin(), vector.end()) == list({2, 3, 4}));
    vector.close();
    const numbers again(path);
    HOLDS(list(again.begin(), again.end()) == list({2, 3, 4}));
}

// Before fill is called, or behind it.
static void refusals(const std::string &path) {
    numbers vector(path, {cvec::opening::create, 1, 1, 3});
    bool is_called = false;
    const auto fill = [&is_called](auto &) { is_called = true; };
    HOLDS(status_of([&] { vector.grow_with(0, fill); }) == CVEC_EMPTY);
    HOLDS(status_of([&] { vector.grow_with(vector.max_growth() + 1, fill); }) == CVEC_TOO_LARGE && !is_called);
    HOLDS(vector.grow_with(vector.max_growth(), fill).length == 131071 && is_called);
    vector.grow_by({1, 2});
    vector.push_back(3);
    // What was published is lent, so that the phase is full: the block is dropped.
    HOLDS(status_of([&] { vector.grow_with(1, fill); }) == CVEC_FULL && vector.size() == 131074);
    vector.clear();
    HOLDS(vector.grow_with(1, fill).number == 3);
    vector.close();
    is_called = false;
    HOLDS(status_of([&] { vector.grow_with(1, fill); }) == CVEC_NOT_SO && !is_called);
    // A flag is 0 or 1.
    cvec::concurrent_vector<cvec_flagged> flags(path + ".flagged", {cvec::opening::create, 1, 1});
    const auto wrong_flag = [](auto &rows) { std::memset(reinterpret_cast<unsigned char *>(std::addressof(rows[1].flag)), 2, 1); };
    HOLDS(status_of([&] { flags.grow_with(2, wrong_flag); }) == CVEC_NO_RECORD && flags.empty());
    HOLDS(flags.grow_with(2, [](auto &rows) { rows[1].flag = true; }).number == 0 && flags[1].flag && !flags[0].flag);
}

// ---- calls within it

// By one seat, which the growth doesn't keep from them; also by threads for which fill waits.
static void calls_within_it(const std::string &path) {
    numbers vector(path, {cvec::opening::create, 1, 1});
    vector.grow_by({1, 2, 3});
    const cvec::growth made = vector.grow_with(3, [&](auto &rows) {
        HOLDS(vector.size() == 3 && vector[2] == 3 && vector.copy(0) == 1);
        const auto view = vector.view();
        for (std::size_t k = 0; k < 3; ++k) rows[k] = view[k] * 10;
        vector.push_back(4);
        vector.settle();
        in_threads(3, [&](std::uint64_t k) { vector.push_back(vector[k] + 4); });
    });
    HOLDS(made.first == 7 && list(vector.begin() + 7, vector.end()) == list({10, 20, 30}) && vector.size() == 10);
}

// One within another, as many as there are: none keeps a seat from another.
static void one_within_another(const std::string &path) {
    numbers two(path, {cvec::opening::create, 1, 2}), one(path + ".one", {cvec::opening::create, 1, 1});
    two.grow_with(1, [&](auto &outer) {
        outer[0] = 2;
        two.grow_with(1, [&](auto &inner) {
            inner[0] = 1;
            two.grow_with(1, [](auto &rows) { rows[0] = 3; });
            one.grow_with(1, [](auto &rows) { rows[0] = 5; });
        });
    });
    HOLDS(list(two.begin(), two.end()) == list({3, 1, 2}) && list(one.begin(), one.end()) == list({5}));
    one.grow_with(1, [&](auto &rows) {
        rows[0] = 6;
        one.grow_with(1, [](auto &inner) { inner[0] = 8; });
        one.push_back(7);
    });
    HOLDS(list(one.begin(), one.end()) == list({5, 8, 7, 6}));
}

// Those that want the vector alone would wait for it, so they are refused; those of another vector aren't.
static void whole_calls_within_it(const std::string &path) {
    numbers vector(path, {cvec::opening::create, 1, 64, 0, 10s}), other(path + ".other");
    vector.push_back(1);
    other.push_back(1);
    const auto begun = std::chrono::steady_clock::now();
    vector.grow_with(1, [&](auto &rows) {
        rows[0] = 2;
        const std::function<void()> calls[] = {[&] { vector.change(0, 9); }, [&] { vector.fold(); },  [&] { vector.compact(); },
                                               [&] { vector.resize(0); },    [&] { vector.clear(); }, [&] { vector.close(); }};
        for (const auto &call : calls) HOLDS(status_of(call) == CVEC_BUSY);
        other.change(0, 3);
        vector.resize(3, 4);
    });
    HOLDS(std::chrono::steady_clock::now() - begun < 9s && list(vector.begin(), vector.end()) == list({1, 4, 4, 2}) &&
          other[0] == 3);
    vector.change(0, 9);
    HOLDS(vector[0] == 9);
}

// ---- beside other threads

// A call that wants the vector alone waits for it, as for any call. Meanwhile calls within it go on, of other threads too.
static void whole_calls_beside_it(const std::string &path) {
    const std::function<void(numbers &)> calls[] = {[](numbers &it) { it.change(0, 9); }, [](numbers &it) { it.fold(); },
                                                    [](numbers &it) { it.compact(); },    [](numbers &it) { it.resize(1); },
                                                    [](numbers &it) { it.clear(); },      [](numbers &it) { it.close(); }};
    int number = 0;
    for (const auto &call : calls) {
        numbers vector(path + "." + std::to_string(number++));
        vector.grow_by({1, 2, 3});
        std::atomic<bool> is_done{false};
        std::thread other;
        vector.grow_with(3, [&](auto &rows) {
            other = std::thread([&] {
                call(vector);
                is_done = true;
            });
            std::this_thread::sleep_for(20ms);
            HOLDS(!is_done && vector[2] == 3);
            in_threads(2, [&](std::uint64_t k) { vector.push_back(vector.copy(k)); });
            std::fill(rows.begin(), rows.end(), std::uint64_t{7});
        });
        other.join();
        HOLDS(is_done);
    }
    numbers changed(path + ".0");
    HOLDS(changed.size() == 8 && changed[0] == 9 && changed[7] == 7);
}

// It also waits where the growth has its seat, and not yet its block, when the call comes.
static void a_whole_call_comes_as_it_begins(const std::string &path) {
    numbers vector(path);
    vector.grow_by({1, 2, 3});
    std::atomic<bool> is_done{false};
    std::thread other;
    during_block = [&] {
        other = std::thread([&] {
            vector.change(0, 9);
            is_done = true;
        });
        std::this_thread::sleep_for(50ms);
    };
    vector.grow_with(300, [&](auto &rows) {
        std::this_thread::sleep_for(20ms);
        HOLDS(!is_done && other.joinable());
        std::fill(rows.begin(), rows.end(), std::uint64_t{7});
    });
    other.join();
    HOLDS(vector.size() == 303 && vector[0] == 9 && std::count(vector.begin(), vector.end(), std::uint64_t{7}) == 300);
}

// More threads than seats grow in place, by copies, read and change. Each growth is whole and in a row.
static void threads(const std::string &path) {
    const std::uint64_t each = 300, length = 9;
    numbers vector(path, {cvec::opening::create, 1, 2, 0, 20s});
    vector.push_back(0);
    in_threads(9, [&](std::uint64_t k) {
        for (std::uint64_t turn = 0; turn < (k == 8 ? 20 : each); ++turn) {
            if (k == 8) {
                vector.change(0, turn);
            } else if (k % 4 == 3) {
                const list rows(length, k << 32 | turn);
                vector.append(rows.begin(), rows.end());
            } else {
                const cvec::growth made =
                    vector.grow_with(length, [&](auto &rows) { std::fill(rows.begin(), rows.end(), k << 32 | turn); });
                const auto view = vector.view();
                for (std::uint64_t at = 0; at < length; ++at) HOLDS(view[made.first + at] == (k << 32 | turn));
            }
        }
    });
    HOLDS(vector.size() == 1 + 8 * each * length && vector[0] == 19);
    list next(8, 0);
    for (auto row = vector.begin() + 1, end = vector.end(); row < end && wrong == 0; row += static_cast<std::ptrdiff_t>(length)) {
        const std::uint64_t thread = *row >> 32;
        HOLDS((*row & 0xffffffff) == next.at(thread)++ &&
              std::count(row, row + static_cast<std::ptrdiff_t>(length), *row) == std::ptrdiff_t(length));
    }
}

// ---- a fork

// In the midst of it a child is refused, and loses nothing of its parent's.
static void a_fork_within_it(const std::string &path) {
    numbers vector(path, for_a_fork(1));
    pid_t child = -1;
    const std::uint32_t status = status_of([&] {
        vector.grow_with(2, [&](auto &rows) {
            child = ::fork();
            if (child == 0) ::alarm(10);
            rows[0] = rows[1] = 5;
        });
    });
    if (child == 0) ::_exit(status == CVEC_FORKED && status_of([&] { vector.close(); }) == CVEC_DONE ? 0 : 1);
    int ended = 1;
    ::waitpid(child, &ended, 0);
    HOLDS(ended == 0 && status == CVEC_DONE && list(vector.begin(), vector.end()) == list({5, 5}));
    vector.change(0, 6);
    HOLDS(vector[0] == 6);
}

int main(int argc, char **argv) {
    static const behaviours_by_name all = {
        {"each_type", each_type},
        {"what_it_gives", what_it_gives},
        {"what_it_throws", what_it_throws},
        {"refusals", refusals},
        {"calls_within_it", calls_within_it},
        {"one_within_another", one_within_another},
        {"whole_calls_within_it", whole_calls_within_it},
        {"whole_calls_beside_it", whole_calls_beside_it},
        {"a_whole_call_comes_as_it_begins", a_whole_call_comes_as_it_begins},
        {"threads", threads},
        {"a_fork_within_it", a_fork_within_it},
    };
    return behave(argc, argv, all);
}
