// What programs do with a vector as with one of the standard library, each behaviour by its name: idioms NAME FILE. The status is 0
// where it is as promised; else a line says what isn't. The files that it leaves begin with that name.
#include "told.hpp"

#include <algorithm>
#include <array>
#include <cmath>
#include <csignal>
#include <cstring>
#include <filesystem>
#include <iterator>
#include <memory>
#include <optional>
#include <sys/resource.h>
#include <sys/wait.h>
#include <tuple>
#include <type_traits>
#include <unistd.h>

using numbers = cvec::concurrent_vector<std::uint64_t>;
using list = std::vector<std::uint64_t>;

// ---- types with operators of their own

// Of which no row has the address that it says. Of 8 bytes, which are one record, and of 12, behind which others stand.
template <class Number, std::size_t Count> struct elsewhere {
    std::array<Number, Count> all;

    const elsewhere *operator&() const {
        static const elsewhere other{};
        return std::addressof(other);
    }
    friend bool operator==(const elsewhere &a, const elsewhere &b) { return a.all == b.all; }
};

template <class T> static T filled(std::uint32_t number) {
    T made{};
    made.all.fill(number);
    return made;
}

// Each way in and out stores and shows the row that it was passed.
template <class T> static void is_its_own(const std::string &path) {
    const auto row = filled<T>;
    const T raw[] = {row(6), row(7)};
    const std::vector<T> some = {row(4), row(5)};
    cvec::concurrent_vector<T> vector(path);
    HOLDS(*vector.push_back(row(1)) == row(1) && *vector.emplace_back(row(2)) == row(2) && *vector.grow_by(1, row(3)) == row(3));
    vector.grow_by(some.begin(), some.end());
    vector.append(raw, raw + 2);
    vector.append({row(8)});
    vector.grow_with(1, [&](auto &rows) { rows[0] = row(9); });
    vector.grow_to_at_least(10, row(10));
    {
        cvec::appender<T> rows(vector, 1);
        rows.push_back(row(11));
        rows.emplace_back(row(12));
    }
    HOLDS(vector.size() == 12 && vector.begin()->all[0] == 1 && vector.view()[11] == row(12) && vector.copy(3) == row(4));
    for (std::uint32_t k = 0; k < 12; ++k) HOLDS(vector[k] == row(k + 1));
    const std::uint32_t places[] = {5, 0};
    std::uint32_t visited = 0;
    vector.view().visit(places, 2, [&](const T &it) { visited = visited * 100 + static_cast<std::uint32_t>(it.all[0]); });
    HOLDS(visited == 601);
    vector.change(0, row(20));
    vector.change(1, raw);
    vector.change(3, some.begin(), some.end());
    HOLDS(vector[0] == row(20) && vector[1] == row(6) && vector[2] == row(7) && vector[3] == row(4) && vector[4] == row(5));
}

static void own_addresses(const std::string &path) {
    is_its_own<elsewhere<std::uint64_t, 1>>(path + ".8");
    is_its_own<elsewhere<std::uint32_t, 3>>(path + ".12");
}

// ---- rows made of their fields

struct sample {
    std::uint64_t sensor;
    double value;
    friend bool operator==(const sample &a, const sample &b) { return a.sensor == b.sensor && a.value == b.value; }
    friend bool operator<(const sample &a, const sample &b) { return a.sensor < b.sensor; }
};

// Which is made of its fields alone: none of them has a default.
struct fixed {
    const std::uint64_t one, other;
    friend bool operator==(const fixed &a, const fixed &b) { return a.one == b.one && a.other == b.other; }
};

struct becomes_a_sample {
    operator sample() const { return {3, 0.75}; }
};

static void fields(const std::string &path) {
    cvec::concurrent_vector<sample> vector(path);
    HOLDS(*vector.emplace_back(std::uint64_t{1}, 0.25) == (sample{1, 0.25}) && *vector.emplace_back() == (sample{0, 0}));
    HOLDS(*vector.emplace_back(becomes_a_sample()) == (sample{3, 0.75}) && *vector.emplace_back(vector[0]) == (sample{1, 0.25}));
    cvec::concurrent_vector<std::array<std::uint32_t, 2>> arrays(path + ".arrays");
    HOLDS((*arrays.emplace_back(4U, 5U) == std::array<std::uint32_t, 2>{4, 5}));
    cvec::concurrent_vector<fixed> constants(path + ".fixed");
    HOLDS(*constants.emplace_back(std::uint64_t{7}, std::uint64_t{8}) == (fixed{7, 8}) && *constants.emplace_back() == (fixed{0, 0}));
    // A number is converted as it is by T(..).
    cvec::concurrent_vector<std::uint32_t> words(path + ".words");
    HOLDS(*words.emplace_back(7L) == 7);
}

// A text within a row is an array of it, which is lent as the row is.
struct named {
    char name[12];
    std::uint32_t value;
};

static void texts(const std::string &path) {
    cvec::concurrent_vector<named> vector(path);
    vector.grow_by({{"first", 1}, {"second", 2}});
    const char *const first = vector[0].name, *const second = vector.back().name;
    const auto &[name, value] = vector[1];
    for (std::uint32_t k = 0; k < 1000; ++k) vector.push_back({"other", k});
    HOLDS(std::strcmp(first, "first") == 0 && std::strcmp(second, "second") == 0 && first == vector.front().name);
    HOLDS(std::strcmp(name, "second") == 0 && &name == &vector[1].name && value == 2 && &value == &vector[1].value);
}

// ---- rows of several parts

using parts = std::tuple<std::uint32_t, double, char>;

static void tuples(const std::string &path) {
    const std::vector<parts> some = {{3, 0.75, 'c'}, {4, 1.0, 'd'}};
    {
        cvec::concurrent_vector<parts> vector(path);
        HOLDS(*vector.push_back({1, 0.25, 'a'}) == (parts{1, 0.25, 'a'}) && *vector.emplace_back(2U, 0.5, 'b') == (parts{2, 0.5, 'b'}));
        vector.grow_by(some.begin(), some.end());
        vector.change(0, parts{5, 0.125, 'e'});
        const auto &[number, value, letter] = vector[1];
        HOLDS(number == 2 && value == 0.5 && letter == 'b' && &letter == &std::get<2>(vector[1]));
        vector.close();
    }
    const cvec::concurrent_vector<parts> vector(path);
    HOLDS(vector.size() == 4 && vector[0] == (parts{5, 0.125, 'e'}) && vector.copy(3) == some[1] && std::get<1>(vector.back()) == 1.0);
    cvec::concurrent_vector<std::tuple<std::pair<int, int>, std::tuple<char>>> nested;
    HOLDS(std::get<0>(*nested.push_back({{1, 2}, {'a'}})).second == 2);
}

// ---- comparing, inserting, deducing

static void compared(const std::string &path) {
    cvec::concurrent_vector<sample> a(path), b(path + ".b"), empty(path + ".empty");
    a.grow_by({{1, 0.5}, {2, 0.5}});
    b.push_back({1, 0.5});
    HOLDS(a != b && !(a == b) && b < a && !(a < b) && a > b && !(b > a) && b <= a && a >= b && !(a <= b) && !(b >= a));
    b.push_back({2, 0.5});
    HOLDS(a == b && !(a != b) && !(a < b) && !(b < a) && a <= b && a >= b && a == a && empty < a && empty == empty);
    b.change(1, {2, 0.75});
    HOLDS(a != b && !(a < b) && !(a > b));
    b.change(1, {3, 0.5});
    HOLDS(a < b && b > a);
    const cvec::concurrent_vector<std::uint32_t> by_u32(path + ".u32");
    const cvec::concurrent_vector<std::uint32_t, cvec::rows_of_u64> by_u64(path + ".u64");
    HOLDS(by_u32 == by_u64 && by_u32 <= by_u64);
}

#if defined(__cpp_lib_three_way_comparison)
struct scores {
    double value;
    friend bool operator==(const scores &, const scores &) = default;
    friend auto operator<=>(const scores &, const scores &) = default;
};
#endif

// By T's <=>, or, of a T that has none, by its <.
static void ordered(const std::string &) {
#if defined(__cpp_lib_three_way_comparison)
    const numbers a{1, 2}, longer{1, 2, 0};
    const cvec::concurrent_vector<sample> one{{1, 0.5}}, other{{1, 0.75}}, greater{{2, 0.5}};
    const cvec::concurrent_vector<scores> none{{std::nan("")}}, some{{0.5}};
    static_assert(std::is_same_v<decltype(a <=> a), std::strong_ordering> && std::is_same_v<decltype(one <=> one), std::weak_ordering>);
    static_assert(std::is_same_v<decltype(none <=> none), std::partial_ordering>);
    HOLDS((a <=> a) == 0 && (a <=> longer) < 0 && (longer <=> a) > 0 && a < longer && longer >= a);
    HOLDS((one <=> other) == 0 && one != other && (one <=> greater) < 0 && greater > other);
    HOLDS((none <=> some) == std::partial_ordering::unordered && !(none < some) && !(none >= some));
    const auto first = a.begin(), last = a.end();
    HOLDS((first <=> last) == std::strong_ordering::less && (last <=> first) > 0 && (first <=> first) == 0);
#endif
}

// Each goes to its own, and the first becomes the second.
static int which(numbers::iterator) { return 1; }
static int which(numbers::const_iterator) { return 2; }
static int which(const numbers::range_type &) { return 3; }
static int which(const numbers::const_range_type &) { return 4; }

static void two_iterators(const std::string &) {
    numbers vector{5, 6, 7};
    const numbers &same = vector;
    HOLDS(which(vector.begin()) == 1 && which(vector.end()) == 1 && which(same.begin()) == 2 && which(vector.cbegin()) == 2);
    HOLDS(which(vector.range()) == 3 && which(same.range()) == 4 && which(vector.push_back(8)) == 1 && which(vector.grow_by(0)) == 1);
    numbers::const_iterator at = vector.begin() + 1;
    HOLDS(*at == 6 && at[1] == 7 && at == vector.begin() + 1 && vector.begin() + 1 == at && vector.begin() < at && at - vector.begin() == 1);
    at = vector.end();
    HOLDS(at == same.end() && *--at == 8 && *vector.rbegin() == 8 && *same.rbegin() == 8);
    const numbers::const_range_type part = vector.range(2);
    HOLDS(part.size() == 4 && part.grainsize() == 2 && *part.begin() == 5);
    const numbers::const_range_type mixed(vector.begin() + 1, same.end());
    HOLDS(mixed.size() == 3 && std::distance(vector.cbegin(), same.end()) == 4);
}

// What needs nothing here, or is another's name.
static void hints(const std::string &path) {
    numbers vector(path);
    vector.reserve(1000);
    vector.reserve(vector.max_size());
    HOLDS(status_of([&] { vector.reserve(vector.max_size() + 1); }) == CVEC_OUT_OF_RANGE && vector.empty());
    for (std::uint64_t k = 0; k < 9; ++k) vector.grow_by(2, k);
    HOLDS(vector.capacity() == vector.max_size() && vector.piece(0).size() < 18);
    vector.shrink_to_fit();
    HOLDS(vector.piece(0).size() == 18 && vector.settled() == 9);
    const auto view = vector.view();
    HOLDS(status_of([&] { vector.shrink_to_fit(); }) == CVEC_BUSY);
}

static void inserted(const std::string &path) {
    numbers vector(path);
    const list rows = {5, 6, 7};
    {
        cvec::appender some(vector);
        static_assert(std::is_same_v<decltype(some), cvec::appender<std::uint64_t>>);
        std::copy(rows.begin(), rows.end(), std::back_inserter(some));
        HOLDS(vector.empty() && some.buffered() == 3);
    }
    std::transform(rows.begin(), rows.end(), std::back_inserter(vector), [](std::uint64_t row) { return row * 10; });
    HOLDS(list(vector.begin(), vector.end()) == list({5, 6, 7, 50, 60, 70}));
#if defined(__cpp_lib_ranges)
    static_assert(std::random_access_iterator<numbers::iterator> && std::ranges::random_access_range<const numbers>);
    static_assert(std::random_access_iterator<cvec::concurrent_vector<named>::iterator>);
    static_assert(std::random_access_iterator<std::reverse_iterator<numbers::iterator>>);
    HOLDS(std::ranges::find(vector, std::uint64_t{50}).position() == 3 && std::ranges::equal(vector.view(), vector));
#endif
}

// ---- rows that it begins with, and that are assigned

static list rows_of(const numbers &vector) { return list(vector.begin(), vector.end()); }

static void begun(const std::string &path) {
    const list rows = {5, 6, 7}, many(300000, 4);
    const char letters[] = "abc";
    const numbers none, three(3), nines(3, 9), ranged(rows.begin(), rows.end()), listed{5, 6, 7}, long_one(many.begin(), many.end());
    HOLDS(none.empty() && rows_of(three) == list(3) && rows_of(nines) == list(3, 9) && rows_of(ranged) == rows);
    HOLDS(rows_of(listed) == rows && rows_of(long_one) == many && rows_of(numbers(300000, 4)) == many);
    const cvec::concurrent_vector deduced(rows.begin(), rows.end()), of_own(listed.begin() + 1, listed.end());
    const cvec::concurrent_vector repeated(2, 0.5);
    const cvec::concurrent_vector braced{'x', 'y'};
    static_assert(std::is_same_v<decltype(deduced), const numbers> && std::is_same_v<decltype(of_own), const numbers>);
    static_assert(std::is_same_v<decltype(repeated), const cvec::concurrent_vector<double>>);
    static_assert(std::is_same_v<decltype(braced), const cvec::concurrent_vector<char>>);
    HOLDS(rows_of(deduced) == rows && rows_of(of_own) == list({6, 7}) && repeated.size() == 2 && repeated[1] == 0.5 && braced[1] == 'y');
    // Text is a path, whatever stands behind it.
    HOLDS(cvec::concurrent_vector<char>(path.c_str(), {}).empty() && ::access(path.c_str(), F_OK) == 0);
    cvec::concurrent_vector<char> text;
    text.assign(letters, letters + 3);
    HOLDS(text.size() == 3 && text[2] == 'c');
}

// A copy has no file, and what it grows isn't in the one that was copied. It is made where it is asked for, not where one is passed.
static void copied(const std::string &path) {
    static_assert(std::is_copy_constructible_v<numbers> && !std::is_convertible_v<const numbers &, numbers>);
    static_assert(std::is_convertible_v<numbers, numbers> && std::is_nothrow_move_constructible_v<numbers>);
    numbers vector(path);
    vector.grow_by({1, 2});
    numbers copy(vector), again(copy);
    copy.push_back(3);
    HOLDS(rows_of(vector) == list({1, 2}) && rows_of(copy) == list({1, 2, 3}) && rows_of(again) == list({1, 2}));
    HOLDS(status_of([&] { copy.settle(); }) == CVEC_NOT_SO && status_of([&] { vector.settle(); }) == CVEC_DONE);
    vector.close();
    HOLDS(status_of([&] { numbers of_closed(vector); }) == CVEC_NOT_SO);
    const std::vector<numbers> several(3, copy);
    HOLDS(several[2].size() == 3 && several[1][2] == 3);
}

// The file keeps what is assigned to it.
static void assigned(const std::string &path) {
    const list many(300000, 4);
    const numbers other{8, 9};
    {
        numbers vector(path);
        vector = {5, 6, 7};
        HOLDS(rows_of(vector) == list({5, 6, 7}));
        vector.assign(vector.begin() + 1, vector.end());
        HOLDS(rows_of(vector) == list({6, 7}));
        vector.assign(3, vector[1]);
        HOLDS(rows_of(vector) == list({7, 7, 7}));
        const numbers &itself = vector;
        vector = itself;
        HOLDS(rows_of(vector) == list({7, 7, 7}) && rows_of(numbers(vector = other)) == list({8, 9}));
        vector.assign(many.begin(), many.end());
        HOLDS(rows_of(vector) == many);
        vector.assign(2, 3);
        const auto view = vector.view();
        HOLDS(status_of([&] { vector.assign({1}); }) == CVEC_BUSY && rows_of(vector) == list({3, 3}));
    }
    HOLDS(rows_of(numbers(path)) == list({3, 3}));
    numbers vector(path);
    vector = {};
    vector.close();
    HOLDS(numbers(path).empty() && rows_of(other) == list({8, 9}));
}

// ---- in memory alone

static std::ptrdiff_t descriptors() {
    const std::filesystem::directory_iterator all("/proc/self/fd");
    return std::distance(begin(all), end(all));
}

static std::string words_of(const std::function<void()> &refused) {
    try {
        refused();
        return "none";
    } catch (const cvec::error &refusal) {
        return std::to_string(refusal.status()) + ' ' + refusal.what();
    }
}

// What says that growths are durable is refused, and says so.
static void nothing_is_durable(numbers &vector) {
    const cvec::growth made = vector.append(std::uint64_t{9});
    const auto time = std::chrono::seconds(0);
    cvec::appender<std::uint64_t> some(vector);
    const std::function<void()> calls[] = {[&] { vector.settle(); },
                                           [&] { vector.settle(made); },
                                           [&] { static_cast<void>(vector.settle_for(time)); },
                                           [&] { static_cast<void>(vector.settle_for(made, time)); },
                                           [&] { vector.run_flusher(time); },
                                           [&] { vector.start_flusher(time); },
                                           [&] { vector.stop_flusher(); },
                                           [&] {
                                               some.push_back(10);
                                               some.settle();
                                           }};
    const std::string refusal = " cvec: a vector in memory: nothing of it is durable: `save` gives it a file";
    for (const auto &call : calls) HOLDS(words_of(call) == std::to_string(CVEC_NOT_SO) + refusal);
    HOLDS(vector.settled() == 0 && !vector.is_settled(made) && vector.back() == 10);
}

static void in_memory(const std::string &) {
    const std::ptrdiff_t files = descriptors();
    numbers vector;
    vector.grow_by({1, 2, 3});
    vector.change(1, 7);
    vector.fold();
    vector.compact();
    vector.grow_with(1, [](auto &rows) { rows[0] = 4; });
    HOLDS(rows_of(vector) == list({1, 7, 3, 4}) && vector.view().size() == 4 && vector.copy(1) == 7);
    vector.resize(2);
    nothing_is_durable(vector);
    HOLDS(rows_of(vector) == list({1, 7, 9, 10}));
    in_threads(4, [&](std::uint64_t k) {
        for (int turn = 0; turn < 100; ++turn) vector.push_back(k);
    });
    HOLDS(vector.size() == 404);
    vector.clear();
    vector.close();
    HOLDS(words_of([&] { vector.push_back(1); }) == std::to_string(CVEC_NOT_SO) + " cvec: a vector in memory: it was closed");
    const std::vector<numbers> many(50);
    HOLDS(std::all_of(many.begin(), many.end(), [](const numbers &it) { return it.empty(); }) && descriptors() == files);
    // By phases that have room for few, and by one seat.
    numbers narrow(cvec::options{cvec::opening::open, 1, 1, 100});
    in_threads(2, [&](std::uint64_t k) {
        for (int turn = 0; turn < 1000; ++turn) narrow.push_back(k);
    });
    HOLDS(narrow.size() == 2000 && std::count(narrow.begin(), narrow.end(), std::uint64_t{1}) == 1000 && narrow.settled() == 0);
    HOLDS(status_of([&] { numbers none(cvec::options{cvec::opening::open, 1, 0}); }) == CVEC_NOT_SO);
}

static void saved(const std::string &path) {
    numbers vector{5, 6};
    vector.push_back(7);
    const auto before = vector.view();
    HOLDS(::access(path.c_str(), F_OK) != 0);
    vector.save(path);
    HOLDS(rows_of(vector) == list({5, 6, 7}) && vector.settled() == 1 && before[2] == 7);
    vector.settle(vector.append(std::uint64_t{8}));
    HOLDS(vector.settled() == 2 && rows_of(vector) == list({5, 6, 7, 8}));
    HOLDS(words_of([&] { vector.save(path + ".other"); }) == std::to_string(CVEC_NOT_SO) + " cvec: " + path + ": it has a file");
    // What is there stays, and the other one in memory.
    numbers other(300000, 3);
    HOLDS(status_of([&] { other.save(path); }) == CVEC_IN_USE);
    vector.close();
    HOLDS(status_of([&] { other.save(path); }) == CVEC_EXISTS && status_of([&] { other.settle(); }) == CVEC_NOT_SO);
    HOLDS(rows_of(numbers(path)) == list({5, 6, 7, 8}) && other.size() == 300000);
    other.save(path + ".other", {cvec::opening::open, 2});
    HOLDS(other.settled() == 3 && other.size() == 300000);
    other.close();
    const numbers again(path + ".other");
    HOLDS(again.size() == 300000 && std::count(again.begin(), again.end(), std::uint64_t{3}) == 300000);
    cvec::concurrent_vector<named> texts{{"first", 1}, {"second", 2}};
    texts.save(path + ".texts");
    texts.close();
    HOLDS(std::strcmp(cvec::concurrent_vector<named>(path + ".texts")[1].name, "second") == 0);
    numbers empty;
    empty.save(path + ".empty");
    empty.close();
    HOLDS(numbers(path + ".empty", {cvec::opening::open}).empty());
}

// Past the greatest size of a file: it goes on in memory, and the file has what came before.
static void a_save_is_refused(const std::string &path) {
    numbers vector(140000, 3);
    const rlimit most{1100000, 1100000};
    ::setrlimit(RLIMIT_FSIZE, &most);
    HOLDS(status_of([&] { vector.save(path); }) == CVEC_DISK_WRITE);
    vector.push_back(4);
    HOLDS(vector.size() == 140001 && vector.back() == 4 && status_of([&] { vector.settle(); }) == CVEC_NOT_SO);
    HOLDS(numbers(path).size() % 131071 == 0);
}

// ---- paths

static void zero_bytes(const std::string &path) {
    numbers(path).push_back(5);
    const std::string cut = path + std::string("\0.other", 7);
    for (const auto how : {cvec::opening::open_or_create, cvec::opening::open, cvec::opening::create})
        try {
            errno = ENOENT;
            const numbers vector(cut, {how});
            HOLDS(vector.empty() && false);
        } catch (const cvec::error &refusal) {
            HOLDS(refusal.status() == CVEC_DISK_OPEN && refusal.system_error() == 0);
            HOLDS(refusal.what() == "cvec: " + path + ": the file can't be opened: its path goes on behind a zero byte");
        }
    HOLDS(status_of([&] { numbers vector(std::string(1, '\0')); }) == CVEC_DISK_OPEN && numbers(path).size() == 1);
}

// ---- what is used behind the end of its vector

using appended = cvec::appender<std::uint64_t>;

static void is_refused(appended &orphan, std::size_t gathered) {
    const std::string refusal = std::to_string(CVEC_NOT_SO) + " cvec: an appender: its vector has gone";
    for (int turn = 0; turn < 2; ++turn) {
        HOLDS(words_of([&] { orphan.flush(); }) == (gathered == 0 ? "none" : refusal));
        HOLDS(words_of([&] { orphan.settle(); }) == refusal && orphan.buffered() == gathered);
    }
}

// An appender doesn't keep its vector's file: that is closed, and what was gathered is lost.
static void an_appender_is_left(const std::string &path) {
    std::optional<appended> of_destroyed, of_assigned, of_moved, empty;
    numbers assigned(path + ".assigned"), moved_to(path + ".moved_to");
    {
        numbers destroyed(path), moved(path + ".moved");
        of_destroyed.emplace(destroyed).push_back(5);
        of_assigned.emplace(assigned).push_back(6);
        of_moved.emplace(moved).push_back(7);
        empty.emplace(destroyed).push_back(8);
        empty->flush();
        assigned = numbers(path + ".other");
        moved_to = std::move(moved);
    }
    HOLDS(numbers(path).size() == 1 && numbers(path + ".assigned").empty());
    is_refused(*of_destroyed, 1);
    is_refused(*of_assigned, 1);
    is_refused(*empty, 0);
    // It goes with the file.
    of_moved->settle();
    HOLDS(moved_to.size() == 1 && moved_to[0] == 7);
    if (wrong != 0) return;
#if !defined(CVEC_CHECKED)
    of_destroyed.reset();
    of_assigned.reset();
    HOLDS(numbers(path).size() == 1 && numbers(path + ".assigned").empty());
#else
    std::fflush(stdout);
    ::_exit(0);
#endif
}

// A view keeps the file open, so that an appender and iterators are good beside it.
static void a_view_keeps_others(const std::string &path) {
    auto vector = std::make_unique<numbers>(path);
    vector->grow_by({1, 2, 3});
    const auto first = vector->begin();
    const auto range = vector->range();
    {
        appended some(*vector);
        some.push_back(4);
        const auto view = vector->view();
        vector.reset();
        HOLDS(*first == 1 && first[2] == 3 && *(range.begin() + 1) == 2 && view.size() == 3);
        some.settle();
    }
    HOLDS(numbers(path).size() == 4);
}

#if defined(CVEC_CHECKED)
// The child that does this is aborted, and says why.
static void aborts(const std::function<void()> &use) {
    int ends[2] = {-1, -1}, ended = 0;
    HOLDS(::pipe(ends) == 0);
    const pid_t child = ::fork();
    if (child == 0) {
        ::dup2(ends[1], 2);
        use();
        ::_exit(0);
    }
    ::close(ends[1]);
    char told[200] = "";
    const ssize_t count = ::read(ends[0], told, sizeof told - 1);
    ::close(ends[0]);
    ::waitpid(child, &ended, 0);
    HOLDS(WIFSIGNALED(ended) && WTERMSIG(ended) == SIGABRT && count > 0);
    HOLDS(std::string(told) == "cvec: an iterator, a range or rows of an appender are used behind the end of their vector\n");
}

template <class Use> static void aborts_behind_the_end(const std::string &path, const Use &use) {
    aborts([&] {
        std::optional<numbers> vector(std::in_place, path, for_a_fork(2));
        vector->grow_by({1, 2, 3});
        HOLDS((*vector)[2] == 3);
        use(vector);
    });
}

static void each_is_told(const std::string &path) {
    using vector_of = std::optional<numbers>;
    aborts_behind_the_end(path, [](vector_of &it) {
        const auto row = it->begin() + 1;
        it.reset();
        static_cast<void>(*row);
    });
    aborts_behind_the_end(path, [&](vector_of &it) {
        auto row = it->end();
        *it = numbers(path + ".other", for_a_fork(2));
        row -= 2;
    });
    aborts_behind_the_end(path, [](vector_of &it) {
        const auto row = it->begin();
        it.reset();
        static_cast<void>(row == numbers::iterator());
    });
    aborts_behind_the_end(path, [](vector_of &it) {
        const auto range = it->range();
        it.reset();
        static_cast<void>(range.begin());
    });
    aborts_behind_the_end(path, [](vector_of &it) {
        appended some(*it);
        some.push_back(4);
        it.reset();
    });
    // In order all is as it was.
    numbers vector(path + ".right", for_a_fork(2));
    vector.grow_by({1, 2, 3});
    appended some(vector);
    some.push_back(4);
    some.flush();
    HOLDS(list(vector.begin(), vector.end()) == list({1, 2, 3, 4}) && numbers::iterator() == numbers::iterator());
    numbers other(std::move(vector));
    HOLDS(other.range().size() == 4 && *other.range().begin() == 1);
}
#endif

int main(int argc, char **argv) {
    static const behaviours_by_name all = {
        {"own_addresses", own_addresses},
        {"fields", fields},
        {"texts", texts},
        {"compared", compared},
        {"inserted", inserted},
        {"tuples", tuples},
        {"ordered", ordered},
        {"two_iterators", two_iterators},
        {"hints", hints},
        {"begun", begun},
        {"copied", copied},
        {"assigned", assigned},
        {"in_memory", in_memory},
        {"saved", saved},
        {"a_save_is_refused", a_save_is_refused},
        {"zero_bytes", zero_bytes},
        {"an_appender_is_left", an_appender_is_left},
        {"a_view_keeps_others", a_view_keeps_others},
#if defined(CVEC_CHECKED)
        {"each_is_told", each_is_told},
#endif
    };
    return behave(argc, argv, all);
}
