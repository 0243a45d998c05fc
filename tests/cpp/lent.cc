// Rows that are lent, each behaviour by its name: lent NAME FILE. The status is 0 where it is as promised; else a line says what
// isn't. The files that it leaves begin with that name.
#include "told.hpp"

#include <algorithm>
#include <array>
#include <csignal>
#include <cstring>
#include <memory>
#include <numeric>
#include <random>
#include <sys/wait.h>
#include <tuple>
#include <type_traits>
#include <unistd.h>

using numbers = cvec::concurrent_vector<std::uint64_t>;

// What stands at a position: bytes that are no other row's.
static std::uint64_t mixed(std::uint64_t number) {
    number += 0x9e3779b97f4a7c15;
    number = (number ^ number >> 30) * 0xbf58476d1ce4e5b9;
    return number ^ number >> 27;
}

struct three {
    std::uint32_t a, b, c;
};
struct large {
    std::uint64_t words[5];
    std::uint8_t end;
};
struct named {
    std::uint64_t name, value;
};

template <class T> static T made(std::uint64_t number) {
    T value{};
    unsigned char bytes[sizeof(T)];
    for (std::size_t k = 0; k < sizeof bytes; ++k) bytes[k] = static_cast<unsigned char>(mixed(number * 64 + k / 8) >> (k % 8 * 8));
    std::memcpy(static_cast<void *>(&value), bytes, sizeof value);
    return value;
}
template <> cvec_flagged made(std::uint64_t number) { return {mixed(number), (number & 1) != 0}; }
template <> std::pair<std::int32_t, double> made(std::uint64_t number) {
    return {static_cast<std::int32_t>(number), 0.25 * static_cast<double>(number)};
}

static bool operator==(const three &a, const three &b) { return a.a == b.a && a.b == b.b && a.c == b.c; }
static bool operator==(const large &a, const large &b) { return std::equal(a.words, a.words + 5, b.words) && a.end == b.end; }
static bool operator==(const cvec_pair &a, const cvec_pair &b) { return std::memcmp(&a, &b, sizeof a) == 0; }
static bool operator==(const cvec_flagged &a, const cvec_flagged &b) { return a.key == b.key && a.flag == b.flag; }

// But for the bytes between members, which nobody compares. No double here is a NaN.
template <class T> static bool same(const T &a, const T &b) { return a == b; }

// The types of what is read.
template <class T> static constexpr bool gives_references() {
    using vector = cvec::concurrent_vector<T>;
    using traits = std::iterator_traits<typename vector::const_iterator>;
    return std::is_same_v<decltype(std::declval<const vector &>()[0]), const T &> &&
           std::is_same_v<decltype(std::declval<const vector &>().at(0)), const T &> &&
           std::is_same_v<decltype(std::declval<const vector &>().front()), const T &> &&
           std::is_same_v<decltype(std::declval<const vector &>().back()), const T &> &&
           std::is_same_v<decltype(std::declval<const vector &>().view()[0]), const T &> &&
           std::is_same_v<typename traits::reference, const T &> && std::is_same_v<typename traits::pointer, const T *> &&
           std::is_same_v<typename traits::iterator_category, std::random_access_iterator_tag>;
}
static_assert(gives_references<std::uint64_t>() && gives_references<std::uint32_t>() && gives_references<cvec_pair>() &&
              gives_references<cvec_flagged>() && gives_references<three>() && gives_references<large>() &&
              gives_references<bool>() && gives_references<std::pair<int, double>>());

// ---- of each type, by each way of reading

// A vector, and beside it what its rows are and where they stood when they were looked at first.
template <class T, class Layout> struct known {
    cvec::concurrent_vector<T, Layout> vector;
    std::vector<T> rows;
    std::vector<const T *> places;

    void grow(std::size_t length) {
        std::vector<T> some;
        for (std::size_t k = 0; k < length; ++k) some.push_back(made<T>(rows.size() + k));
        const auto first = vector.grow_by(some.begin(), some.end());
        HOLDS(first.position() == rows.size());
        rows.insert(rows.end(), some.begin(), some.end());
    }

    void look() {
        for (std::size_t k = places.size(); k < rows.size(); ++k) places.push_back(std::addressof(vector[k]));
    }
};

template <class T, class Layout> static void is_read_by_position(const known<T, Layout> &all) {
    HOLDS(all.vector.size() == all.rows.size());
    const auto view = all.vector.view();
    HOLDS(view.size() == all.rows.size());
    for (std::size_t k = 0; k < all.rows.size() && wrong == 0; ++k) {
        HOLDS(std::addressof(all.vector[k]) == all.places[k] && same(*all.places[k], all.rows[k]));
        HOLDS(std::addressof(view[k]) == all.places[k] && same(all.vector.copy(k), all.rows[k]));
    }
    HOLDS(is_out_of_range([&] { static_cast<void>(all.vector[all.rows.size()]); }));
}

template <class T, class Layout> static void is_read_by_iterators(const known<T, Layout> &all, std::mt19937_64 &random) {
    const auto first = all.vector.begin(), last = all.vector.end();
    HOLDS(std::equal(first, last, all.rows.begin(), all.rows.end(), same<T>));
    HOLDS(std::equal(all.vector.rbegin(), all.vector.rend(), all.rows.rbegin(), all.rows.rend(), same<T>));
    auto place = all.places.begin();
    for (auto row = first; row != last; ++row) HOLDS(std::addressof(*row) == *place++);
    for (int k = 0; k < 3000 && wrong == 0; ++k) {
        const auto a = static_cast<std::ptrdiff_t>(random() % all.rows.size()),
                   b = static_cast<std::ptrdiff_t>(random() % all.rows.size());
        auto row = first + a;
        HOLDS(std::addressof(*row) == all.places[std::size_t(a)] && std::addressof(row[b - a]) == all.places[std::size_t(b)]);
        row += b - a;
        HOLDS(std::addressof(*row) == all.places[std::size_t(b)] && row - first == b);
    }
}

// Piece by piece: where each begins, how long it is, and where its rows stand.
template <class T, class Layout> static void is_read_by_pieces(const known<T, Layout> &all) {
    std::size_t next = 0;
    const auto compare = [&](const cvec::rows<T, Layout> &piece) {
        HOLDS(piece.first() == next && piece.size() > 0 && next + piece.size() <= all.rows.size());
        for (std::size_t k = 0; k < piece.size() && wrong == 0; ++k) HOLDS(std::addressof(piece[k]) == all.places[next + k]);
        std::size_t k = next;
        for (const T &row : piece) HOLDS(std::addressof(row) == all.places[k++]);
        HOLDS(k == next + piece.size() && piece.end() - piece.begin() == static_cast<std::ptrdiff_t>(piece.size()));
        next = k;
    };
    all.vector.for_each_piece(compare);
    HOLDS(next == all.rows.size());
    next = 0;
    all.vector.view().for_each_piece(compare);
    HOLDS(next == all.rows.size());
    for (next = 0; next < all.rows.size();) compare(all.vector.piece(next));
    HOLDS(all.vector.piece(next).empty() && all.vector.piece(next + 5).size() == 0);
    // A part, which begins and ends within pieces.
    next = 5;
    std::size_t end = all.rows.size() - 7;
    all.vector.for_each_piece(5, end, compare);
    HOLDS(next == end && is_out_of_range([&] { all.vector.for_each_piece(0, all.rows.size() + 1, [](const auto &) {}); }));
}

template <class T, class Layout> static void is_visited(const known<T, Layout> &all, std::mt19937_64 &random) {
    std::vector<std::uint32_t> some;
    for (int k = 0; k < 1001; ++k) some.push_back(static_cast<std::uint32_t>(random() % all.rows.size()));
    std::size_t turn = 0;
    all.vector.view().visit(some.data(), some.size(),
                            [&](const T &row) { HOLDS(std::addressof(row) == all.places[some[turn++]]); });
    HOLDS(turn == some.size());
}

// Growths of many lengths by one thread, and looks meanwhile.
template <class T, class Layout = cvec::one_record> static void is_read_each_way(const std::string &path) {
    known<T, Layout> all{cvec::concurrent_vector<T, Layout>(path), {}, {}};
    std::mt19937_64 random(7);
    std::size_t length = 1;
    for (int k = 0; k < 600; ++k) {
        if (random() % 8 == 0) length = 1 + random() % (k % 3 == 0 ? 700 : 20);
        all.grow(length);
        if (random() % 4 == 0) all.look();
    }
    // These follow one another in memory at one distance, as far as it gives that.
    for (int k = 0; k < 300; ++k) all.grow(6);
    all.look();
    is_read_by_position(all);
    is_read_by_iterators(all, random);
    is_read_by_pieces(all);
    is_visited(all, random);
    // What was the end has a row now.
    const auto past = all.vector.end();
    all.vector.push_back(all.rows[3]);
    HOLDS(same(*past, all.rows[3]));
}

static void each_type(const std::string &path) {
    is_read_each_way<std::uint64_t>(path + ".u64");
    is_read_each_way<std::uint32_t>(path + ".u32");
    is_read_each_way<std::uint32_t, cvec::rows_of_u64>(path + ".u32_by_u64");
    is_read_each_way<std::uint8_t>(path + ".u8");
    is_read_each_way<cvec_pair>(path + ".pair");
    is_read_each_way<cvec_flagged>(path + ".flagged");
    is_read_each_way<three>(path + ".three");
    is_read_each_way<large>(path + ".large");
    is_read_each_way<std::pair<std::int32_t, double>>(path + ".std_pair");
}

// More than 10,000 growths, each of which stands by itself.
static void many_growths(const std::string &path) {
    known<std::uint64_t, cvec::one_record> all{numbers(path), {}, {}};
    std::vector<std::unique_ptr<char[]>> between; // so that growths don't follow one another in memory at one distance
    for (std::size_t k = 0; k < 12000; ++k) {
        all.grow(1 + mixed(k) % 5);
        if (k % 3 == 0) between.emplace_back(new char[16 + mixed(k) % 200]);
    }
    all.look();
    is_read_by_position(all);
    is_read_by_pieces(all);
}

// ---- references as those of a container in memory

// By a member of a tuple-like row.
static void a_part_is_kept(const std::string &path) {
    cvec::concurrent_vector<std::pair<std::uint64_t, double>> pairs(path);
    cvec::concurrent_vector<std::array<std::uint64_t, 3>> arrays(path + ".arrays");
    pairs.grow_by({{5, 0.5}, {6, 1.5}});
    arrays.grow_by({{7, 8, 9}, {10, 11, 12}});
    const auto &first = std::get<0>(pairs[0]);
    const auto &second = std::get<1>(pairs[1]);
    const auto &last = std::get<2>(arrays[1]);
    for (std::uint64_t k = 0; k < 1000; ++k) {
        pairs.push_back({k, 0});
        arrays.push_back({k, k, k});
    }
    HOLDS(first == 5 && second == 1.5 && last == 12 && std::addressof(last) == &arrays[1][2] &&
          std::addressof(first) == &pairs[0].first);
}

static void a_member_is_kept(const std::string &path) {
    cvec::concurrent_vector<named> vector(path);
    vector.grow_by({{5, 50}, {6, 60}});
    const auto &name = vector[0].name;
    const std::uint64_t *const value = &vector.at(1).value;
    const std::uint64_t &last = vector.back().value;
    const std::uint64_t &by_iterator = vector.begin()->value;
    for (std::uint64_t k = 0; k < 1000; ++k) vector.push_back({k, k});
    HOLDS(name == 5 && *value == 60 && last == 60 && by_iterator == 50 && &last == value && &name == &vector.front().name);
}

static void the_greater_one_is_kept(const std::string &path) {
    numbers vector(path);
    vector.grow_by({5, 9, 7});
    const auto &greater = std::max(vector[0], vector[1]);
    const auto &least = *std::min_element(vector.begin(), vector.end());
    const auto both = std::minmax(vector[1], vector[2]);
    for (std::uint64_t k = 0; k < 1000; ++k) vector.push_back(k);
    HOLDS(greater == 9 && &greater == &vector[1] && least == 5 && &least == &vector[0]);
    HOLDS(&both.first == &vector[2] && &both.second == &vector[1] && both.first == 7);
}

// Those of two vectors are never equal, and those of one are, of whichever object that has it.
static void iterators_of_two_vectors(const std::string &path) {
    numbers one(path), other(path + ".other");
    one.grow_by({1, 2});
    other.grow_by({1, 2});
    HOLDS(one.begin() != other.begin() && !(one.begin() == other.begin()) && one.end() != other.end());
    HOLDS(one.begin() == one.cbegin() && one.begin() + 2 == one.end() && one.rbegin() != other.rbegin());
    HOLDS(one.begin() != numbers::iterator() && one.view().begin() == one.begin() && one.view().end() == one.end());
    const auto kept = one.begin();
    numbers moved(std::move(one));
    HOLDS(kept == moved.begin() && *kept == 1);
}

// Rows are a span, where they are an array.
static void spans(const std::string &path) {
    numbers vector(path);
    vector.grow_by({4, 5, 6, 7});
    const cvec::rows<std::uint64_t> rows = vector.piece(1);
    static_assert(std::is_same_v<decltype(rows.begin()), const std::uint64_t *> &&
                  std::is_same_v<decltype(rows.data()), const std::uint64_t *>);
    HOLDS(rows.first() == 1 && rows.size() == 3 && !rows.empty() && rows.data() == &vector[1] && rows.end() - rows.begin() == 3 &&
          rows[2] == 7);
    HOLDS(std::accumulate(rows.begin(), rows.end(), std::uint64_t{0}) == 18);
    cvec::concurrent_vector<three> others(path + ".three");
    others.grow_by({{1, 2, 3}, {4, 5, 6}, {7, 8, 9}});
    auto row = others.piece(0).begin();
    static_assert(std::is_same_v<decltype(*row), const three &>);
    HOLDS(row->c == 3 && row[2].a == 7 && (++row)->b == 5 && (row++)->b == 5 && (row + 0)->c == 9 && (row - 2)->a == 1 &&
          (--row)->a == 4);
    HOLDS(row > others.piece(0).begin() && row - others.piece(0).begin() == 1 && row != others.piece(0).end());
#if defined(__cpp_lib_span)
    const std::span<const std::uint64_t> by_name = rows, by_call = vector.piece(0);
    HOLDS(by_name.size() == 3 && by_name.data() == &vector[1] && by_call.size() == 4 && by_call[0] == 4);
    const auto sum_of = [](std::span<const std::uint64_t> some) {
        return std::accumulate(some.begin(), some.end(), std::uint64_t{0});
    };
    std::uint64_t sum = 0;
    vector.for_each_piece([&](std::span<const std::uint64_t> some) { sum += sum_of(some); });
    HOLDS(sum == 22 && sum_of(vector.piece(2)) == 13);
    static_assert(std::is_convertible_v<cvec::rows<std::uint64_t>, std::span<const std::uint64_t>>);
    static_assert(!std::is_convertible_v<cvec::rows<std::uint64_t>, std::span<std::uint64_t>>);
    static_assert(!std::is_convertible_v<cvec::rows<three>, std::span<const three>>);
    static_assert(std::is_convertible_v<cvec::new_rows<std::uint64_t>, std::span<std::uint64_t>>);
#endif
}

// ---- beside threads that grow

// Reads at random, holds what it has read, and sums what there is in two ways.
static void read_beside(const numbers &vector, std::uint64_t seed, const std::atomic<std::uint64_t> &growing,
                        std::atomic<bool> &is_right) {
    std::mt19937_64 random(seed);
    std::vector<std::pair<const std::uint64_t *, std::uint64_t>> held;
    while (growing.load() > 0 && is_right) {
        const std::size_t at = random() % vector.size();
        held.emplace_back(&vector[at], vector[at]);
        for (const auto &[where, what] : held)
            if (*where != what) is_right = false;
        if (held.size() > 64) held.erase(held.begin(), held.begin() + 32);
        if (random() % 16 != 0) continue;
        const auto end = vector.end();
        const std::uint64_t sum = std::accumulate(vector.begin(), end, std::uint64_t{0});
        std::uint64_t again = 0, seen = 0;
        vector.for_each_piece(0, end.position(), [&](const auto &rows) {
            seen += rows.size();
            again = std::accumulate(rows.begin(), rows.end(), again);
        });
        const auto view = vector.view();
        if (sum != again || seen != end.position() ||
            std::accumulate(view.begin(), view.begin() + static_cast<std::ptrdiff_t>(seen), std::uint64_t{0}) != sum)
            is_right = false;
    }
}

// Grows by seven rows, six and five, by copies and in place in turn.
static void grow_beside(numbers &vector, std::uint64_t name, std::uint64_t growths, std::atomic<bool> &is_right) {
    for (std::uint64_t k = 0; k < growths; ++k) {
        const auto row_of = [&](std::uint64_t at) { return name << 48 | (k * 7 + at); };
        const std::size_t length = 7 - k % 3;
        std::vector<std::uint64_t> rows(length);
        for (std::uint64_t at = 0; at < length; ++at) rows[at] = row_of(at);
        const cvec::growth grown =
            k % 2 == 0 ? vector.append(rows.begin(), rows.end())
                       : vector.grow_with(length, [&](auto &blank) { std::copy(rows.begin(), rows.end(), blank.begin()); });
        // The first one looks at nothing, so that others learn of its rows.
        if (name > 0 && (vector[grown.first] != row_of(0) || vector[grown.first + length - 1] != row_of(length - 1)))
            is_right = false;
        if (k % 512 == 0) vector.settle(grown);
    }
}

// Each thread's rows stand in its order.
static void stand_in_order(const numbers &vector, std::size_t first, std::uint64_t threads) {
    std::vector<std::uint64_t> last(threads, 0);
    for (auto row = vector.begin() + static_cast<std::ptrdiff_t>(first), end = vector.end(); row != end && wrong == 0; ++row) {
        std::uint64_t &before = last.at(*row >> 48);
        HOLDS((*row & 0xffffffffffff) >= before);
        before = *row & 0xffffffffffff;
    }
}

// References from the first growth are good behind more than 10,000.
static void early_references(const std::string &path) {
    constexpr std::uint64_t growers = 3, readers = 3, growths = 3500;
    numbers vector(path, {cvec::opening::create, 1, 7});
    vector.append({41, 42, 43});
    const std::uint64_t &early = vector[1], *const place = &early;
    const auto row = vector.begin() + 2;
    std::atomic<std::uint64_t> growing{growers};
    std::atomic<bool> is_right{true};
    in_threads(growers + readers, [&](std::uint64_t k) {
        if (k < growers) {
            grow_beside(vector, k, growths, is_right);
            --growing;
        } else {
            read_beside(vector, k, growing, is_right);
        }
    });
    HOLDS(is_right && early == 42 && &vector[1] == place && *row == 43 && &*row == place + 1);
    HOLDS(vector.size() == 3 + growers * (growths * 6 + 1));
    stand_in_order(vector, 3, growers);
}

// ---- until when

// What was lent is gone with these, and what is lent then shows what is there.
static void lent_anew(const std::string &path) {
    numbers vector(path);
    for (std::uint64_t k = 0; k < 1000; ++k) vector.push_back(k);
    HOLDS(vector[999] == 999);
    vector.change(10, {7, 8});
    HOLDS(vector[10] == 7 && vector[11] == 8 && vector[12] == 12 && vector.piece(0).size() == 1000);
    for (std::uint64_t k = 0; k < 6; ++k) vector.append({k});
    HOLDS(vector[1005] == 5);
    vector.compact();
    HOLDS(vector.piece(0).size() >= 1000 && vector.piece(1000).size() == 6 && vector[1000] == 0 && vector[1005] == 5);
    vector.fold();
    vector.resize(3);
    HOLDS(vector.size() == 3 && vector.end() - vector.begin() == 3 && vector[2] == 2);
    vector.clear();
    HOLDS(vector.empty() && vector.begin() == vector.end());
    vector.push_back(1);
    HOLDS(vector.front() == 1 && vector.back() == 1);
    vector.close();
    HOLDS(status_of([&] { static_cast<void>(vector[0]); }) == CVEC_NOT_SO);
}

// A phase with room for 8 growths. Of which nothing is lent it goes on, and of which something is it is full.
static void room_for_eight(const std::string &path) {
    numbers vector(path, {cvec::opening::create, 1, 2, 8});
    for (std::uint64_t k = 0; k < 30; ++k) vector.push_back(k);
    HOLDS(vector.size() == 30 && vector.copy(29) == 29);
    vector.compact();
    for (std::uint64_t k = 30; k < 37; ++k) vector.push_back(k);
    const std::uint64_t &early = vector[3], &late = vector[36];
    HOLDS(vector.append(std::uint64_t{37}).number == 37);
    for (int turn = 0; turn < 3; ++turn) HOLDS(status_of([&] { vector.push_back(38); }) == CVEC_FULL);
    HOLDS(status_of([&] { vector.grow_with(1, [](auto &) {}); }) == CVEC_FULL && vector.size() == 38 && early == 3 && late == 36);
    HOLDS(&early == &vector[3] && &late == &vector[36] && vector[37] == 37);
    vector.compact();
    for (std::uint64_t k = 38; k < 46; ++k) HOLDS(vector.append(k).number == k);
    for (std::uint64_t k = 0; k < 46; ++k) HOLDS(vector[k] == k);
    HOLDS(status_of([&] { vector.push_back(46); }) == CVEC_FULL);
    // A change makes room too.
    vector.change(0, 100);
    for (std::uint64_t k = 46; k < 100; ++k) vector.push_back(k);
    HOLDS(vector.size() == 100 && vector.copy(0) == 100 && vector.copy(99) == 99);
    HOLDS(status_of([&] { numbers(path + ".large", {cvec::opening::create, 1, 1, std::uint64_t{1} << 40}); }) == CVEC_TOO_LARGE);
}

// ---- by a forked child

// What its parent knew it reads, without a call; what would take one it is refused.
static bool reads_what_was_known(numbers &vector, const cvec::view<std::uint64_t> &view, const std::uint64_t &early,
                                 numbers::iterator row) {
    bool is_right = early == 1 && *row == 0 && *++row == 1 && vector.piece(1)[0] == 1;
    std::uint64_t sum = 0;
    for (std::size_t k = 0; k < view.size(); ++k) is_right = is_right && vector[k] == k * k && view[k] == k * k;
    view.for_each_piece([&](const auto &rows) { sum = std::accumulate(rows.begin(), rows.end(), sum); });
    vector.for_each_piece(0, view.size(), [&](const auto &rows) { sum = std::accumulate(rows.begin(), rows.end(), sum); });
    is_right = is_right && sum == 665667000; // twice 999 * 1000 * 1999 / 6
    for (const auto &call :
         {std::function<void()>([&] { static_cast<void>(vector[view.size()]); }),
          std::function<void()>([&] { static_cast<void>(vector.view()); }),
          std::function<void()>([&] { static_cast<void>(vector.end()); }),
          std::function<void()>([&] { static_cast<void>(vector.copy(0)); }), std::function<void()>([&] { vector.change(0, 1); }),
          std::function<void()>([&] { vector.grow_with(1, [](auto &) {}); })})
        is_right = is_right && status_of(call) == CVEC_FORKED;
    return is_right;
}

static void forked(const std::string &path) {
    numbers vector(path, for_a_fork(8));
    for (std::uint64_t k = 0; k < 1000; ++k) vector.push_back(k * k);
    auto view = std::make_unique<cvec::view<std::uint64_t>>(vector.view());
    const std::uint64_t &early = vector[1];
    vector.push_back(5); // which isn't known
    std::atomic<bool> is_over{false};
    std::thread grower([&] {
        while (!is_over) vector.settle(vector.append(std::uint64_t{5}));
    });
    for (int turn = 0; turn < 20 && wrong == 0; ++turn) {
        const pid_t child = ::fork();
        if (child == 0) {
            ::alarm(20);
            const bool is_right = reads_what_was_known(vector, *view, early, vector.begin());
            view.reset();
            { numbers gone(std::move(vector)); }
            ::_exit(is_right ? 0 : 1);
        }
        int ended = 1;
        ::waitpid(child, &ended, 0);
        HOLDS(ended == 0);
    }
    is_over = true;
    grower.join();
    HOLDS((*view)[999] == 999 * 999 && status_of([&] { vector.change(0, 1); }) == CVEC_BUSY);
}

int main(int argc, char **argv) {
    static const behaviours_by_name all = {
        {"each_type", each_type},
        {"many_growths", many_growths},
        {"a_part_is_kept", a_part_is_kept},
        {"a_member_is_kept", a_member_is_kept},
        {"the_greater_one_is_kept", the_greater_one_is_kept},
        {"iterators_of_two_vectors", iterators_of_two_vectors},
        {"spans", spans},
        {"early_references", early_references},
        {"lent_anew", lent_anew},
        {"room_for_eight", room_for_eight},
        {"forked", forked},
    };
    return behave(argc, argv, all);
}
