// What the specification of oneTBB says of the members of concurrent_vector, each behaviour by its name: onetbb NAME FILE. With
// FOR_ONETBB it is compiled for that vector itself, so that it shows whether these are its behaviours; else for the one here, which
// has all but what stands under `what_is_missing`. The status is 0 where it is as promised; else a line says what isn't.
#include "told.hpp"

#include <algorithm>
#include <array>
#include <atomic>
#include <cstdint>
#include <iterator>
#include <list>
#include <numeric>
#include <set>
#include <stdexcept>
#include <type_traits>

#if defined(FOR_ONETBB)
#include <oneapi/tbb/concurrent_vector.h>
template <class T> using vector_of = tbb::concurrent_vector<T>;
using tbb::concurrent_vector;
constexpr bool is_onetbb = true;
#else
template <class T> using vector_of = cvec::concurrent_vector<T>;
using cvec::concurrent_vector;
constexpr bool is_onetbb = false;
#endif

using numbers = vector_of<int>;
using list = std::vector<int>;

template <class Vector> static std::vector<typename Vector::value_type> rows_of(const Vector &vector) {
    return std::vector<typename Vector::value_type>(vector.begin(), vector.end());
}

struct point {
    int x, y;
    friend bool operator==(const point &a, const point &b) { return a.x == b.x && a.y == b.y; }
};

// ---- types

template <class Iterator>
static constexpr bool is_random = std::is_base_of_v<std::random_access_iterator_tag, typename std::iterator_traits<Iterator>::iterator_category>;

static void types(const std::string &) {
    static_assert(std::is_same_v<numbers::value_type, int> && std::is_same_v<numbers::size_type, std::size_t>);
    static_assert(std::is_same_v<numbers::difference_type, std::ptrdiff_t> && std::is_same_v<numbers::const_reference, const int &>);
    static_assert(std::is_same_v<numbers::const_pointer, const int *> && !std::is_same_v<numbers::iterator, numbers::const_iterator>);
    static_assert(is_random<numbers::iterator> && is_random<numbers::const_iterator>);
    static_assert(std::is_convertible_v<numbers::iterator, numbers::const_iterator>);
    static_assert(!std::is_convertible_v<numbers::const_iterator, numbers::iterator>);
    static_assert(std::is_same_v<numbers::reverse_iterator, std::reverse_iterator<numbers::iterator>>);
    static_assert(std::is_same_v<numbers::const_reverse_iterator, std::reverse_iterator<numbers::const_iterator>>);
    static_assert(std::is_same_v<numbers::range_type::iterator, numbers::iterator>);
    static_assert(std::is_same_v<numbers::const_range_type::iterator, numbers::const_iterator>);
    static_assert(std::is_same_v<decltype(std::declval<numbers &>().begin()), numbers::iterator>);
    static_assert(std::is_same_v<decltype(std::declval<const numbers &>().begin()), numbers::const_iterator>);
    static_assert(std::is_same_v<decltype(std::declval<numbers &>().cend()), numbers::const_iterator>);
    static_assert(std::is_same_v<decltype(std::declval<numbers &>().rbegin()), numbers::reverse_iterator>);
    static_assert(std::is_same_v<decltype(std::declval<numbers &>().range()), numbers::range_type>);
    static_assert(std::is_same_v<decltype(std::declval<const numbers &>().range()), numbers::const_range_type>);
    static_assert(std::is_same_v<decltype(std::declval<numbers &>().push_back(1)), numbers::iterator>);
    static_assert(std::is_same_v<decltype(std::declval<numbers &>().emplace_back(1)), numbers::iterator>);
    static_assert(std::is_same_v<decltype(std::declval<numbers &>().grow_by(1)), numbers::iterator>);
    static_assert(std::is_same_v<decltype(std::declval<numbers &>().grow_to_at_least(1)), numbers::iterator>);
    static_assert(std::is_nothrow_move_constructible_v<numbers> && std::is_nothrow_move_assignable_v<numbers>);
    static_assert(std::is_copy_constructible_v<numbers> && std::is_copy_assignable_v<numbers>);
}

// ---- construction

static void constructors(const std::string &) {
    const list rows = {4, 5, 6};
    const std::list<int> linked = {7, 8};
    const numbers none, three(3), nines(3, 9), ranged(rows.begin(), rows.end()), listed{1, 2}, of_list(linked.begin(), linked.end());
    HOLDS(none.empty() && none.begin() == none.end() && rows_of(three) == list({0, 0, 0}) && rows_of(nines) == list({9, 9, 9}));
    HOLDS(rows_of(ranged) == rows && rows_of(listed) == list({1, 2}) && rows_of(of_list) == list({7, 8}));
    numbers copy(ranged);
    copy.push_back(7);
    HOLDS(rows_of(copy) == list({4, 5, 6, 7}) && rows_of(ranged) == rows);
    const int *const first = std::addressof(copy[0]);
    const numbers moved(std::move(copy));
    HOLDS(rows_of(moved) == list({4, 5, 6, 7}) && first == std::addressof(moved[0]));
    const numbers many(1000000, 3);
    HOLDS(many.size() == 1000000 && std::count(many.begin(), many.end(), 3) == 1000000);
}

static void deduction(const std::string &) {
    const std::vector<double> rows = {0.5, 1.5};
    const concurrent_vector ranged(rows.begin(), rows.end());
    const concurrent_vector listed{'a', 'b', 'c'};
    const concurrent_vector copy(ranged);
    static_assert(std::is_same_v<decltype(ranged), const vector_of<double>> && std::is_same_v<decltype(listed), const vector_of<char>>);
    static_assert(std::is_same_v<decltype(copy), const vector_of<double>>);
    HOLDS(rows_of(ranged) == rows && rows_of(copy) == rows && listed.size() == 3);
}

static void assignment(const std::string &) {
    const list rows = {4, 5, 6};
    numbers vector{1, 2};
    const numbers other(rows.begin(), rows.end());
    vector = other;
    HOLDS(rows_of(vector) == rows && rows_of(other) == rows);
    const numbers &itself = vector;
    vector = itself;
    HOLDS(rows_of(vector) == rows);
    vector = {7, 8};
    HOLDS(rows_of(vector) == list({7, 8}));
    vector = numbers(2, 3);
    HOLDS(rows_of(vector) == list({3, 3}));
    vector.assign(3, 5);
    HOLDS(rows_of(vector) == list({5, 5, 5}));
    vector.assign(rows.begin(), rows.end());
    HOLDS(rows_of(vector) == rows);
    vector.assign({1});
    HOLDS(rows_of(vector) == list({1}));
    vector = {};
    HOLDS(vector.empty());
}

static void swapping(const std::string &) {
    numbers a{1, 2}, b{3};
    const int *const first = std::addressof(a[0]);
    a.swap(b);
    HOLDS(rows_of(a) == list({3}) && rows_of(b) == list({1, 2}) && first == std::addressof(b[0]) && *first == 1);
    swap(a, b);
    HOLDS(rows_of(a) == list({1, 2}) && rows_of(b) == list({3}));
}

// ---- growing

static void growing(const std::string &) {
    numbers vector;
    const std::list<int> linked = {20, 21};
    HOLDS(*vector.push_back(5) == 5 && vector.push_back(6) - vector.begin() == 1);
    HOLDS(*vector.emplace_back(7) == 7);
    HOLDS(vector.grow_by(2) - vector.begin() == 3 && vector.grow_by(2, 9) - vector.begin() == 5);
    HOLDS(*vector.grow_by(linked.begin(), linked.end()) == 20 && *vector.grow_by({30, 31, 32}) == 30);
    HOLDS(rows_of(vector) == list({5, 6, 7, 0, 0, 9, 9, 20, 21, 30, 31, 32}));
    HOLDS(vector.grow_to_at_least(14) - vector.begin() == 12 && vector.size() == 14 && vector[13] == 0);
    HOLDS(vector.grow_to_at_least(15, 8) - vector.begin() == 14 && vector[14] == 8);
    vector.grow_to_at_least(3);
    HOLDS(vector.size() == 15);
    vector_of<std::pair<int, double>> pairs;
    HOLDS(pairs.emplace_back(1, 0.5)->second == 0.5 && *pairs.push_back({2, 1.5}) == (std::pair<int, double>(2, 1.5)));
}

// What stands is where it was, and is what it was, whatever comes.
static void addresses(const std::string &) {
    vector_of<point> vector;
    std::vector<const point *> places;
    std::vector<vector_of<point>::iterator> iterators;
    for (int k = 0; k < 5000; ++k) {
        iterators.push_back(vector.push_back({k, -k}));
        places.push_back(std::addressof(*iterators.back()));
    }
    vector.grow_by(5000);
    vector.grow_to_at_least(20000);
    vector.reserve(30000);
    for (int k = 0; k < 5000; ++k) {
        const auto at = static_cast<std::size_t>(k);
        HOLDS(std::addressof(vector[at]) == places[at] && *places[at] == (point{k, -k}) && iterators[at]->y == -k);
        if (wrong != 0) return;
    }
}

static void threads(const std::string &) {
    numbers vector;
    std::atomic<bool> is_right{true};
    in_threads(8, [&](std::uint64_t k) {
        const int mine = static_cast<int>(k) * 1000;
        for (int turn = 0; turn < 1000; turn += 10) {
            list some(8);
            std::iota(some.begin(), some.end(), mine + turn);
            const auto first = vector.grow_by(some.begin(), some.end());
            if (!std::equal(some.begin(), some.end(), first)) is_right = false;
            if (*vector.push_back(mine + turn + 8) != mine + turn + 8 || *vector.emplace_back(mine + turn + 9) % 10 != 9) is_right = false;
            for (const int row : vector)
                if (row < 0 || row >= 8000) is_right = false;
            if (turn > 100) continue;
            vector.grow_to_at_least(50);
        }
    });
    const list found = rows_of(vector);
    HOLDS(is_right && std::set<int>(found.begin(), found.end()).size() == 8000);
}

// ---- access

static void access(const std::string &) {
    numbers vector{1, 2, 3};
    const numbers &same = vector;
    HOLDS(vector[0] == 1 && same[2] == 3 && vector.at(1) == 2 && same.at(1) == 2);
    HOLDS(vector.front() == 1 && same.front() == 1 && vector.back() == 3 && same.back() == 3);
    HOLDS(std::addressof(vector[1]) == std::addressof(same.at(1)) && std::addressof(*(vector.begin() + 1)) == std::addressof(vector[1]));
    HOLDS(is_out_of_range([&] { static_cast<void>(vector.at(3)); }) && is_out_of_range([&] { static_cast<void>(same.at(100)); }));
}

static void iterators(const std::string &) {
    numbers vector(3000);
    vector.clear();
    for (int k = 0; k < 3000; ++k) vector.push_back(k);
    const numbers &same = vector;
    HOLDS(std::is_sorted(vector.begin(), vector.end()) && std::is_sorted(same.rbegin(), same.rend(), std::greater<>()));
    HOLDS(vector.end() - vector.begin() == 3000 && *(vector.rend() - 1) == 0 && *vector.rbegin() == 2999);
    HOLDS(*std::lower_bound(vector.cbegin(), vector.cend(), 1234) == 1234 && *(vector.crbegin() + 5) == 2994 && *(vector.crend() - 1) == 0);
    numbers::iterator at = vector.begin() + 10;
    numbers::const_iterator other = at;
    HOLDS(at == other && other == at && *at++ == 10 && *++at == 12 && *--at == 11 && *at-- == 11 && other - at == 0 && at[5] == 15);
    at += 100;
    at -= 50;
    HOLDS(*at == 60 && at > other && other < at && at >= other && other <= at && at != other && 5 + at == at + 5 && *(at - 1) == 59);
    HOLDS(std::addressof(*at) == at.operator->());
#if __cplusplus >= 202002L
    static_assert(std::random_access_iterator<numbers::iterator> && std::random_access_iterator<numbers::const_iterator>);
#endif
}

static void ranges(const std::string &) {
    numbers vector(100, 1);
    const numbers &same = vector;
    numbers::range_type whole = vector.range(30);
    HOLDS(whole.size() == 100 && whole.grainsize() == 30 && whole.is_divisible() && !whole.empty());
    HOLDS(std::accumulate(whole.begin(), whole.end(), 0) == 100 && same.range().grainsize() == 1 && same.range().size() == 100);
}

// ---- storage

static void storage(const std::string &) {
    numbers vector;
    HOLDS(vector.empty() && vector.size() == 0 && vector.max_size() > 1000000);
    vector.reserve(1000);
    HOLDS(vector.empty() && vector.capacity() >= 1000);
    vector.grow_by(1500, 4);
    HOLDS(vector.capacity() >= 1500);
    vector.resize(10);
    HOLDS(vector.size() == 10);
    vector.resize(12);
    HOLDS(vector.size() == 12 && vector[11] == 0);
    vector.resize(14, 6);
    HOLDS(rows_of(vector) == list({4, 4, 4, 4, 4, 4, 4, 4, 4, 4, 0, 0, 6, 6}));
    vector.shrink_to_fit();
    HOLDS(vector.size() == 14 && vector[13] == 6 && vector.capacity() >= 14);
    vector.clear();
    HOLDS(vector.empty() && vector.begin() == vector.end());
    vector.push_back(1);
    HOLDS(rows_of(vector) == list({1}));
}

static void comparisons(const std::string &) {
    const numbers a{1, 2}, same{1, 2}, longer{1, 2, 3}, greater{2};
    HOLDS(a == same && !(a != same) && a != longer && a < longer && longer < greater && !(greater < a));
    HOLDS(greater > longer && a <= same && a >= same && a <= longer && greater >= a && !(a > same));
#if __cplusplus >= 202002L
    HOLDS((a <=> same) == 0 && (a <=> longer) < 0 && (greater <=> longer) > 0);
#endif
}

// ---- what is missing here, with its reason in docs/use/cpp.md: it is there in oneTBB's alone

template <class Vector, class = void> struct has_allocator : std::false_type {};
template <class Vector> struct has_allocator<Vector, std::void_t<typename Vector::allocator_type>> : std::true_type {};

template <class Vector, class = void> struct gives_allocator : std::false_type {};
template <class Vector>
struct gives_allocator<Vector, std::void_t<decltype(std::declval<Vector>().get_allocator())>> : std::true_type {};

static void what_is_missing(const std::string &) {
    static_assert(has_allocator<numbers>::value == is_onetbb && gives_allocator<numbers>::value == is_onetbb);
    // Rows aren't written by what is lent.
    static_assert(std::is_assignable_v<numbers::reference, int> == is_onetbb);
    static_assert(std::is_assignable_v<decltype(std::declval<numbers &>()[0]), int> == is_onetbb);
    static_assert(std::is_assignable_v<decltype(*std::declval<numbers &>().begin()), int> == is_onetbb);
    static_assert(std::is_same_v<numbers::pointer, int *> == is_onetbb);
    // A copy is said, and not passed.
    static_assert(std::is_convertible_v<const numbers &, numbers> == is_onetbb);
}

int main(int argc, char **argv) {
    static const behaviours_by_name all = {
        {"types", types},
        {"constructors", constructors},
        {"deduction", deduction},
        {"assignment", assignment},
        {"swapping", swapping},
        {"growing", growing},
        {"addresses", addresses},
        {"threads", threads},
        {"access", access},
        {"iterators", iterators},
        {"ranges", ranges},
        {"storage", storage},
        {"comparisons", comparisons},
        {"what_is_missing", what_is_missing},
    };
    return behave(argc, argv, all);
}
