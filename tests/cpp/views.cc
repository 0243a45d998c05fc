// Views beside the calls that want the vector alone, each behaviour by its name: views NAME FILE. The status is 0 where it is as
// promised; else a line says what isn't. The files that it leaves begin with that name.
#define cvec_seat_pieces refused_pieces
#include "told.hpp"
#undef cvec_seat_pieces

#include <algorithm>
#include <memory>
#include <numeric>
#include <optional>
#include <sys/wait.h>
#include <unistd.h>

using namespace std::chrono_literals;
using numbers = cvec::concurrent_vector<std::uint64_t>;
using view = cvec::view<std::uint64_t>;
using list = std::vector<std::uint64_t>;

// So often the vector tells no pieces, for want of memory.
static int refusals_to_come = 0;

extern "C" cvec_status cvec_seat_pieces(cvec_seat *, std::uint64_t, cvec_piece *, std::size_t, std::size_t *);
extern "C" cvec_status refused_pieces(cvec_seat *seat, std::uint64_t from, cvec_piece *out, std::size_t room,
                                        std::size_t *count) {
    if (refusals_to_come == 0) return cvec_seat_pieces(seat, from, out, room, count);
    --refusals_to_come;
    return CVEC_MEMORY;
}

// Calls wait so long for views.
static cvec::options waiting(std::chrono::milliseconds longest) { return {cvec::opening::open_or_create, 1, 64, 0, longest}; }

// What a view shows, and where its rows stood when it was made.
struct shown {
    explicit shown(const numbers &vector) : rows(vector.view()), copies(rows.begin(), rows.end()) {
        for (std::size_t k = 0; k < rows.size(); ++k) places.push_back(&rows[k]);
    }

    bool is_as_it_was() const {
        bool is_right = rows.size() == copies.size();
        for (std::size_t k = 0; is_right && k < copies.size(); ++k) is_right = &rows[k] == places[k] && *places[k] == copies[k];
        return is_right;
    }

    view rows;
    list copies;
    std::vector<const std::uint64_t *> places;
};

// The calls of a vector that want it alone.
using call = std::function<void(numbers &)>;

static const std::map<std::string, call> &calls_alone() {
    static const list rows = {70, 80};
    static const std::map<std::string, call> all = {
        {"change", [](numbers &it) { it.change(1, 7); }},
        {"change by a range", [](numbers &it) { it.change(0, rows.begin(), rows.end()); }},
        {"change by a list",
         [](numbers &it) {
             it.change(0, {7, 8});
         }},
        {"fold", [](numbers &it) { it.fold(); }},
        {"compact", [](numbers &it) { it.compact(); }},
        {"resize", [](numbers &it) { it.resize(1); }},
        {"clear", [](numbers &it) { it.clear(); }},
        {"close", [](numbers &it) { it.close(); }},
    };
    return all;
}

// ---- refused

// While a view lives each is refused at once, and nothing is done: nothing is settled, and what is lent stays.
static void each_call(const std::string &path) {
    for (const auto &[name, alone] : calls_alone()) {
        const std::string file = path + "." + name;
        numbers vector(file);
        vector.grow_by({1, 2, 3});
        vector.push_back(4);
        {
            const shown all(vector);
            const std::uint64_t &early = vector[2];
            HOLDS(status_of([&, &it = alone] { it(vector); }) == CVEC_BUSY && all.is_as_it_was() && early == 3 &&
                  &early == &vector[2]);
            HOLDS(vector.settled() == 0 && vector.size() == 4);
            // All else goes on.
            const cvec::growth grown = vector.append(std::uint64_t{5});
            HOLDS(grown.number == 2 && grown.first == 4 && vector[4] == 5 && vector.copy(0) == 1);
            vector.grow_with(1, [](auto &rows) { rows[0] = 6; });
            vector.settle();
            vector.resize(7, 7);
            HOLDS(vector.settled() == 4 && list(vector.begin(), vector.end()) == list({1, 2, 3, 4, 5, 6, 7}));
            HOLDS(status_of([&, &it = alone] { it(vector); }) == CVEC_BUSY && all.is_as_it_was() && vector.view().size() == 7);
        }
        HOLDS(status_of([&, &it = alone] { it(vector); }) == CVEC_DONE);
        if (wrong != 0) std::printf("beside: %s\n", name.c_str());
    }
}

static std::string words_of(const std::function<void()> &refused) {
    try {
        refused();
        return "none";
    } catch (const cvec::error &refusal) {
        return refusal.what();
    }
}

static void the_reason(const std::string &path) {
    numbers vector(path);
    vector.push_back(1);
    const auto rows = vector.view();
    const std::string reason = "cvec: " + path + ": rows are held, by a view or by a growth in place of this thread";
    HOLDS(words_of([&] { vector.change(0, 2); }) == reason && words_of([&] { vector.close(); }) == reason);
}

// A close that is refused has ended nothing.
static void flushers_go_on(const std::string &path) {
    numbers vector(path);
    vector.push_back(1);
    std::thread flusher([&] { vector.run_flusher(1ms); });
    {
        const auto rows = vector.view();
        HOLDS(status_of([&] { vector.close(); }) == CVEC_BUSY);
        const cvec::growth made = vector.append(std::uint64_t{2});
        const auto end = std::chrono::steady_clock::now() + 10s;
        while (!vector.is_settled(made) && std::chrono::steady_clock::now() < end) std::this_thread::sleep_for(1ms);
        HOLDS(vector.is_settled(made));
    }
    vector.close();
    flusher.join();
}

// A refusal leaves no hold: of a vector that is closed, or was moved from, or for want of memory.
static void no_view(const std::string &path) {
    numbers vector(path), other(std::move(vector));
    HOLDS(status_of([&] { static_cast<void>(vector.view()); }) == CVEC_NOT_SO);
    HOLDS(other.view().empty() && other.view().begin() == other.view().end());
    other.push_back(1);
    refusals_to_come = 1;
    HOLDS(status_of([&] { static_cast<void>(other.view()); }) == CVEC_MEMORY && refusals_to_come == 0);
    other.change(0, 2);
    HOLDS(other.view()[0] == 2);
    other.close();
    HOLDS(status_of([&] { static_cast<void>(other.view()); }) == CVEC_NOT_SO);
}

// ---- copies

static bool is_held(numbers &vector) {
    return status_of([&] { vector.fold(); }) == CVEC_BUSY;
}

// Each copy holds for itself, and one that was moved from holds nothing.
static void copies(const std::string &path) {
    numbers vector(path), other(path + ".other");
    vector.grow_by({1, 2, 3});
    other.grow_by({9, 9});
    std::optional<view> first(vector.view()), second(first);
    first.reset();
    HOLDS(is_held(vector) && second->size() == 3 && (*second)[2] == 3);
    view moved(std::move(*second));
    HOLDS(is_held(vector) && moved.size() == 3 && second->empty() && second->begin() == second->end());
    second.reset();
    HOLDS(is_held(vector) && !is_held(other));
    view of_other = other.view();
    HOLDS(is_held(other));
    of_other = moved;
    HOLDS(!is_held(other) && of_other.size() == 3 && of_other[0] == 1);
    moved = other.view();
    HOLDS(is_held(vector) && is_held(other) && moved.size() == 2 && moved[1] == 9);
    moved = std::move(of_other);
    HOLDS(is_held(vector) && !is_held(other) && of_other.empty() && moved[1] == 2);
    const view &same = moved;
    moved = same;
    HOLDS(is_held(vector) && moved[1] == 2);
    moved = other.view();
    HOLDS(!is_held(vector) && is_held(other));
}

// A view of a moment doesn't grow, and by it are other references good.
static void what_it_shows(const std::string &path) {
    numbers vector(path);
    vector.grow_by({4, 5, 6});
    const auto rows = vector.view();
    vector.grow_by({7, 8});
    std::uint64_t sum = 0;
    for (const std::uint64_t row : rows) sum += row;
    for (const std::uint64_t &row : vector.view()) sum += 100 * row;
    rows.for_each_piece([&](const auto &some) { HOLDS(some.first() == 0 && some.size() == 3); });
    HOLDS(sum == 15 + 100 * 30 && rows.size() == 3 && rows.end() - rows.begin() == 3 && !rows.empty());
}

// ---- waited for

// The call waits for a view as long as was chosen, and not longer than that.
static void a_call_waits(const std::string &path) {
    for (const auto &[name, alone] : calls_alone()) {
        numbers vector(path + "." + name, waiting(20s));
        vector.grow_by({1, 2, 3, 4});
        auto all = std::make_unique<shown>(vector);
        std::atomic<bool> is_done{false};
        std::thread other([&, &it = alone] {
            it(vector);
            is_done = true;
        });
        std::this_thread::sleep_for(30ms);
        HOLDS(!is_done && all->is_as_it_was());
        // Calls go on meanwhile, also those that hold.
        vector.push_back(5);
        HOLDS(vector.view().size() == 5 && vector.copy(4) == 5 && !is_done);
        all.reset();
        other.join();
        HOLDS(is_done);
    }
}

static void a_wait_ends(const std::string &path) {
    numbers vector(path, waiting(50ms));
    vector.grow_by({1, 2, 3});
    const shown all(vector);
    for (const auto &[name, alone] : calls_alone()) {
        const auto begun = std::chrono::steady_clock::now();
        HOLDS(status_of([&, &it = alone] { it(vector); }) == CVEC_BUSY && all.is_as_it_was());
        const auto waited = std::chrono::steady_clock::now() - begun;
        HOLDS(waited >= 50ms && waited < 5s);
    }
    // Two at once wait no longer than one.
    const auto begun = std::chrono::steady_clock::now();
    in_threads(8, [&](std::uint64_t k) { HOLDS(status_of([&] { vector.change(0, k); }) == CVEC_BUSY); });
    HOLDS(std::chrono::steady_clock::now() - begun < 350ms);
}

// What readers see of rows that are all the same but while they are changed.
static void see_one_row(const numbers &vector, const std::atomic<bool> &is_over, std::atomic<bool> &is_right) {
    while (!is_over) {
        const auto rows = vector.view();
        if (rows.empty()) continue;
        const std::uint64_t first = rows[0];
        for (const std::uint64_t &row : rows)
            if (row != first) is_right = false;
        std::this_thread::yield();
        for (std::size_t k = 0; k < rows.size(); ++k)
            if (vector[k] != first) is_right = false;
    }
}

// Views one behind another, without a pause, hold no call up for long.
static void calls_come_soon(const std::string &path) {
    // With little room a seat takes no long time to make, also under sanitizers: a view that does is waited for.
    auto few = waiting(20s);
    few.growths = 1000;
    numbers vector(path, few);
    vector.grow_by(100, 1);
    std::atomic<bool> is_over{false}, is_right{true};
    std::vector<std::thread> readers;
    for (int k = 0; k < 6; ++k) readers.emplace_back([&] { see_one_row(vector, is_over, is_right); });
    const auto begun = std::chrono::steady_clock::now();
    for (std::uint64_t turn = 2; turn < 30 && is_right; ++turn) {
        const list rows(100, turn);
        vector.change(0, rows.begin(), rows.end());
        if (turn % 5 == 0) vector.compact();
        if (turn % 7 == 0) vector.fold();
    }
    vector.clear();
    vector.grow_by(50, 3);
    HOLDS(std::chrono::steady_clock::now() - begun < 10s);
    is_over = true;
    for (std::thread &one : readers) one.join();
    HOLDS(is_right && vector.size() == 50);
}

// A view within a view waits a moment for a call that waits for the outer one, and not for its whole time.
static void a_view_within_a_view(const std::string &path) {
    numbers vector(path, waiting(20s));
    vector.grow_by({1, 2});
    auto outer = std::make_unique<view>(vector.view());
    std::thread other([&] { vector.change(0, 9); });
    std::this_thread::sleep_for(20ms);
    const auto begun = std::chrono::steady_clock::now();
    HOLDS(vector.view()[0] == 1 && view(*outer)[1] == 2);
    HOLDS(std::chrono::steady_clock::now() - begun < 10s);
    outer.reset();
    other.join();
    HOLDS(vector[0] == 9);
}

// ---- a vector that is gone first

// Its file stays open until the last view has gone, and is closed then.
static void it_outlives_the_vector(const std::string &path) {
    std::optional<shown> all;
    {
        numbers vector(path);
        vector.grow_by({1, 2, 3});
        all.emplace(vector);
    }
    HOLDS(all->is_as_it_was() && std::accumulate(all->rows.begin(), all->rows.end(), std::uint64_t{0}) == 6);
    HOLDS(status_of([&] { numbers vector(path); }) == CVEC_IN_USE);
    view last(all->rows);
    all.reset();
    HOLDS(status_of([&] { numbers vector(path); }) == CVEC_IN_USE && last[2] == 3);
    { view gone(std::move(last)); }
    HOLDS(status_of([&] { numbers vector(path); }) == CVEC_DONE);
}

// The same of a vector that is assigned over.
static void it_outlives_an_assignment(const std::string &path) {
    numbers vector(path), other(path + ".other");
    vector.grow_by({1, 2, 3});
    other.push_back(9);
    {
        const shown all(vector);
        vector = std::move(other);
        HOLDS(all.is_as_it_was() && vector.size() == 1 && vector[0] == 9);
        vector.change(0, 8);
        HOLDS(all.is_as_it_was() && vector[0] == 8);
        HOLDS(status_of([&] { numbers again(path); }) == CVEC_IN_USE);
    }
    HOLDS(status_of([&] { numbers again(path); }) == CVEC_DONE);
    // It goes with the file, whichever object has that.
    numbers third(path + ".third");
    const shown of_other(vector);
    swap(vector, third);
    HOLDS(of_other.is_as_it_was() && is_held(third) && !is_held(vector));
    const numbers moved(std::move(third));
    HOLDS(of_other.is_as_it_was() && moved[0] == 8);
}

// What was grown before is there behind it: what a destructor commits is committed with the last view.
static void what_was_grown_is_kept(const std::string &path) {
    {
        std::optional<view> last;
        numbers vector(path);
        vector.grow_by({1, 2, 3});
        last.emplace(vector.view());
        vector = numbers(path + ".other");
    }
    const numbers again(path, {cvec::opening::open});
    HOLDS(list(again.begin(), again.end()) == list({1, 2, 3}));
}

// ---- a fork

// A child's views are its own: they hold up nobody, and their end is nobody's.
static void a_child_has_its_own(const std::string &path) {
    cvec::options wanted = for_a_fork(8);
    wanted.wait_for_views = 10s;
    numbers vector(path, wanted);
    vector.grow_by({1, 2, 3});
    auto rows = std::make_unique<view>(vector.view());
    std::atomic<bool> is_done{false};
    std::thread other([&] {
        vector.change(0, 7);
        is_done = true;
    });
    std::this_thread::sleep_for(10ms);
    const pid_t child = ::fork();
    if (child == 0) {
        ::alarm(10);
        bool is_right = (*rows)[0] == 1 && view(*rows)[2] == 3;
        rows.reset();
        is_right =
            is_right && status_of([&] { vector.change(0, 9); }) == CVEC_FORKED && status_of([&] { vector.close(); }) == CVEC_DONE;
        ::_exit(is_right ? 0 : 1);
    }
    int ended = 1;
    ::waitpid(child, &ended, 0);
    HOLDS(ended == 0 && !is_done && (*rows)[0] == 1);
    rows.reset();
    other.join();
    HOLDS(is_done && vector[0] == 7);
}

int main(int argc, char **argv) {
    static const behaviours_by_name all = {
        {"each_call", each_call},
        {"the_reason", the_reason},
        {"flushers_go_on", flushers_go_on},
        {"no_view", no_view},
        {"copies", copies},
        {"what_it_shows", what_it_shows},
        {"a_call_waits", a_call_waits},
        {"a_wait_ends", a_wait_ends},
        {"calls_come_soon", calls_come_soon},
        {"a_view_within_a_view", a_view_within_a_view},
        {"it_outlives_the_vector", it_outlives_the_vector},
        {"it_outlives_an_assignment", it_outlives_an_assignment},
        {"what_was_grown_is_kept", what_was_grown_is_kept},
        {"a_child_has_its_own", a_child_has_its_own},
    };
    return behave(argc, argv, all);
}
